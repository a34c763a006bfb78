"""The byte layouts and texts, and the memory that is lent to their writers."""

import unittest

import vrikshonem as vrk
from desk import DAY, LIST, Desk
from vrikshonem import Gps, Refused, Tai, Utc


class Layouts(Desk):
    def test_lent_bytes(self):
        for write, given, length in [
            (vrk.cuc_write, (Gps(0, 15),), 6),
            (vrk.goce_write, (1,), 6),
            (vrk.obet_write, (1,), 8),
            (vrk.proteus_write, (Utc(0, 0),), 8),
            (vrk.cryosat_write, (Tai(1, 1),), 8),
            (vrk.siral_write, (Tai(1, 1),), 10),
            (vrk.sbt_write, (1,), 4),
            (vrk.text_write, (Gps(0, 0), 24, LIST), 24),
        ]:
            out = bytearray(b"\xa5" * 32)
            image = write(*given, out)
            image = image.encode() if isinstance(image, str) else image
            self.assertEqual((len(image), bytes(out)), (length, image + b"\xa5" * (32 - length)), write.__name__)
            again = write(*given)
            self.assertEqual(again.encode() if isinstance(again, str) else again, image, write.__name__)

    def test_writings_read_back(self):
        self.assertEqual(vrk.cuc_write(Gps(-7300, 15)), b"\0\0\0\0\0\1")
        self.assertEqual(vrk.cuc_fields_read(b"\0\0\0\0\0\1"), (0, 1))
        time = Tai(36524, DAY - 1)
        self.assertEqual(vrk.cryosat_read(vrk.cryosat_write(time)), time)
        self.assertEqual(vrk.siral_read(vrk.siral_write(time)), time)
        self.assertEqual(vrk.cryosat_fields_read(vrk.cryosat_fields_write(1, 2, 3)), (1, 2, 3))
        self.assertEqual(vrk.siral_fields_read(vrk.siral_fields_write(1, 2, 3, 4)), (1, 2, 3, 4))
        self.assertEqual(vrk.goce_read(vrk.goce_write(0x010203040506)), 0x010203040506)
        self.assertEqual(vrk.obet_read(vrk.obet_write(9)), 9)
        self.assertEqual(vrk.sbt_read(vrk.sbt_write(0x80000001)), 0x80000001)

    def test_h3_is_a_bit(self):
        for h3 in 2, -1:
            self.refused(vrk.FieldOver, vrk.proteus_fields_write, 0, h3, 0, 0)

    def test_slices_of_any_length(self):
        self.refused(vrk.LengthIsNone, vrk.cuc_read, b"")
        self.refused(vrk.LengthIsNone, vrk.cuc_read, bytes(100_000))
        self.refused(vrk.LengthIsNone, vrk.text_read, "0" * 100_000, LIST)
        out = bytearray(b"\xa5" * 100_000)
        vrk.cuc_write(Gps(0, 0), out)
        self.assertEqual(out, vrk.cuc_write(Gps(0, 0)) + b"\xa5" * 99_994)

    def test_a_refusal_gives_the_lent_bytes_back(self):
        out = bytearray(5)
        try:
            vrk.cuc_write(Gps(0, 0), out)
        except Refused as refused:
            # still lent, it could not grow
            out.append(refused.number)
        self.assertEqual(out, bytes([0, 0, 0, 0, 0, vrk.OutputShorter.number]))

    def test_texts(self):
        time = Utc(6209, DAY)
        for form, text in [
            (20, "31-DEC-2016 23:59:60"),
            (24, "UTC=31-DEC-2016 23:59:60"),
            (27, "31-DEC-2016 23:59:60.000000"),
            (31, "UTC=31-DEC-2016 23:59:60.000000"),
        ]:
            self.assertEqual(vrk.text_write(time, form, LIST), text)
            self.assertEqual(vrk.text_read(text, LIST), time)
        self.assertEqual(vrk.text_read(b"GPS=01-JAN-2000 00:00:00", LIST), Gps(0, 0))
        self.assertEqual(vrk.text_read("TAI=01-JAN-2000 00:00:00", LIST), Tai(0, 0))
        self.refused(vrk.FieldOver, vrk.text_read, "31-D\u00c9C-2016 23:59:59", LIST)

    # 2^64 more is the same number to a field of 64 bits.
    def test_numbers_too_wide(self):
        self.refused(vrk.FieldOver, vrk.goce_write, 2**64)
        self.refused(vrk.FieldOver, vrk.goce_write, -1)
        self.refused(vrk.FieldOver, vrk.sbt_write, 2**32)
        self.refused(vrk.FieldOver, vrk.cuc_fields_write, 2**32, 0)
        self.refused(vrk.FieldOver, vrk.text_write, Utc(0, 0), 2**32 + 20, LIST)


if __name__ == "__main__":
    unittest.main()
