"""Where a time came from."""

import pickle
import unittest
from dataclasses import replace
from itertools import product

import vrikshonem as vrk
from desk import DAY, LIST, SECOND, Desk, correlation, goce
from vrikshonem import Decimal, Gps, Mark, Tai, Utc

MARKS = [Mark.PLAIN, Mark.proteus(False), Mark.proteus(True), *map(Mark.correlated, (0, 1, 2**64 - 1))]


class One:
    def __index__(self):
        return 1


class Marks(Desk):
    def test_a_mark_is_no_part_of_the_time(self):
        for scale, one, other in product((Tai, Utc, Gps), MARKS, MARKS):
            left, right = scale(0, 2, one), scale(0, 2).with_mark(other)
            self.assertEqual((left.mark, right.mark), (one, other))
            self.assertEqual(left, right)
            self.assertEqual(hash(left), hash(right))
            self.assertEqual({left, right}, {scale(0, 2)})
            self.assertFalse(left < right or left > right)
            self.assertTrue(left <= right and left >= right)
            # another day or microsecond is another time, whatever the marks
            for later in scale(0, 3, other), scale(1, 2, other), scale(1, 1, other):
                self.assertNotEqual(left, later)
                self.assertTrue(left < later and later > left)
                self.assertNotEqual(hash(left), hash(later))
        self.assertEqual(correlation(7, Utc(0, 0, MARKS[1]), 1, 1), correlation(7, Utc(0, 0), 1, 1))

    def test_marks_are_told_apart(self):
        self.assertEqual(len(set(MARKS)), len(MARKS))
        told = [(mark.code, mark.source, mark.h3, mark.reference) for mark in MARKS[:4]]
        self.assertEqual(told, [(0, 0, None, None), (1, 0, False, None), (1, 1, True, None), (2, 0, None, 0)])
        self.assertEqual(Mark(), Mark.PLAIN)
        # what stands for a whole number is held as that number
        for mark in Mark.proteus(True), Mark.correlated(True), Mark(True, One()):
            self.assertEqual((type(mark.code), type(mark.source), mark.source), (int, int, 1))
        for mark in MARKS:
            self.assertEqual(Mark(mark.code, mark.source), mark)
            self.assertEqual(eval(repr(mark)), mark)
        with self.assertRaises(AttributeError):
            Mark.PLAIN.source = 1

    def test_what_is_no_mark(self):
        for make, *given in [
            (Mark.proteus, 2),
            (Mark.proteus, -1),
            (Mark.correlated, -1),
            (Mark.correlated, 2**64),
            (Mark, 0, 1),
            (Mark, 3, 0),
            (Mark, -1, 0),
        ]:
            with self.assertRaises(ValueError, msg=str(given)):
                make(*given)
        for make, *given in [(Mark.proteus, None), (Mark.proteus, "1"), (Mark.correlated, 0.5), (Mark, None)]:
            with self.assertRaises(TypeError, msg=str(given)):
                make(*given)

    def test_what_is_built_is_plain(self):
        for scale in Tai, Utc, Gps:
            self.assertEqual(scale(1, 2).mark, Mark.PLAIN)
            self.assertEqual(repr(scale(1, 2)), f"{scale.__name__}(day=1, micro=2)")

    def test_a_marked_time_shows_its_mark(self):
        for mark in MARKS[1:]:
            time = Utc(1, 2, mark=mark)
            self.assertEqual(repr(time), f"Utc(day=1, micro=2, mark={mark!r})")
            for again in eval(repr(time)), pickle.loads(pickle.dumps(time)), replace(Utc(1, 2), mark=mark):
                self.assertEqual((again, again.mark), (time, mark))

    def test_changes_keep_the_mark(self):
        for mark in MARKS:
            tai, utc, gps = Tai(6210, 36 * SECOND, mark), Utc(6209, DAY, mark), Gps(6210, 17 * SECOND, mark)
            for changed, due in [
                (tai.to_utc(LIST), utc),
                (tai.to_gps(), gps),
                (utc.to_tai(LIST), tai),
                (utc.to_gps(LIST), gps),
                (gps.to_tai(), tai),
                (gps.to_utc(LIST), utc),
                (vrk.change(utc, Utc, LIST), utc),
                (utc.to_tai(LIST).to_utc(LIST), utc),
                (gps.to_utc(LIST).to_gps(LIST), gps),
                (tai.to_gps().to_tai(), tai),
            ]:
                self.assertEqual((changed, changed.mark), (due, mark))
        self.assertEqual(vrk.change(Decimal(6209.5, Utc), Tai, LIST).mark, Mark.PLAIN)

    def test_proteus_keeps_its_bit(self):
        time = Utc(6209, 500_000)
        for mark in MARKS:
            image = vrk.proteus_write(time.with_mark(mark))
            # a reference of 1 is no H3
            h3 = mark == Mark.proteus(True)
            self.assertEqual(vrk.proteus_fields_read(image).h3, h3)
            read = vrk.proteus_read(image)
            self.assertEqual((read, read.mark), (time, Mark.proteus(h3)))
        self.assertEqual(vrk.proteus_read(vrk.proteus_write(Decimal(6209.5, Utc))).mark, Mark.proteus(False))

    def test_dates_are_marked_with_the_reference(self):
        # neither the reference's own mark nor the receipt's is looked at
        for scale, mark in product((Tai, Utc, Gps), MARKS):
            held = correlation(2**32 - 1, scale(6209, 0, mark), 1, 2)
            for tick in 2**32 - 2, 2**32 - 1, 1:
                self.assertEqual(held.date(tick, scale(6209, 7812, mark), LIST).mark, Mark.correlated(2**32 - 1))
        held = goce(obt0=2**48 - 1, utc0=65_536)
        for obt in 2**48 - 2, 2**48 - 1, 8:
            self.assertEqual(held.date(obt, Utc(1, 0, Mark.proteus(True)), LIST).mark, Mark.correlated(2**48 - 1))

    def test_other_readers_give_plain_times(self):
        for time in [
            vrk.cuc_read(bytes.fromhex("000000010001")),
            vrk.cryosat_read(bytes.fromhex("0001000000010001")),
            vrk.siral_read(bytes.fromhex("00010000000100010001")),
            Tai.from_decimal(0.5),
            Utc.from_decimal(0.5),
            Gps.from_decimal(0.5),
            vrk.text_read("TAI=01-JAN-2000 00:00:00", LIST),
            vrk.text_read("31-DEC-2016 23:59:60", LIST),
            vrk.text_read("GPS=01-JAN-2000 00:00:00.000001", LIST),
        ]:
            self.assertEqual(time.mark, Mark.PLAIN, time)

    def test_other_writers_do_not_look_at_the_mark(self):
        def written(mark):
            tai, utc, gps = Tai(1, 1, mark), Utc(1, 1, mark), Gps(1, 1, mark)
            yield vrk.cuc_write(gps)
            yield vrk.cryosat_write(tai)
            yield vrk.siral_write(tai)
            yield vrk.text_write(utc, 27, LIST)
            yield gps.to_decimal()
            yield correlation(5, Utc(1, 0), 10, 10).tick_of(utc, LIST)
            yield goce().count_of(utc, LIST)

        for mark in MARKS:
            self.assertEqual([*written(mark)], [*written(Mark.PLAIN)])


if __name__ == "__main__":
    unittest.main()
