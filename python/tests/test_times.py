"""Times, leap lists and changes of scale."""

import pickle
import unittest

import vrikshonem as vrk
from desk import LIST, SECOND, Desk, correlation, goce
from vrikshonem import Decimal, Gps, LeapList, Tai, Utc


class Times(Desk):
    def test_decimal_days(self):
        self.assertEqual(Utc.from_decimal(Utc(0, 1).to_decimal()), Utc(0, 1))
        self.assertEqual(vrk.change(Decimal(6209.5, Utc), Tai, LIST), Tai(6209, 43_236 * SECOND))

    def test_scales_are_kept_apart(self):
        self.assertNotEqual(Tai(0, 0), Gps(0, 0))
        with self.assertRaises(TypeError):
            correlation(0, Tai(0, 0), 1, 1).date(0, Gps(0, 0), LIST)
        with self.assertRaises(TypeError):
            goce().date(0, Tai(0, 0), LIST)

    def test_a_list_ends(self):
        vrk.text_read("31-DEC-2024 23:59:59", LIST)
        self.refused(vrk.ListExpired, vrk.text_read, "01-JAN-2025 00:00:00", LIST)
        self.refused(vrk.ListExpired, vrk.text_write, Utc(9132, 0), 20, LIST)
        longer = LeapList(LIST.days, LIST.offsets, 9132)
        self.assertEqual(vrk.text_write(Utc(9132, 0), 20, longer), "01-JAN-2025 00:00:00")

    def test_a_list_stays_as_it_was_built(self):
        days = list(LIST.days)
        held = LeapList(days, LIST.offsets, 9131)
        days.clear()
        self.assertEqual(held, LIST)
        self.assertEqual(pickle.loads(pickle.dumps(held)), LIST)
        with self.assertRaises(AttributeError):
            held.last = 9132

    def test_a_list_of_any_length(self):
        self.refused(vrk.ListNotAccepted, Tai(0, 0).to_utc, LeapList(range(10_000), range(10_000), 9131))

    # 2^64 more is the same number to a field of 64 bits.
    def test_numbers_too_wide(self):
        self.refused(vrk.OutsideSpan, Tai(2**64, 0).to_gps)
        self.refused(vrk.OutsideSpan, Tai(0, 2**64).to_gps)
        self.refused(vrk.OutsideSpan, Tai(0, -1).to_gps)
        self.refused(vrk.OutsideSpan, Tai.from_decimal, 10**400)
        self.assertTrue(LIST.is_accepted())
        wide = [day + 2**64 for day in LIST.days]
        self.assertFalse(LeapList(wide, LIST.offsets, 9131).is_accepted())
        self.assertFalse(LeapList(LIST.days, LIST.offsets, 9131 + 2**64).is_accepted())


if __name__ == "__main__":
    unittest.main()
