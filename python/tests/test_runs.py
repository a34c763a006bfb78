"""SIRAL's runs."""

import pickle
import unittest

import vrikshonem as vrk
from desk import DAY, Desk
from vrikshonem import Run, Tai

# A second that passes midnight, and its first microsecond.
PULSE = 4017, 86_399_500, 250
BEGIN = 4017 * DAY + 86_399_500_250
# Equal neighbours, some that are a unit less than a roll apart, and the last total of all.
TOTALS = [0, 0, 1, 65_535, 65_536, 65_536, 131_071, 196_606, 262_141, 327_676, 393_211, 458_746, 484_848]


def packets(totals, pulse=PULSE):
    return b"".join(vrk.siral_fields_write(*pulse, total % 65_536) for total in totals)


class Runs(Desk):
    def test_a_second_is_dated_together(self):
        data = packets(TOTALS)
        run = vrk.siral_run(data)
        self.assertEqual(run, Run([BEGIN + total * 33 // 16 for total in TOTALS], 484_848))
        self.assertEqual([run.dates[k] - BEGIN for k in (3, 4, 12)], [135_165, 135_168, 999_999])
        self.assertEqual([type(date) for date in run.dates], [int] * 13)
        # alone, the packet after the first roll is dated at the second's beginning
        self.assertEqual(vrk.siral_read(data[40:50]), Tai(4017, 86_399_500_250))
        for other in bytearray(data), memoryview(data), memoryview(data + data)[:130]:
            self.assertEqual(vrk.siral_run(other), run)
        again = pickle.loads(pickle.dumps(run))
        self.assertEqual((type(again), again), (Run, run))

    def test_parts_are_told_on(self):
        data = packets(TOTALS)
        whole = vrk.siral_run(data)
        for cut in range(0, 131, 10):
            first = vrk.siral_run(data[:cut])
            rest = vrk.siral_run(data[cut:], told=first.last)
            self.assertEqual(Run(first.dates + rest.dates, rest.last), whole, cut)

    def test_the_first_total_is_not_below_what_is_told(self):
        for told, extra, last in (0, 5, 5), (5, 5, 5), (6, 5, 65_541), (65_530, 5, 65_541), (200_000, 3_392, 200_000):
            self.assertEqual(vrk.siral_run(packets([extra]), told), Run([BEGIN + last * 33 // 16], last))

    def test_a_run_of_one_is_what_is_read(self):
        for extra in 0, 1, 16, 65_535:
            data = packets([extra])
            time = vrk.siral_read(data)
            self.assertEqual(vrk.siral_run(data), Run([time.day * DAY + time.micro], extra))

    def test_an_empty_run_is_answered(self):
        self.assertEqual(vrk.siral_run(b""), Run([], 0))
        for told in 0, 65_536, 484_849, 2**63, 2**64 - 1:
            self.assertEqual(vrk.siral_run(b"", told), Run([], told))

    def test_every_refusal(self):
        data = packets([0, 65_000, 65_000])
        # another day, millisecond and microsecond of the second packet
        for place in 10, 11, 15, 17:
            differ = bytearray(data)
            differ[place] ^= 1
            self.refused(vrk.NotOneSecond, vrk.siral_run, differ)
            # 3 of any packet before 16, and 1 before 3
            differ[22:26] = (86_400_000).to_bytes(4, "big")
            self.refused(vrk.FieldOver, vrk.siral_run, differ, 2**64 - 1)
            self.refused(vrk.LengthIsNone, vrk.siral_run, differ[:29], 2**64 - 1)
        self.refused(vrk.FieldOver, vrk.siral_run, data[:6] + (1000).to_bytes(2, "big") + bytes(2))
        for length in 1, 9, 11, 25:
            self.refused(vrk.LengthIsNone, vrk.siral_run, data[:length])
        # the last total below a second is answered, and none above it
        self.assertEqual(vrk.siral_run(packets([484_848]), 484_848).last, 484_848)
        self.refused(vrk.NotOneSecond, vrk.siral_run, packets([484_849]), 484_848)
        for told in 484_849, 2**64 - 65_536, 2**64 - 1:
            self.refused(vrk.NotOneSecond, vrk.siral_run, data, told)
        # the span's last microsecond; 7 of the last date, after 16
        end = 36524, 86_399_999, 999
        self.assertEqual(vrk.siral_run(packets([0], end)), Run([36525 * DAY - 1], 0))
        self.refused(vrk.OutsideSpan, vrk.siral_run, packets([0, 1], end))
        self.refused(vrk.NotOneSecond, vrk.siral_run, packets([484_849], end), 484_848)
        self.refused(vrk.OutsideSpan, vrk.siral_run, packets([0], (65_535, 0, 0)))

    # 2^64 more is the same number to a field of 64 bits.
    def test_numbers_too_wide(self):
        one, next_day = packets([0]), packets([0], (4018, 0, 0))
        for told in -1, 2**64, 2**64 + 5, -(2**64):
            for data in b"", one, one + next_day:
                self.refused(vrk.FieldOver, vrk.siral_run, data, told)
            # the length is judged before
            self.refused(vrk.LengthIsNone, vrk.siral_run, one + b"\0", told)

    def test_other_kinds(self):
        for given in (10,), ([0] * 10,), ("0" * 10,), (bytes(10), 0.0), (bytes(10), "0"), (bytes(10), None):
            with self.assertRaises(TypeError, msg=str(given)):
                vrk.siral_run(*given)


if __name__ == "__main__":
    unittest.main()
