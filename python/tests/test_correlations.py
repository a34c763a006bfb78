"""SBT ticks and GOCE counts."""

import unittest

import vrikshonem as vrk
from desk import DAY, LIST, NONE, SECOND, Desk, correlation, goce
from vrikshonem import Decimal, Gps, LeapList, Tai, Utc

# 31 December 2016, 23:59:59; the day has a second 60, and 256 ticks are a second.
NIGHT = correlation(7, Utc(6209, DAY - SECOND), 2_000, 2_000)
# The same of counts, 1/65536 s later.
NIGHT_COUNTS = goce(utc0=(6209 * 86_400 + 86_399) * 65_536 + 1)
# Without the last step, to that day, which then has no second 60.
SHORTER = LeapList(LIST.days[:27], LIST.offsets[:27], 6209)


class Correlations(Desk):
    def test_a_tick_is_found_again(self):
        held = correlation(5, Utc(0, 0), 10, 10)
        self.assertEqual(held.tick_of(held.date(9, Utc(0, 20_000), LIST), LIST), 9)

    def test_a_window_has_two_ends(self):
        held = correlation(100, Utc(0, SECOND), 2, 5)
        # two ticks back are 7,813 microseconds, rounded down, and five ahead 19,531
        first, last = Utc(0, SECOND - 7813), Utc(0, SECOND + 19_531)
        for tick, time in (98, first), (105, last):
            self.assertEqual(held.date(tick, last, LIST), time)
        for tick in 97, 106:
            self.refused(vrk.NotInForce, held.date, tick, last, LIST)
        # the receipt too
        for receipt in first, last:
            self.assertEqual(held.date(98, receipt, LIST), first)
        for micro in first.micro - 1, last.micro + 1:
            self.refused(vrk.NotInForce, held.date, 98, Utc(0, micro), LIST)
        self.refused(vrk.OutsideSpan, held.date, 100, Utc(0, DAY + SECOND), LIST)

    def test_a_leap_second_counts(self):
        # the window ends 7.8125 s after the reference, and one of these seconds is second 60
        last = Utc(6210, 5_812_500)
        for tick, time in (7, NIGHT.reference), (262, Utc(6209, DAY - 3907)), (263, Utc(6209, DAY)), (519, Utc(6210, 0)):
            self.assertEqual(NIGHT.date(tick, last, LIST), time)
            self.assertEqual(NIGHT.tick_of(time, LIST), tick)
        self.assertEqual(NIGHT.date(7, Utc(6209, DAY + 1), LIST), NIGHT.reference)
        self.refused(vrk.NotInForce, NIGHT.date, 7, Utc(6210, 5_812_501), LIST)
        self.assertEqual(NIGHT_COUNTS.date(65_536, last, LIST), Utc(6209, DAY + 15))
        self.assertEqual(NIGHT_COUNTS.count_of(Utc(6209, DAY + 15), LIST), 65_536)

    def test_a_result_is_not_later_than_its_receipt(self):
        # a microsecond before the result the packet was not yet sent
        for scale in Tai, Gps:
            held = correlation(7, scale(0, DAY - 3906), 0, 1)
            self.assertEqual(held.date(8, scale(1, 0), LIST), scale(1, 0))
            self.refused(vrk.ResultLater, held.date, 8, scale(0, DAY - 1), LIST)
            # past the span's end no receipt is as late, and 11 is left before its first day
            held = correlation(7, scale(36524, DAY - 1), 0, 1)
            self.refused(vrk.ResultLater, held.date, 8, held.reference, LIST)
            held = correlation(7, scale(scale.FIRST_DAY, 0), 1, 0)
            self.refused(vrk.ResultOutside, held.date, 6, held.reference, LIST)
        # into second 60, within it and out of it: the microsecond before midnight is in second 60
        into, out = (Utc(6209, DAY), Utc(6209, DAY - 1)), (Utc(6210, 0), Utc(6209, DAY + SECOND - 1))
        for held, count, (time, before) in [
            (NIGHT, 263, into),
            (NIGHT, 518, (Utc(6209, DAY + SECOND - 3907), Utc(6209, DAY + SECOND - 3908))),
            (NIGHT, 519, out),
            (NIGHT_COUNTS, 65_535, into),
            (NIGHT_COUNTS, 65_536, (Utc(6209, DAY + 15), Utc(6209, DAY + 14))),
            (NIGHT_COUNTS, 2 * 65_536 - 1, out),
        ]:
            self.assertEqual(held.date(count, time, LIST), time)
            self.refused(vrk.ResultLater, held.date, count, before, LIST)
        # 8 stands before it, of the tick and of the receipt
        self.refused(vrk.NotInForce, NIGHT.date, 2008, NIGHT.reference, LIST)
        self.refused(vrk.NotInForce, NIGHT.date, 263, Utc(6209, 0), LIST)

    def test_a_utc_correlation_refuses_by_the_list(self):
        received = Utc(6209, DAY - 1)
        self.refused(vrk.ListNotAccepted, NIGHT.date, 7, received, NONE)
        self.refused(vrk.ListNotAccepted, NIGHT.tick_of, Tai(6209, 0), NONE)
        self.refused(vrk.ListNotAccepted, goce().date, 0, Utc(0, 0), NONE)
        self.refused(vrk.ListNotAccepted, goce().count_of, Gps(0, 0), NONE)
        self.assertEqual(NIGHT.date(262, received, SHORTER), Utc(6209, DAY - 3907))
        # past the list's end a result is later than any receipt that is known
        self.refused(vrk.ResultLater, NIGHT.date, 263, received, SHORTER)
        self.refused(vrk.ListExpired, NIGHT.date, 263, Utc(6210, 0), SHORTER)
        self.refused(vrk.SecondLacking, NIGHT.date, 262, Utc(6209, DAY), SHORTER)
        # of the result 9 comes before the 10 of its receipt
        self.refused(vrk.ListExpired, NIGHT.date, 263, Utc(6209, DAY), SHORTER)
        self.refused(vrk.SecondLacking, NIGHT.tick_of, Utc(6209, DAY), SHORTER)
        # an expired reference: a tick outside the window is 8 at once, and another scale is 12 after the reference's 9
        later = correlation(7, Utc(6210, 0), 2, 2)
        self.refused(vrk.NotInForce, later.date, 10, later.reference, SHORTER)
        self.refused(vrk.ListExpired, later.date, 7, Utc(0, 0), SHORTER)
        self.refused(vrk.ListExpired, later.tick_of, Tai(6210, 0), SHORTER)
        self.refused(vrk.NoImage, later.tick_of, Tai(6210, 0), LIST)

    def test_other_correlations_look_at_no_list(self):
        held = correlation(7, Tai(6209, DAY - SECOND), 2_000, 2_000)
        for leap_list in LIST, NONE:
            self.assertEqual(held.date(263, Tai(6210, SECOND), leap_list), Tai(6210, 0))
            self.refused(vrk.ResultLater, held.date, 263, held.reference, leap_list)
            self.assertEqual(held.tick_of(Tai(6210, 0), leap_list), 263)
            self.refused(vrk.NoImage, held.tick_of, Utc(6209, DAY), leap_list)
            self.refused(vrk.OutsideSpan, held.date, 7, Tai(6209, DAY), leap_list)

    def test_goce_counts_are_dated(self):
        # in 2024, after all of them
        received = Utc(9131, 0)
        self.assertEqual(goce().date(1, received, LIST), Utc(0, 15))
        # a count before the reference, past the wrap, is rounded towards the past
        self.assertEqual(goce().date(2**48 - 1, received, LIST), Utc(-1, DAY - 16))
        # one rounding: 45.8 and 45.8 are 91
        self.assertEqual(goce(utc0=3).date(3, received, LIST), Utc(0, 91))
        # the offset has a sign, and the rate is of the difference alone
        held = goce(65_536, 7 * 65_536, -65_536, 1_001_000_000)
        self.assertEqual(held.date(2 * 65_536, received, LIST), Utc(0, 7_001_000))
        for count in 0, 1, 2**45 - 1, 2**48 - 1:
            self.assertEqual(goce().count_of(goce().date(count, received, LIST), LIST), count)
        self.assertEqual(goce().count_of(Utc(0, 14), LIST), 0)
        self.assertEqual(goce().count_of(Decimal(-0.5, Utc), LIST), 2**48 - 43_200 * 65_536)

    def test_goce_refuses(self):
        received = Utc(0, 0)
        self.refused(vrk.FieldOver, goce().date, 2**48, Utc(0, DAY), LIST)
        self.refused(vrk.CorrelationNotAccepted, goce(obt0=2**48).date, 0, Utc(0, DAY), LIST)
        self.refused(vrk.CorrelationNotAccepted, goce(offset=-5_662_310_401).count_of, received, LIST)
        self.refused(vrk.OutsideSpan, goce().date, 0, Utc(0, DAY + SECOND), LIST)
        self.refused(vrk.SecondLacking, goce().date, 0, Utc(0, DAY), LIST)
        narrow = goce(back=0, ahead=1)
        self.assertEqual(narrow.date(1, Utc(0, 15), LIST), Utc(0, 15))
        self.refused(vrk.NotInForce, narrow.date, 2, received, LIST)
        self.refused(vrk.NotInForce, narrow.date, 1, Utc(0, 16), LIST)
        self.refused(vrk.NotInForce, narrow.count_of, Utc(0, 16), LIST)
        # half a wrap is more than 68 years: UTC begins in 1972, and the list ends with 2024
        self.refused(vrk.ResultOutside, goce().date, 2**47, received, LIST)
        self.refused(vrk.ResultLater, goce().date, 2**47 - 1, Utc(9131, DAY - 1), LIST)
        self.refused(vrk.ListExpired, goce().date, 2**47 - 1, Utc(9131, DAY), LIST)
        self.refused(vrk.DecimalNotFinite, goce().count_of, Decimal(float("nan"), Utc), LIST)
        self.refused(vrk.OutsideSpan, goce().count_of, Utc(36525, 0), LIST)
        # of a second that its day lacks, and of another scale, 8 is not judged
        self.refused(vrk.SecondLacking, narrow.count_of, Utc(1, DAY), LIST)
        self.refused(vrk.NoImage, narrow.count_of, Gps(1, 0), LIST)

    # 2^64 more is the same number to a field of 64 bits.
    def test_numbers_too_wide(self):
        held = correlation(0, Tai(0, 0), 1, 1)
        self.refused(vrk.FieldOver, held.date, 2**32, Tai(0, 0), LIST)
        self.refused(vrk.CorrelationNotAccepted, correlation(2**32, Tai(0, 0), 1, 1).date, 0, Tai(0, 0), LIST)
        self.refused(vrk.CorrelationNotAccepted, correlation(0, Tai(0, 0), 2**64, 1).date, 0, Tai(0, 0), LIST)
        self.refused(vrk.CorrelationNotAccepted, correlation(0, Tai(2**64, 0), 1, 1).date, 0, Tai(0, 0), LIST)
        self.refused(vrk.OutsideSpan, held.date, 0, Tai(2**64, 0), LIST)
        for obt in 2**64, -1:
            self.refused(vrk.FieldOver, goce().date, obt, Utc(0, 0), LIST)
        for name in "obt0", "utc0", "offset", "gradient", "back", "ahead":
            right = getattr(goce(), name)
            for wrong in right + 2**64, right - 2**64:
                self.refused(vrk.CorrelationNotAccepted, goce(**{name: wrong}).date, 0, Utc(0, 0), LIST)
                self.refused(vrk.CorrelationNotAccepted, goce(**{name: wrong}).count_of, Utc(0, 0), LIST)
        self.refused(vrk.OutsideSpan, goce().date, 0, Utc(2**64, 0), LIST)


if __name__ == "__main__":
    unittest.main()
