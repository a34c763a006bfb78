"""Each refusal, by its name, with its number and words."""

import pickle
import unittest

import vrikshonem as vrk
from desk import DAY, LIST, NONE, Desk, correlation
from vrikshonem import Gps, Refused, Tai, Utc


class Refusals(Desk):
    def test_every_refusal(self):
        out = bytearray(b"\xa5" * 31)
        self.refused(vrk.LengthIsNone, vrk.sbt_read, b"")
        self.refused(vrk.MarkerWrong, vrk.obet_read, bytes(8))
        self.refused(vrk.FieldOver, vrk.goce_write, 1 << 48, out)
        self.refused(vrk.FieldOver, vrk.text_read, "31-FEB-2000 00:00:00", LIST)
        self.refused(vrk.FieldOver, vrk.text_write, Utc(0, 0), 25, LIST, out)
        self.refused(vrk.SeasonBroken, vrk.season_write, [correlation(0, Utc(0, 0), 1, 1)], out)
        self.refused(vrk.NotOneSecond, vrk.siral_run, bytes(10), 484_849)
        self.refused(vrk.DecimalNotFinite, Gps.from_decimal, float("inf"))
        self.refused(vrk.ListNotAccepted, Tai(0, 0).to_utc, NONE)
        slow = correlation(0, Tai(0, 0), 1, 1, 3_906_500_001)
        self.refused(vrk.CorrelationNotAccepted, slow.date, 0, Tai(0, 0), LIST)
        self.refused(vrk.OutsideSpan, Gps(Gps.FIRST_DAY - 1, 0).to_tai)
        self.refused(vrk.OutsideSpan, Tai(0, Tai.BOUND).to_gps)
        self.refused(vrk.NoEntry, vrk.season_covering, bytes(2), Tai(0, 0))
        self.refused(vrk.NotInForce, correlation(0, Tai(0, 0), 1, 1).tick_of, Tai(1, 0), LIST)
        self.refused(vrk.ResultLater, correlation(0, Tai(0, 0), 1, 1).date, 1, Tai(0, 0), LIST)
        self.refused(vrk.ListExpired, Tai(9133, 0).to_utc, LIST)
        self.refused(vrk.SecondLacking, Utc(0, DAY).to_tai, LIST)
        self.refused(vrk.ResultOutside, Tai(Tai.FIRST_DAY, 0).to_utc, LIST)
        self.refused(vrk.NoImage, Utc(6209, DAY).to_decimal)
        self.refused(vrk.NoImage, vrk.cuc_write, Tai(0, 0), out)
        self.refused(vrk.OutputShorter, vrk.cuc_write, Gps(0, 0), bytearray())
        self.assertEqual(out, b"\xa5" * 31, "a refusal leaves every byte")
        out.append(0)

    def test_words(self):
        with self.assertRaises(Refused) as caught:
            vrk.cuc_read(b"")
        self.assertEqual(caught.exception.number, 1)
        self.assertEqual(str(caught.exception), "refused 1: input length is none of the layout's")
        self.assertEqual(caught.exception.words, "input length is none of the layout's")

    # A later library may know more refusals.
    def test_a_refusal_that_is_not_known(self):
        unknown = Refused(64)
        self.assertEqual((type(unknown), unknown.number), (Refused, 64))
        self.assertEqual(str(unknown), f"refused 64: {Refused.words}")

    def test_refusals_are_pickled(self):
        known = [kind() for kind in Refused.__subclasses__()]
        self.assertEqual([str(one) for one in known], [str(Refused(one.number)) for one in known])
        for one in [*known, Refused(64)]:
            again = pickle.loads(pickle.dumps(one))
            self.assertEqual((type(again), again.number, str(again)), (type(one), one.number, str(one)))


if __name__ == "__main__":
    unittest.main()
