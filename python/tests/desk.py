"""What the tests share."""

import unittest

from vrikshonem import GoceCorrelation, LeapList, Refused, SbtCorrelation

LIST = LeapList.PUBLISHED
NONE = LeapList((), (), 9131)
DAY = 86_400_000_000
SECOND = 1_000_000


def correlation(tick, reference, back, ahead, period=3_906_250_000):
    return SbtCorrelation(tick, reference, period, back, ahead)


def goce(obt0=0, utc0=0, offset=0, gradient=1_000_000_000, back=2**47, ahead=2**47 - 1):
    return GoceCorrelation(obt0, utc0, offset, gradient, back, ahead)


class Desk(unittest.TestCase):
    def refused(self, refusal, function, *given):
        with self.assertRaises(Refused) as caught:
            function(*given)
        self.assertIs(type(caught.exception), refusal)
