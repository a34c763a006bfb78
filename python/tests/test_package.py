"""The package as a whole: the paper's marked cases, the names, the examples of its docs, and what is no value of its kinds."""

import doctest
import importlib
import pickle
import pkgutil
import threading
import unittest

import vrikshonem as vrk
from desk import DAY, LIST, SECOND, Desk, correlation, goce
from vrikshonem import Decimal, Gps, LeapList, Mark, Tai, Utc


def load_tests(loader, tests, pattern):
    # An example is run as after 'from vrikshonem import *'.
    names = {name: getattr(vrk, name) for name in vrk.__all__}
    modules = [importlib.import_module(f"vrikshonem.{found.name}") for found in pkgutil.iter_modules(vrk.__path__)]
    for module in [vrk, *modules]:
        tests.addTests(doctest.DocTestSuite(module, globs=names))
    return tests


class Package(Desk):
    def test_marked_cases(self):
        self.assertEqual(Utc(-7300, 0).to_tai(LIST), Tai(-7300, 19 * SECOND))
        self.assertEqual(Utc(-7300, 0).to_gps(LIST), Gps(-7300, 0))
        self.assertEqual(Utc(6209, DAY).to_tai(LIST), Tai(6210, 36 * SECOND))
        self.assertEqual(Utc(6210, 0).to_tai(LIST), Tai(6210, 37 * SECOND))
        self.refused(vrk.ListExpired, Utc(6210, 0).to_tai, LeapList(LIST.days, LIST.offsets, 6209))
        self.assertEqual(vrk.cuc_read(b"\0\0\0\1\0\1"), Gps(-7300, 1_000_015))
        self.assertEqual(vrk.cuc_read(vrk.cuc_fields_write(3_786_479_999, 0)), Gps(36524, DAY - SECOND))
        self.refused(vrk.OutsideSpan, vrk.cuc_read, vrk.cuc_fields_write(3_786_480_000, 0))
        image = vrk.proteus_fields_write(1, True, 604_799, 0)
        read = vrk.proteus_read(image)
        self.assertEqual((read, read.mark), (Utc(-7287, DAY - SECOND), Mark.proteus(True)))
        self.assertEqual(vrk.proteus_fields_read(image), (1, True, 604_799, 0))
        self.refused(vrk.FieldOver, vrk.proteus_fields_write, 1, True, 604_800, 0)
        self.refused(vrk.MarkerWrong, vrk.proteus_read, image[:1] + b"\2" + image[2:])
        self.assertEqual(vrk.siral_read(vrk.siral_fields_write(0, 0, 0, 16)), Tai(0, 33))
        self.assertEqual(vrk.siral_read(vrk.siral_fields_write(0, 0, 0, 1)), Tai(0, 2))
        wrap = correlation(0xFFFFFFFF, Tai(1, SECOND), 1, 1)
        self.assertEqual(wrap.date(0, Tai(1, SECOND + 3906), LIST), Tai(1, SECOND + 3906))
        self.assertEqual(wrap.date(0xFFFFFFFE, wrap.reference, LIST), Tai(1, SECOND - 3907))
        narrow = correlation(7, Gps(0, 0), 0, 0)
        self.assertEqual(narrow.date(7, narrow.reference, LIST), narrow.reference)
        self.refused(vrk.NotInForce, narrow.date, 8, narrow.reference, LIST)
        self.assertEqual(Utc.from_decimal(-0.5), Utc(-1, 43_200_000_000))

    def test_names(self):
        self.assertEqual(sorted(vrk.__all__), [name for name in dir(vrk) if not name.startswith("_")])

    # Each of these would otherwise be read as something that nobody meant.
    def test_other_kinds_are_no_times(self):
        for function, *given in [
            (vrk.cuc_write, (0, 0)),
            (Tai(0.5, 0).to_gps,),
            (vrk.cuc_read, 6),
            (vrk.cuc_read, [0] * 6),
            (vrk.text_read, 20, LIST),
            (Tai.from_decimal, "0.5"),
            (vrk.cuc_write, Decimal(0.5, "GPS")),
            (vrk.change, Tai(0, 0), "GPS", LIST),
            (Tai(0, 0).to_utc, None),
            (correlation(0, (0, 0), 1, 1).date, 0, (0, 0), LIST),
            (correlation(0, Tai(0, 0), 1, 1).date, 0, Tai(0, 0), None),
            (correlation(0, Tai(0, 0), 1, 1).tick_of, Tai(0, 0), LIST.days),
            (goce(offset=0.5).date, 0, Utc(0, 0), LIST),
            (goce().date, 0, Utc(0, 0), None),
            (goce().count_of, (0, 0), LIST),
            (vrk.cuc_write, Gps(0, 0), memoryview(bytearray(6))),
            (vrk.proteus_write, Utc(0, 0), True),
            (Utc, 0, 0, True),
            (Utc(0, 0).with_mark, None),
        ]:
            with self.assertRaises(TypeError, msg=str(given)):
                function(*given)

    def test_values_are_pickled(self):
        held = correlation(7, Gps(0, 0), 0, 0)
        for value in Tai(1, 2), Decimal(0.5, Utc), LIST, held, goce(), vrk.siral_fields_read(bytes(10)), Mark.proteus(False):
            again = pickle.loads(pickle.dumps(value))
            self.assertEqual((type(again), again), (type(value), value))

    def test_threads(self):
        wrong = []

        def work(start):
            wrong.extend(count for count in range(start, 200, 4) if vrk.goce_read(vrk.goce_write(count)) != count)

        threads = [threading.Thread(target=work, args=(start,)) for start in range(4)]
        for thread in threads:
            thread.start()
        for thread in threads:
            thread.join()
        self.assertEqual(wrong, [])


if __name__ == "__main__":
    unittest.main()
