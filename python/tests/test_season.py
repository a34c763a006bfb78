"""The season's file."""

import unittest
from dataclasses import replace

import vrikshonem as vrk
from desk import DAY, Desk, correlation
from vrikshonem import Cover, Gps, Tai, Utc

# Two ticks back are 7,813 microseconds and five ahead 19,531, so that the next one may begin 27,345 microseconds later.
APART = 27_345


def season(count, apart=APART):
    return [correlation(i, Tai(-1, i * apart), 2, 5) for i in range(count)]


def at(micros):
    return Tai(*divmod(micros, DAY))


class Season(Desk):
    def test_what_is_written_reads_back(self):
        for count in 0, 1, 2, 511, 512:
            file = vrk.season_write(season(count))
            self.assertEqual(len(file), 2 + 48 * count)
            held = [entry.correlation for entry in vrk.season_read(file)]
            self.assertEqual(held, season(count))
            self.assertEqual(vrk.season_write(held), file)
        self.assertEqual(vrk.season_write([]), bytes(2))

    def test_the_question_gives_the_one_entry(self):
        file = vrk.season_write(season(3))
        entries = vrk.season_read(file)
        self.assertEqual(entries[0].cover, Cover(-DAY - 7813, -DAY + 19_531))
        for entry in entries:
            for receipt in entry.cover:
                self.assertEqual(vrk.season_covering(file, at(receipt)), entry.cover)
        for receipt in entries[0].first - 1, entries[2].last + 1:
            self.refused(vrk.NoEntry, vrk.season_covering, file, at(receipt))
        # the contents alone: a body that is none changes nothing
        damaged = file[:62] + b"\xff" * 84
        self.assertEqual(vrk.season_covering(damaged, at(entries[1].last)), entries[1].cover)
        self.refused(vrk.SeasonBroken, vrk.season_read, damaged)

    def test_rules_are_kept(self):
        # a cover that touches the next
        self.refused(vrk.SeasonBroken, vrk.season_write, season(2, APART - 1))
        self.refused(vrk.SeasonBroken, vrk.season_write, season(513))
        held = correlation(0, Tai(0, 0), 1, 1)
        for reference in Utc(0, 0), Gps(0, 0), Tai(0, DAY), Tai(36525, 0):
            self.refused(vrk.SeasonBroken, vrk.season_write, [replace(held, reference=reference)])
        file = vrk.season_write(season(2))
        # the count, the contents and the first reference
        for place in (*range(42), *range(46, 54)):
            damaged = bytearray(file)
            damaged[place] ^= 1
            self.refused(vrk.SeasonBroken, vrk.season_read, damaged)
        self.refused(vrk.SeasonBroken, vrk.season_read, file[:97])
        # 14 before 7, and 7 before 15
        self.refused(vrk.SeasonBroken, vrk.season_covering, bytes(1), Tai(36525, 0))
        self.refused(vrk.OutsideSpan, vrk.season_covering, bytes(2), Tai(36525, 0))
        self.refused(vrk.NoEntry, vrk.season_covering, bytes(2), Tai(0, 0))

    def test_lent_bytes(self):
        out = bytearray(b"\xa5" * 51)
        held = correlation(0, Tai(0, 0), 1, 1)
        self.refused(vrk.OutputShorter, vrk.season_write, [held], bytearray(49))
        self.refused(vrk.SeasonBroken, vrk.season_write, [held, held], out)
        self.assertEqual(out, b"\xa5" * 51, "a refusal leaves every byte")
        self.assertEqual(vrk.season_write([held], out) + b"\xa5", out)

    # 2^64 more is the same number to a field of 64 bits.
    def test_numbers_too_wide(self):
        held = correlation(5, Tai(0, 0), 1, 1)
        for name in "tick", "period", "back", "ahead":
            for wrong in getattr(held, name) + 2**64, getattr(held, name) - 2**64, -1:
                self.refused(vrk.SeasonBroken, vrk.season_write, [replace(held, **{name: wrong})])
        self.refused(vrk.SeasonBroken, vrk.season_write, [correlation(2**32, Tai(0, 0), 1, 1)])
        for reference in Tai(2**64, 0), Tai(0, 2**64):
            self.refused(vrk.SeasonBroken, vrk.season_write, [replace(held, reference=reference)])
            self.refused(vrk.OutsideSpan, vrk.season_covering, bytes(2), reference)

    def test_other_kinds(self):
        for function, *given in [
            (vrk.season_read, [0, 0]),
            (vrk.season_write, [Tai(0, 0)]),
            (vrk.season_write, [correlation(0, (0, 0), 1, 1)]),
            (vrk.season_write, correlation(0, Tai(0, 0), 1, 1)),
            (vrk.season_covering, bytes(2), Utc(0, 0)),
            (vrk.season_covering, bytes(2), 0),
        ]:
            with self.assertRaises(TypeError, msg=str(given)):
                function(*given)


if __name__ == "__main__":
    unittest.main()
