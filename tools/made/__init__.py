"""What follows from the interface for C: each module makes some files, and says in the first line of each that it is made; of
README.md a part is made, and the line before it says so."""

SAID = "Made by tools/interface.py --write; not by hand."
