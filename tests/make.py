"""What the programs' tests read, made by the independent sender in outside/flo.py.

    python3 tests/make.py head MODE K [FLOOR]   two bytes of profile length, and the profile; the floor is 0 where none is named, the level is 1
    python3 tests/make.py data K                K packets of formula data
    python3 tests/make.py cells MODE K          the cells of that data, symbol after symbol, first parts then second parts

crates/send has stdin = head 1 8, data 8 and stdout = cells 1 8; crates/receive has stdin = head 1 14, the marks 0224 hex, cells 1 14.
crates/compare has data/a = two symbols of cells 1 8, and data/b = these with four cells changed. crates/totals has stdin = seven of flo.py's reports,
document 01's among them, and stdout = their totals_lines.
"""
import os
import struct
import sys

sys.path.insert(0, os.path.join(os.path.dirname(os.path.abspath(__file__)), "..", "outside"))
import flo

SEEDS = 48, 32, 24, 16, 12

def profile(mode, k, floor=0.0):
    masks = [(i * 130003 + 77777) % 1048575 + 1 for i in range(8)]
    seeds = [(t * 21001 + 4242) % 1048575 + 1 for t in range(SEEDS[mode])]
    return masks, 1.0, mode, k, seeds, floor

def head(mode, k, *floor):
    written = flo.write_profile(profile(mode, k, *floor))
    return struct.pack(">H", len(written)) + written

def data(k):
    return bytes(flo.formula(122 * k))

def cells(mode, k):
    return b"".join(struct.pack(">4096f", *[cell[half] for cell in symbol]) for symbol in flo.send(profile(mode, k), data(k)) for half in (0, 1))

if len(sys.argv) < 3 or sys.argv[1] not in ("head", "data", "cells"):
    sys.exit(__doc__)
sys.stdout.buffer.write({"head": head, "data": data, "cells": cells}[sys.argv[1]](*map(int, sys.argv[2:4]), *map(float, sys.argv[4:])))
