#!/usr/bin/env python3
"""Makes a county of as many polygons as chains, whose keys are ordinary or chosen against a hash function.

usage: keys.py FOLDER COUNT [--hostile fixed|zero]

Each chain is a street of its own with one polygon on its left. With --hostile the polygons' keys are searched for: of 64
POLYIDs one is kept, whose place in a table of the kit's is a multiple of 64 whatever the table's size. So all keys fall on
one in 64 of the places. `fixed` chooses them against the hasher that such a table has where none is given, whose seed is
fixed (multiply by a constant, join the halves of the product by exclusive or); `zero` against SipHash-1-3 with both keys 0.
`tigertopo` asks the system for the keys of its hasher, and must not be slower on either; `run.py` compares the files.
"""

import argparse
import random
from pathlib import Path

from county import point_line, sides_line
from make_records import chain_line

MASK = (1 << 64) - 1
SEED, MULTIPLIER = 0x243F_6A88_85A3_08D3, 0x9E37_79B9_7F4A_7C15
CENID = "A0001"
PLACES = 64


def first_word(cenid):
    """The first of the two words of a key that a hasher is fed: its CENID, filled up with zeros. The second is its POLYID."""
    return int.from_bytes(cenid.encode() + bytes(3), "little")


def folded(state, word):
    """The state of the hasher with the fixed seed after a word of eight bytes."""
    product = (state ^ word) * (MULTIPLIER ^ 16)
    return (product & MASK) ^ (product >> 64)


def turned(word, count):
    return (word << count | word >> 64 - count) & MASK


def sip_round(a, b, c, d):
    a, c = a + b & MASK, c + d & MASK
    b, d = turned(b, 13) ^ a, turned(d, 16) ^ c
    a, c = turned(a, 32), c + b & MASK
    a = a + d & MASK
    b, d = turned(b, 17) ^ c, turned(d, 21) ^ a
    return a, b, turned(c, 32), d


def sip_fed(state, word):
    """The state of SipHash-1-3 after a word."""
    a, b, c, d = state
    a, b, c, d = sip_round(a, b, c, d ^ word)
    return a ^ word, b, c, d


def sip_finished(state, length):
    """What SipHash-1-3 answers after so many whole words."""
    a, b, c, d = sip_fed(state, 8 * length << 56)
    state = a, b, c ^ 0xFF, d
    for _ in range(3):
        state = sip_round(*state)
    return state[0] ^ state[1] ^ state[2] ^ state[3]


def by_fixed_seed(cenid):
    """The hash of a key of this CENID, as a function of its POLYID."""
    state = folded(SEED, first_word(cenid))
    return lambda polyid: folded(state, polyid)


def by_zero_keys(cenid):
    state = 0x736F_6D65_7073_6575, 0x646F_7261_6E64_6F6D, 0x6C79_6765_6E65_7261, 0x7465_6462_7974_6573
    state = sip_fed(state, first_word(cenid))
    return lambda polyid: sip_finished(sip_fed(state, polyid), 2)


HASHES = {"fixed": by_fixed_seed, "zero": by_zero_keys}


def hostile_polyids(count, kind):
    hash_of, polyid = HASHES[kind](CENID), 0
    while count:
        polyid += 1
        found = hash_of(polyid)
        # A table looks at the lower half of a hash, joined with the upper one.
        if not (found ^ found >> 32) % PLACES:
            count -= 1
            yield polyid


def main():
    parser = argparse.ArgumentParser()
    parser.add_argument("folder", type=Path)
    parser.add_argument("count", type=int)
    parser.add_argument("--hostile", choices=HASHES)
    words = parser.parse_args()
    rng = random.Random(words.count)
    polyids = list(hostile_polyids(words.count, words.hostile) if words.hostile else range(1, words.count + 1))
    rng.shuffle(polyids)
    words.folder.mkdir(parents=True, exist_ok=True)
    with open(words.folder / "TGR24001.RT1", "w", newline="") as chains:
        chains.writelines(chain_line(rng, k, (2 * k, 0), (2 * k, 9)) for k in range(1, words.count + 1))
    with open(words.folder / "TGR24001.RTI", "w", newline="") as sides:
        keys = enumerate(polyids, 1)
        sides.writelines(sides_line(k, (CENID, polyid), None, (2 * k, 2 * k + 1), False) for k, polyid in keys)
    rng.shuffle(polyids)
    with open(words.folder / "TGR24001.RTP", "w", newline="") as polygons:
        polygons.writelines(point_line((CENID, polyid), (2 * k, 5)) for k, polyid in enumerate(polyids, 1))


if __name__ == "__main__":
    main()
