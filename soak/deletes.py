#!/usr/bin/env python3
"""Deletes over many openings: foyerpipe with a log of deletes and two to four flushers.

    python3 soak/deletes.py --program PROGRAM [--rounds N] [--seed N]

In each round 120 keys are put, and half of them are deleted, so that several flushers append to the log. Then the directory is opened four
times, with a few deletes of other keys each time, which overwrite what the log takes for its oldest marks. At last no deleted key may be
there, and each of the others must be. The exit status is 1 if a round differs.
"""
import argparse
import pathlib
import random
import sys
import tempfile

sys.path.insert(0, str(pathlib.Path(__file__).resolve().parent.parent / "clients"))
from foyer_client import Cache


# One round. Gives how many deleted keys came back, and how many of the others are missing.
def play(program, seed):
    draw = random.Random(seed)
    options = {"flushers": draw.choice([2, 3, 4]), "log": 1}
    keys = [b"key %d" % i for i in range(120)]
    deleted, kept = keys[:60], keys[60:]
    with tempfile.TemporaryDirectory(prefix="foyerdeletes_") as directory:

        def opened():
            return Cache(program, directory + "/cache", 8 << 20, 1 << 18, **options)

        with opened() as cache:
            cache.put_many([(key, b"v" * draw.randrange(1, 3000)) for key in keys])
            cache.wait()
            draw.shuffle(deleted)
            for key in deleted:
                cache.delete(key)
            cache.wait()
        for _ in range(4):
            with opened() as cache:
                for _ in range(draw.randrange(1, 4)):
                    cache.delete(b"other %d" % draw.randrange(1000))
                cache.wait()
        with opened() as cache:
            back = sum(found is not None for found in cache.get_many(deleted))
            return back, sum(found is None for found in cache.get_many(kept))


def main():
    words = argparse.ArgumentParser(description=__doc__, formatter_class=argparse.RawDescriptionHelpFormatter)
    words.add_argument("--program", required=True, help="foyerpipe")
    words.add_argument("--rounds", type=int, default=60)
    words.add_argument("--seed", type=int, default=1)
    said = words.parse_args()
    wrong = 0
    for seed in range(said.seed, said.seed + said.rounds):
        back, missing = play(said.program, seed)
        if back or missing:
            wrong += 1
            print("seed %d: %d deleted keys came back, %d others are missing" % (seed, back, missing))
    print("%d rounds, %d wrong" % (said.rounds, wrong))
    return 1 if wrong else 0


if __name__ == "__main__":
    sys.exit(main())
