#!/usr/bin/env python3
"""A read-through cache before a slow store of objects: what was asked for once is answered from the disk.

    PYTHONPATH=clients python3 examples/read_through.py ./foyerpipe /var/tmp/cache

An object's name and version are its key, so a new version is never answered by an old value, whatever the cache forgot or kept.
"""
import hashlib
import os
import sys
import time

sys.path.insert(0, os.path.join(os.path.dirname(os.path.abspath(__file__)), "..", "clients"))
from foyer_client import Cache, CacheEnded  # noqa: E402


class Objects:
    """Stands for a bucket over a network: each read takes its time."""

    def read(self, name, version):
        time.sleep(0.002)
        return hashlib.sha256(b"%s %d" % (name, version)).digest() * 512


class ReadThrough:
    """Objects that are read once. If the program of the cache ends, objects are read from their store alone."""

    def __init__(self, objects, program, directory):
        self.objects, self.reads = objects, 0
        self.cache = Cache(program, directory, 1 << 28, flushers=2, engines=2)

    def _read(self, name, version):
        self.reads += 1
        return self.objects.read(name, version)

    def read(self, name, version):
        try:
            return self.cache.get_or(b"%s %d" % (name, version), lambda _: self._read(name, version))
        except CacheEnded:
            return self._read(name, version)

    def close(self):
        self.cache.close()


def main():
    if len(sys.argv) != 3:
        sys.exit("usage: read_through.py PROGRAM DIR")
    objects = Objects()
    for life in ("first", "second"):
        through = ReadThrough(objects, *sys.argv[1:])
        began = time.monotonic()
        equal = all(through.read(b"object%d" % i, 7) == objects.read(b"object%d" % i, 7) for i in range(200) for _ in range(3))
        print("%s life: 600 reads, %d of them from the store, %.1f s" % (life, through.reads, time.monotonic() - began))
        through.close()
    print("all equal" if equal else "WRONG")


if __name__ == "__main__":
    main()
