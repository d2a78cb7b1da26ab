"""A share of the files of a stream, in a process of its own: stream_share.py BUNDLE CHUNKS SHARE SHARES

The bundle can still grow, until standard input is at its end. Prints how many files the chunks have, and their bytes.
"""
import io
import select
import sys

from repositories import PIECE
from slot import Growing
from stream_bundle import write_share


class Starter:
    """Who has started this process lets the program write."""

    @staticmethod
    def has_ended():
        return bool(select.select([sys.stdin], [], [], 0)[0])


def main():
    bundle, chunks, share, shares = sys.argv[1:]
    with open(bundle, 'rb', buffering=0) as source, open(chunks, 'wb') as target:
        print(*write_share(io.BufferedReader(Growing(source, Starter), PIECE), target, int(share), int(shares)))


if __name__ == '__main__':
    main()
