#!/usr/bin/env python3
"""Prints a feed as `take` commands, in pieces that fit a line: take.py SITE FEED | copydesk desk MINE --site SITE"""
import sys

SIZES = {1: 26, 2: 21, 3: 16}
RUN = 4  # in a feed of runs: 22 bytes, the last the number of symbols, and 5 for each
ROOM = (65536 - len("take 65535 ")) // 2


def pieces(feed):
    """Feeds of whole operations and runs, each short enough for a line."""
    piece, at = feed[:4], 4
    while at < len(feed):
        size = SIZES.get(feed[at])
        if feed[at] == RUN and feed[:4] == b"MFD2" and at + 22 <= len(feed):
            size = 22 + 5 * feed[at + 21]
        if size is None:
            sys.exit("byte %d begins no operation" % at)
        if len(piece) + size > ROOM:
            yield piece
            piece = feed[:4]
        piece += feed[at:at + size]
        at += size
    yield piece


def main():
    with open(sys.argv[2], "rb") as file:
        feed = file.read()
    if feed[:4] not in (b"MFD1", b"MFD2"):
        sys.exit("%s is no feed" % sys.argv[2])
    for piece in pieces(feed):
        print("take %s %s" % (sys.argv[1], piece.hex()))


if __name__ == "__main__":
    main()
