#!/usr/bin/env python3
"""Prints the places of words in a copy: echo 'show 1' | copydesk desk FEED --site 1 | place.py 'the words'"""
import re
import sys

ESCAPES = {"\\n": "\n", '\\"': '"', "\\\\": "\\"}


def text_of(answer):
    """The characters of a `copy` answer, whatever their style."""
    runs = re.findall(r'[ris]"((?:[^"\\]|\\.)*)"', answer)
    return re.sub(r"\\.", lambda found: ESCAPES[found.group()], "".join(runs), flags=re.S)


def main():
    words, copy = sys.argv[1], ""
    for line in sys.stdin:
        if line.startswith("copy"):
            copy = text_of(line)
    place = copy.find(words)
    while place >= 0:
        around = copy[max(0, place - 12):place] + "[" + words + "]" + copy[place + len(words):place + len(words) + 12]
        print(place, around.replace("\n", "/").strip())
        place = copy.find(words, place + 1)


if __name__ == "__main__":
    main()
