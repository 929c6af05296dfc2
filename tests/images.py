#!/usr/bin/env python3
"""All images of at most two letters and two numbers, with and without 0005, 0075 and S: what the independent program says of each.

usage: images.py            ends with 1 unless the test of test_metal expects the answers of the independent program
       images.py --list     prints each image and its answer

The test reads the same 89,888 images by the proved code, in the same order, and compares how often each answer comes and the
digest of all answers. Here both are made from oracle.py, and the numbers that the test expects must be these.
"""
import collections
import os
import re
import sys

HERE = os.path.dirname(os.path.abspath(__file__))
sys.path.insert(0, HERE)
import oracle

TEST = os.path.join(HERE, "..", "crates", "test_metal", "src", "every_image.rt")
CAUSES = ["two letters", "two numbers", "0005 without 0075", "0075 with a letter", "0075 with S"]


def images():
    """Letters by mask, numbers by mask, and the last three channels by number."""
    few = [mask for mask in range(1 << 14) if bin(mask).count("1") <= 2]
    return [letters << 17 | numbers << 3 | last for letters in few for numbers in few for last in range(8)]


def code(row):
    """A number for each answer, as in the test."""
    if row[0] == "cell":
        return 1000 + 100 * row[1][0] + 2 * row[1][1] + row[2]
    if row[0] in ("coarse", "fine"):
        return {"coarse": 5000, "fine": 6000}[row[0]] + row[1]
    return 1 + CAUSES.index(row[0])


def spelled(row):
    """The image of a row, from the other side."""
    if row[0] == "cell":
        return oracle.image_cell(row[1], row[2])
    return {"coarse": oracle.image_coarse, "fine": oracle.image_fine}[row[0]](row[1])


def main():
    every = images()
    rows = [oracle.row_of(image) for image in every]
    if "--list" in sys.argv[1:]:
        for image, row in zip(every, rows):
            print("%08x %s" % (image, " ".join(map(str, row))))
        return 0
    wrong = sum(row[0] in ("cell", "coarse", "fine") and spelled(row) != image for image, row in zip(every, rows))
    digest = 14695981039346656037
    for row in rows:
        digest = (digest ^ code(row)) * 1099511628211 % (1 << 64)
    counts = collections.Counter(row[0] for row in rows)
    wanted = [digest] + [counts[name] for name in ["cell", "coarse", "fine"] + CAUSES]
    with open(TEST, encoding="utf-8") as file:
        text = file.read()
    stated = [int(number.replace("_", "")) for line in re.findall(r"^const (?:DIGEST|COUNTS).*?;$", text, re.M | re.S)
              for number in re.findall(r"(?<![\w;] )\b\d[\d_]*\b", line.split("=", 1)[1])]
    if stated != wanted or wrong or len(every) != 89888:
        print("images: the test expects %s, the independent program says %s, %d rows are spelled otherwise" % (stated, wanted, wrong))
        return 1
    print("%d images, %d of them rows; the test expects what the independent program says" % (len(every), sum(wanted[1:4])))
    return 0


if __name__ == "__main__":
    sys.exit(main())
