"""Prints the listing of a sheet: python3 list.py ../../samples/production.sheet
The status is 0, and 2 where there is no listing."""
import os
import sys

import juwenfo


def fail(why):
    try:
        os.write(2, os.fsencode(why) + b"\n")
    finally:  # also where standard error is closed
        sys.exit(2)


def show(text, out):
    out.write(juwenfo.listing(text))
    return 0


if len(sys.argv) != 2:
    fail("usage: list.py SHEET")
try:
    with open(sys.argv[1], "rb") as sheet:
        text = sheet.read()
except OSError:
    fail("the sheet cannot be read")
try:
    with open(1, "wb", closefd=False) as out:  # its own file object, as sys.stdout would fail only at exit
        status = show(text, out)
except OSError:
    fail("the answer cannot be written")
sys.exit(status)
