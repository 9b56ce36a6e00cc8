"""Prints the page of a sheet: python3 page.py ../../samples/production.sheet
A sheet that does not pass gets the line of its listing. The status is 0 after a page, 1 after a refusal or a finding, and 2 where there is no answer."""
import os
import sys

import juwenfo


def fail(why):
    try:
        os.write(2, os.fsencode(why) + b"\n")
    finally:  # also where standard error is closed
        sys.exit(2)


def show(text, out):
    try:
        out.write(juwenfo.page(text))
    except juwenfo.Trouble as t:
        out.write(b"%s %d %d\n" % (b"refused" if t.number < 20 else b"stop", t.number, t.line))
        return 1
    return 0


if len(sys.argv) != 2:
    fail("usage: page.py SHEET")
try:
    with open(sys.argv[1], "rb") as sheet:
        text = sheet.read()
except OSError:
    fail("the sheet cannot be read")
try:
    with open(1, "wb", closefd=False) as out:  # its own file object, as sys.stdout would fail only at exit
        status = show(text, out)
except OSError:
    fail("the answer cannot be written")
sys.exit(status)
