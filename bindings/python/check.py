"""Checks a sheet and prints the set of each register: python3 check.py ../../samples/production.sheet
The status is 0 after a pass, 1 after a refusal or a finding, and 2 where there is no answer."""
import os
import sys

import juwenfo


def fail(why):
    try:
        os.write(2, os.fsencode(why) + b"\n")
    finally:  # also where standard error is closed
        sys.exit(2)


def show(text, out):
    try:
        sets = juwenfo.check(text)
    except juwenfo.Trouble as t:
        out.write(b"number %d at line %d: %s\n" % (t.number, t.line, juwenfo.line(text, t.line)))
        return 1
    for register, intervals in enumerate(sets):
        out.write(b"r%d%s\n" % (register, b"".join(b" %d..%d" % i for i in intervals)))
    return 0


if len(sys.argv) != 2:
    fail("usage: check.py SHEET")
try:
    with open(sys.argv[1], "rb") as sheet:
        text = sheet.read()
except OSError:
    fail("the sheet cannot be read")
try:
    with open(1, "wb", closefd=False) as out:  # its own file object, as sys.stdout would fail only at exit
        status = show(text, out)
except OSError:
    fail("the answer cannot be written")
sys.exit(status)
