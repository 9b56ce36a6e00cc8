"""Runs a sheet on the numbers lent to registers 0, 1 .. (0 where none is), and prints the registers in thousandths: those after
the last line, or those before the line at which the run stops: python3 run.py ../../samples/scope.sheet 1.5
A number is written as in a sheet. The status is 0 after the last line, 1 after a refusal or a finding, and 2 where there is no answer."""
import os
import sys

import juwenfo


def fail(why):
    try:
        os.write(2, os.fsencode(why) + b"\n")
    finally:  # also where standard error is closed
        sys.exit(2)


def thousandths(word):
    """The number of a word: the check of the line `(in 0 WORD WORD)` gives register 0 the set of WORD alone just where WORD is a literal."""
    line = b"(in 0 %s %s)\n" % (word, word)
    try:
        if juwenfo.judge(line) == 1:
            return juwenfo.check(line)[0][0][0]
    except juwenfo.Trouble as t:
        if t.number == 7:
            fail(b"'%s' is beyond the range" % word)
    fail(b"'%s' is not a number as in sheets" % word)


def show(text, lent, out):
    status = 0
    try:
        registers = juwenfo.run(text, lent)
    except juwenfo.Trouble as t:
        out.write(b"number %d at line %d: %s\n" % (t.number, t.line, juwenfo.line(text, t.line)))
        status, registers = 1, t.registers
    for register in enumerate(registers):
        out.write(b"r%d %d\n" % register)
    return status


if len(sys.argv) < 2:
    fail("usage: run.py SHEET NUMBER..")
lent = []
for word in map(os.fsencode, sys.argv[2:]):
    if len(lent) == juwenfo.REGISTERS:
        fail(b"'%s' is one number too many" % word)
    lent.append(thousandths(word))
try:
    with open(sys.argv[1], "rb") as sheet:
        text = sheet.read()
except OSError:
    fail("the sheet cannot be read")
try:
    with open(1, "wb", closefd=False) as out:  # its own file object, as sys.stdout would fail only at exit
        status = show(text, lent, out)
except OSError:
    fail("the answer cannot be written")
sys.exit(status)
