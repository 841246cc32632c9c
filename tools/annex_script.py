"""Runs scripts by the program, and asks it which forms of lines it runs. Unproved, and no part of the program."""
import os
import pathlib
import re
import subprocess

from annex_repository import Failure

TOP = pathlib.Path(__file__).resolve().parent.parent
MOST_BYTES = 1_048_576
MOST_REPOSITORIES = 16
FAULT = re.compile(r"script line (\d+) byte (\d+)\n")


class Line:
    """A line of a script, with its form; where it is needed, nothing can be asked without it."""

    def __init__(self, text, form=None, needed=False):
        self.text, self.form, self.needed = text, form or text.split(" ")[0], needed


def run(text):
    """The exit status of the program on this script, and what it writes. ANNEX=PATH names another program than ./annex."""
    program = os.environ.get("ANNEX") or str(TOP / "annex")
    try:
        ended = subprocess.run([program, "run"], input=text, stdout=subprocess.PIPE)
    except OSError as error:
        raise Failure("%s can't be run: %s" % (program, error.strerror)) from None
    if ended.returncode not in range(7):
        raise Failure("%s gave no answer, and ended with status %d" % (program, ended.returncode))
    return ended.returncode, ended.stdout.decode(errors="surrogateescape")


def text_of(lines):
    return "".join(line.text + "\n" for line in lines)


def answered(lines):
    """Of these lines those whose form the program runs, their report, and the forms that it doesn't run yet.

    Which they are the program says itself: it names the first line that it doesn't run. A form that is needed has no answer.
    """
    left_out = []
    while True:
        status, report = run(text_of(lines).encode())
        fault = FAULT.fullmatch(report)
        if status == 0:
            return lines, report.splitlines(), left_out
        if status != 2 or not fault:
            raise Failure("the program answers with status %d: %s" % (status, report.strip()))
        line = lines[int(fault[1]) - 1]
        if fault[2] != "0":
            raise Failure("the program refuses at byte %s the line %s" % (fault[2], line.text))
        if line.needed:
            raise Failure("this can't be asked yet: the program doesn't run lines of the form %s" % line.form)
        left_out.append(line.form)
        lines = [other for other in lines if other.form != line.form]
