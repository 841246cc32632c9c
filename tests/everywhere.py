"""What tests/close-everywhere and tests/crash-everywhere share: contents, repositories, and scripts that settle."""

import re
import subprocess
import sys

KEY = "WORM-s3--abc"
LONG = "WORM-s70000--g"


def declare(names, more=""):
    """Returns the lines of so many repositories, with the names a, b and so on, those in `more` without locks."""
    lines = []
    for at, name in enumerate(names, 1):
        digits = re.sub("x", str(at), "xxxxxxxx-xxxx-4xxx-8xxx-xxxxxxxxxxxx")
        lines.append(f"repo {name} {digits}" + (" nolock" if name in more else ""))
    return lines


def holding(names, key=KEY, content="text:abc"):
    """Returns the lines that give the content to each of these."""
    return [f"have {name} {key} {content}" for name in names]


def turns(names):
    """Returns a line for one turn of each of these."""
    return [f"turn {name}" for name in names]


class Ran:
    """What came of a script with a settling and these `show` lines behind it; it is settled then."""

    def __init__(self, lines, shows):
        self.script = "\n".join([*lines, "settle", *shows, "show journal", "settle", "show journal"]) + "\n"
        ran = subprocess.run([sys.argv[1], "run"], input=self.script.encode(), capture_output=True, timeout=60)
        if ran.returncode or ran.stderr:
            raise SystemExit(f"status {ran.returncode}: {ran.stderr.decode()}\n{self.script}")
        self.whole = ran.stdout.decode().splitlines()
        places = [at for at, line in enumerate(self.whole) if line.startswith("journal ")]
        if len(places) != 2 or self.whole[places[0] : places[1]] != self.whole[places[1] :]:
            self.wrong("it isn't settled")
        self.report, self.journal = self.whole[: places[0]], self.whole[places[0] : places[1]]

    def wrong(self, what):
        """Ends all with the script and what it printed."""
        raise SystemExit(f"{what}\n{self.script}" + "\n".join(self.whole))

    def shown(self, what):
        """Returns what follows these words in the first line of the report that begins with them."""
        return next(line[len(what) :].strip() for line in self.report if line.startswith(what + " "))

    def present(self, key):
        """Returns the repositories that have the key."""
        return set(self.shown(f"presence {key}").split()) - {"-"}
