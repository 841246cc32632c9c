#!/usr/bin/env python3
"""Measures how the time of the built program grows with the work, in one run.

Each line gives a size, the median time of the program on a script of that size, and two ratios to the line before:
how much more work the script has, and how much longer it took. Nothing here is a limit, and no figure is a promise.
"""

import itertools
import os
import pathlib
import statistics
import subprocess
import time

TOP = pathlib.Path(__file__).resolve().parent.parent
PROGRAM = TOP / "crates" / "annex" / "out" / "annex"
RUNS = 5


def name(repo):
    return "r%d" % repo


def declare(repos):
    return ["repo %s 00000000-0000-4000-8000-%012d" % (name(r), r) for r in range(repos)]


def key(number):
    return "WORM-s3--key%d" % number


def short_key(number):
    return "WORM--%d" % number


def with_keys(repos, keys, key=key):
    """Every repository has every key."""
    lines = declare(repos)
    for k in range(keys):
        lines += ["have %s %s text:abc" % (name(r), key(k)) for r in range(repos)]
    return lines


def drops(repos, keys, count):
    """The keys, and so many drops: each key goes from one repository after another until a copy is the last."""
    lines = with_keys(repos, keys)
    for d in range(count):
        lines.append("drop %s %s" % (name((d // keys) % repos), key(d % keys)))
    return lines


def copies(repos, keys):
    """Every repository has every key, and knows so of the others."""
    merges = ["merge %s %s" % (name(r), name(other)) for r in range(repos) for other in range(repos) if r != other]
    return with_keys(repos, keys, short_key) + merges


def asking_drops(repos, jobs):
    """A drop of each of so many keys, one after the other, each at the next repository: it asks another one to hold its copy."""
    return copies(repos, jobs) + ["drop %s %s" % (name(j % repos), short_key(j)) for j in range(jobs)]


def settles(repos, jobs):
    """The same, four at once at each repository, and then rounds of turns until all have ended."""
    lines = copies(repos, jobs)
    for j in range(jobs):
        lines.append("begin drop %s %s" % (name(j // 4 % repos), short_key(j)))
        if (j + 1) % (4 * repos) == 0:
            lines.append("settle")
    return lines + ["settle"]


def shows(keys, count):
    lines = with_keys(2, keys)
    return lines + ["show presence %s" % key(s % keys) for s in range(count)]


def waits_and_shows(what, count):
    """So many waits, each an entry of the run, and after each a line that shows what is there then of a key."""
    lines = with_keys(2, 1)
    for _ in range(count):
        lines += ["wait 1", "show %s %s" % (what, key(0))]
    return lines


def wanted(repos, paths):
    """So many paths, each of a key that the first repository is claimed to have, and what one repository after another wants of each."""
    lines = declare(repos) + ["wanted %s %s include=*.%d or not copies=2" % (name(0), name(r), r) for r in range(repos)]
    lines += ["file p%d.%d %s" % (p, p % repos, short_key(p)) for p in range(paths)]
    lines += ["log %s location %s 1s 1 %s" % (name(0), short_key(p), identifier(0)) for p in range(paths)]
    return lines + ["show wants %s %s p%d.%d" % (name(0), name(p // repos % repos), p, p % repos) for p in range(paths)]


def reads(lines_of_log, count):
    """A log to which so many lines are added, and so many drops that read it, and are refused for want of copies."""
    lines = declare(2) + ["have %s %s text:abc" % (name(0), key(0)), "numcopies %s 9" % name(0)]
    lines += ["log %s %s" % (name(0), line) for line in lines_of_log]
    return lines + ["drop %s %s" % (name(0), key(0))] * count


def identifier(number):
    return "10000000-0000-4000-8000-%012d" % number


def location_lines(number):
    return ["location %s 1600000000s 1 %s" % (key(0), identifier(n)) for n in range(number)]


def trust_lines(number):
    return ["trust.log %s 0 timestamp=1600000000s" % identifier(n) for n in range(number)]


def merged(count):
    """Each of two repositories has so many lines of one log, and one gets those of the other."""
    lines = declare(2)
    for n in range(count):
        lines += ["log %s location %s %ds 1 %s" % (name(r), key(0), 1_600_000_000 + n, identifier(r)) for r in range(2)]
    return lines + ["merge %s %s" % (name(0), name(1))]


def claims(keys, count):
    return with_keys(1, keys, short_key) + ["show claims %s %s" % (name(0), short_key(0))] * count


def contents(keys, mebibytes):
    return declare(1) + ["have %s %s fill:%d:0" % (name(0), short_key(k), mebibytes << 20) for k in range(keys)]


def transfers(files, bytes_each):
    """Each file is copied to a second repository, and from there a third one gets it."""
    lines = declare(3)
    for f in range(files):
        lines += ["add r0 f%d fill:%d:%d" % (f, bytes_each, f % 251), "copy r0 @f%d to r1" % f, "get r2 @f%d from r1" % f]
    return lines


def syncs(files):
    """So many files at the first of three repositories: a sync brings each to the others, and a second one finds nothing to do."""
    return declare(3) + ["add r0 f%d text:%d" % (f, f) for f in range(files)] + ["sync r0"] * 2


def idle_syncs(files):
    """So many files that fifteen of sixteen repositories don't want, each by an expression of some words: syncs find nothing to do."""
    unwanted = "exclude=* and (%s)" % " or ".join("include=*.%s" % letter for letter in "abcdefgh")
    wants = ["wanted r0 %s %s" % (name(r), unwanted) for r in range(1, 16)]
    return declare(16) + wants + ["add r0 f%d text:%d" % (f, f) for f in range(files)] + ["sync r0"] * 3


def placed(count):
    """Two repositories, of which the first has so many contents."""
    return declare(2) + ["have %s %s text:a" % (name(0), short_key(k)) for k in range(count)]


def located(count):
    return declare(2) + ["log %s location %s 1s 1 %s" % (name(0), short_key(k), identifier(0)) for k in range(count)]


def trusted(count):
    return declare(2) + ["log %s %s" % (name(0), line) for line in trust_lines(count)]


def some_drops(count):
    """So many contents that come to two repositories, and are dropped at the first."""
    return [line % k for k in range(count) for line in ("have r0 WORM--d%d text:a", "have r1 WORM--d%d text:a", "drop r0 WORM--d%d")]


def some_writes(count):
    return ["log %s trust.log %s 1 timestamp=1650000000s" % (name(0), identifier(n)) for n in range(count)]


def median_time(command, text=b"", status=0, processors=None):
    """Of the command, on the first so many processors alone, or on all."""
    limit = processors and (lambda: os.sched_setaffinity(0, sorted(os.sched_getaffinity(0))[:processors]))
    times = []
    for _ in range(RUNS):
        begin = time.perf_counter()
        ended = subprocess.run(command, input=text, stdout=subprocess.PIPE, preexec_fn=limit)
        times.append(time.perf_counter() - begin)
        assert ended.returncode == status, "status %d, not %d" % (ended.returncode, status)
    return statistics.median(times)


def run_time(lines, processors=None):
    script = ("\n".join(lines) + "\n").encode()
    assert len(script) <= 1_048_576, "a script has at most 1,048,576 bytes, this one %d" % len(script)
    return median_time([str(PROGRAM), "run"], script, processors=processors)


def read_time(script):
    """The time of the program on a script that is read and not run, since its last line is bad."""
    return median_time([str(PROGRAM), "run"], script, 2)


# A line of each kind: '#' stands for its number, and '%' for that number's rest by 4,095, since the tree has at most 4,096 paths.
LINES = (
    ("a comment", "# comment #"),
    ("a number", "numcopies a 2"),
    ("a glob", "numcopiesfor a 2 doc/#/*.jpg"),
    ("a level", "trust a b untrusted"),
    ("a text", "describe a b the disk of #"),
    ("an expression", "wanted a b include=*.mp3 and not copies=#"),
    ("groups", "group a b client archive g#"),
    ("a group's expression", "groupwanted a client include=#"),
    ("a line of a log", "log a location WORM--k# 1600000000s 1 10000000-0000-4000-8000-000000000000"),
    ("a content of a new key", "have a WORM-s3--k# text:abc"),
    ("a content with its sum", "have a SHA256-s3--ba7816bf8f01cfea414140de5dae2223b00361a396177a9cb410ff61f20015ad text:abc"),
    ("a part", "part a WORM-s3--k# hex:616263"),
    ("a content of one byte, repeated", "part a WORM--k# fill:16:7"),
    ("damage of a content that stands", "damage a WORM-s3--k text:abd"),
    ("a path and its key", "file doc/% WORM--k#"),
    ("a content of a path", "add a doc/% text:#"),
    ("a job of a key", "drop a WORM--k# from b"),
    ("a job of a path", "get a @x from b"),
    ("a job that is begun", "begin move a WORM--k# to b"),
    ("turns", "turn a 3"),
    ("a merge", "merge a b"),
    ("a crash", "crash a clock=#"),
    ("a wait", "wait 1"),
    ("a fault", "fail a putfile"),
    ("a block of three lines", "par\ndrop a WORM--k#\nclose a b\nend"),
    ("a show of a key", "show location a WORM--k#"),
    ("a show of a path", "show numbers a doc/#"),
)


def script_of(line, size):
    """A script of at most so many bytes: two repositories, a content and a path, then lines of this kind, and one that is bad."""
    lines = ["repo %s 00000000-0000-4000-8000-00000000000%s" % (repo, repo) for repo in "ab"]
    text, last = "\n".join(lines + ["have a WORM-s3--k text:abc", "file x WORM-s3--k", ""]), "!\n"
    pieces, length = [text], len(text) + len(last)
    for number in itertools.count():
        piece = line.replace("#", str(number)).replace("%", str(number % 4095)) + "\n"
        length += len(piece)
        if length > size:
            return "".join(pieces + [last]).encode()
        pieces.append(piece)


def table(title, rows, timed=run_time):
    print(title)
    print("  %12s %12s %12s %12s" % ("size", "ms", "work", "time"))
    before, times = None, []
    for size, work, what in rows:
        took = timed(what)
        times.append(took)
        if before is None:
            print("  %12s %12.2f" % (size, 1000 * took))
        else:
            print("  %12s %12.2f %11.2fx %11.2fx" % (size, 1000 * took, work / before[0], took / before[1]))
        before = (work, took)
    print()
    return times


def doublings(title, sizes, script, before=None):
    """A table of sizes that double each time, but for the last, and how many steps took more than 1.1 times as much more time as
    there was more to do (2.2 times for a doubling), of those whose run takes ten milliseconds or more; and how long one of the last
    took, beside a script without them."""
    times = table(title, [(n, n, script(n)) for n in sizes])
    steps = [(after / n, later / sooner) for n, after, sooner, later in zip(sizes, sizes[1:], times, times[1:]) if sooner >= 0.01]
    slow = sum(time > 1.1 * work for work, time in steps)
    print("  steps that took more than 1.1 times as much more time as there was more to do: %d of %d" % (slow, len(steps)))
    if before:
        print("  each: %.1f microseconds" % (1_000_000 * (times[-1] - run_time(before(sizes[-1]))) / sizes[-1]))
    print()


def doubled(first, last):
    """The first size, twice that, and so on, and then the last."""
    return list(itertools.takewhile(lambda size: size < last, (first << n for n in itertools.count()))) + [last]


def runs():
    """Whole runs of drops by messages, and of settles: as many keys as the bytes of a script have room for, and 4,000 jobs."""
    for repos in (2, 4, 8, 16):
        at = "at %d repositories" % repos
        keys, jobs = doubled(10, 36_000 // repos), doubled(10, 4_000)
        doublings("keys, each placed %s and merged" % at, keys, lambda n: copies(repos, n))
        doublings("drops, one after the other, %s" % at, jobs, lambda n: asking_drops(repos, n), lambda n: copies(repos, n))
        doublings("drops, four at once %s, and settles" % at, jobs, lambda n: settles(repos, n), lambda n: copies(repos, n))


def main():
    if not PROGRAM.exists():
        subprocess.run([str(TOP / "prove")], stdout=subprocess.DEVNULL, check=True)
    runs()
    table("keys, at 2 repositories", [(k, k, with_keys(2, k)) for k in (10, 100, 1000, 10000)])
    table("drops, of 1,000 keys at 4 repositories", [(d, d, drops(4, 1000, d)) for d in (10, 100, 1000, 10000)])
    table("keys, with 1,000 drops at 2 repositories", [(k, k, drops(2, k, 1000)) for k in (10, 100, 1000, 10000)])
    table("repositories, with 1,000 keys and 1,000 drops", [(r, r, drops(r, 1000, 1000)) for r in range(2, 17)])
    table("shows, of 1,000 keys", [(s, s, shows(1000, s)) for s in (10, 100, 1000, 10000)])
    for what, title in (("presence", "of where a key is"), ("row %s" % name(0), "of its row")):
        table(
            "waits, each followed by a show %s: a report that goes once over the entries takes as much more time as there is work" % title,
            [(n, n, waits_and_shows(what, n)) for n in (10, 100, 1000, 10000)],
        )
    doublings("paths, and what one of 16 repositories wants of each", doubled(64, 4_096), lambda n: wanted(16, n))
    for lines_of, title in ((location_lines, "a location log"), (trust_lines, "the trust log")):
        for count, drops_title in ((0, ""), (100, ", and 100 drops that read them")):
            table(
                "lines, added one by one to %s%s" % (title, drops_title),
                [(n, n, reads(lines_of(n), count)) for n in (10, 100, 1000, 10000)],
            )
    table("lines of a location log in each of two branches, of which one is merged into the other", [(n, n, merged(n)) for n in (10, 100, 1000, 6000)])
    table("location logs, and 1,000 looks at the claims of one key", [(n, n, claims(n, 1000)) for n in (10, 100, 1000, 10000)])
    table("MiB of one content", [(n, n, contents(1, n)) for n in (1, 2, 4, 8, 16)])
    table("contents of a MiB", [(n, n, contents(n, 1)) for n in (1, 4, 16, 64, 256)])
    table("MiB of one content, copied and got on", [(n, n, transfers(1, n << 20)) for n in (1, 2, 4, 8, 16)])
    doublings("files of 3 bytes, each copied and got on", doubled(64, 4_096), lambda n: transfers(n, 3))
    doublings("files, brought by a sync to two more repositories, and a second sync", doubled(250, 4_000), syncs)
    table(
        "processors, for three syncs of 4,000 files at 16 repositories, whose plans threads make",
        [(n, 1, n) for n in (1, 2, 4)],
        lambda processors: run_time(idle_syncs(4_000), processors),
    )
    for beside, title, numbers in (
        (placed, "keys at a node", (10, 100, 1000, 10000, 30000)),
        (located, "entries of a node, each a file of one line", (10, 100, 1000, 10000)),
        (trusted, "lines of the trust log", (10, 100, 1000, 10000)),
    ):
        for lines, done in (
            ([], ""),
            (["turn %s 10000" % name(0)] * 10, ", and 100,000 idle turns"),
            (some_drops(500), ", and 500 drops that ask a peer"),
            (some_writes(100), ", and 100 lines added to the trust log"),
        ):
            table(title + done, [(n, n, beside(n) + lines) for n in numbers])
    for kind, line in LINES:
        table(
            "bytes of a script, read: %s" % kind,
            [(n, n, script_of(line, n)) for n in (65_536, 131_072, 262_144, 524_288, 1_048_576)],
            read_time,
        )


if __name__ == "__main__":
    main()
