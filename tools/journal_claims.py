#!/usr/bin/env python3
"""Turns journals into claims that the step of a repository makes their entries; each claim is proved by computation.

    tools/journal_claims.py FOLDER OUT [NAME..]    writes OUT/NAME.antt for each FOLDER/NAME.journal; OUT/Lib.antt
                                                   names the modules, and is written by hand
    tools/journal_claims.py --check FOLDER OUT     says whether the files are as it would write them

FOLDER has journals beside the scripts (NAME.annex) whose runs they are. A journal tells what each turn made, and not what it
found; this tool reads that off the journal: the frames that were sent and not yet taken, the room of the rings, the store call
of a fault entry, the size of a part that an answer names, and the words beside the answers of a job. Where a script begins no
job by `begin` and takes no turns one by one, its rounds are known too, and each turn that made nothing is claimed to have no
step. Unproved, and no part of the program: each claim is proved by itself, so a wrong look can only make one fail, or say less.
"""
import os
import re
import sys

HEAD = """-- The run of the script {script}: each entry that a turn made is what the step makes (written by tools/journal_claims.py).
use Rattle.std.specs.Prelude.{{refl, ℕ, true, false, List, [], ◌∷◌, Some, None, codes}}
use Rattle.annex_base.specs.declared.kinds.Call.TheVariants as calls
use Rattle.annex_base.specs.declared.kinds.Found.TheVariants as found
use Rattle.annex_base.specs.declared.kinds.Word.TheVariants as words
use Rattle.log_lines.specs.declared.entry.LogKind.TheVariants as logs
use Rattle.run_data.specs.declared.entry.Entry.{{Entry}}
use Rattle.run_data.specs.declared.entry.EntryKind.TheVariants as kinds
use Rattle.run_data.specs.declared.entry.By.TheVariants as by
use Rattle.run_data.specs.declared.entry.FrameText.TheVariants.{{Opening, Closing, Bytes, Line}}
use Rattle.run_data.specs.declared.entry.FrameView.{{FrameView}}
use Rattle.run_data.specs.declared.entry.LogFile.TheVariants.{{Location, Of}}
use Rattle.run_data.specs.declared.job.JobKind.TheVariants as jobs
use Rattle.run_data.specs.declared.job.Outcome.TheVariants as outcomes
use Rattle.run_data.specs.declared.job.DropRefusal.TheVariants as drops
use Rattle.run_data.specs.declared.job.TransferRefusal.TheVariants as transfers
use Rattle.run_data.specs.declared.job.Cause.TheVariants as causes
use Rattle.run_data.specs.declared.job.SourceCause.TheVariants as sources
use Rattle.run_data.specs.declared.job.Denial.TheVariants as denials
use Rattle.run_data.specs.declared.run.RepoView.{{RepoView}}
use Rattle.node_model.specs.SetUp.{{SetUp}}
use Rattle.step_claims.specs.Opened.{{opened}}
use Rattle.step_claims.specs.Claims.{{Closes, Crashes, IsIdle, Makes, down, end, entry, job, need, proof, repository, set_up, up}}
"""

CALLS = {
    "has": "Has", "size": "Size", "read": "Read", "partsize": "PartSize", "readpart": "ReadPart", "append": "Append",
    "commit": "Commit", "droppart": "DropPart", "remove": "Remove", "hold": "Hold", "unhold": "Unhold", "holds": "Holds",
    "putfile": "PutFile", "file": "File",
}
LOGS = {
    "trust.log": "Trust", "uuid.log": "Uuid", "group.log": "Group", "preferred-content.log": "Preferred",
    "required-content.log": "Required", "group-preferred-content.log": "GroupPreferred", "numcopies.log": "Numcopies",
    "mincopies.log": "Mincopies",
}
FOUND_WORDS = {"absent": "Absent", "barred": "Barred", "held": "Held", "late": "Late"}
REQUESTS = ("VERSION", "CHECKPRESENT", "LOCKCONTENT", "REMOVE", "REMOVE-BEFORE", "GETTIMESTAMP", "GET", "PUT")
PLACES = 8  # of a ring


def listed(items):
    return " ∷ ".join([*items, "[]"]) if items else "[]"


def optional(value):
    return "None" if value is None else f"(Some {value})"


def capital(word):
    return word[0].upper() + word[1:]


class Journal:
    """A journal as its lines say it, with numbers for names."""

    def __init__(self, text):
        lines = text.split("\n")
        self.repos, self.names, self.marks, self.entries = [], {}, [], []
        for line in lines[1:]:
            if line.startswith("repo "):
                _, name, uuid, offset, version, locks = line.split(" ")
                self.names[name] = len(self.repos)
                self.repos.append((name, uuid, int(offset[7:]), int(version[8:]), locks == "locks"))
            elif line.startswith("path "):
                place, length, rest = line[5:].split(" ", 2)
                path, key = self.cut(rest, int(length))
                self.marks.append((int(place), path, key))
            elif line.startswith("< "):
                self.entries[-1].taken = Frame(self, line[2:])
            elif line.startswith("> "):
                self.entries[-1].sent.append(Frame(self, line[2:]))
            elif line.startswith("| "):
                self.entries[-1].lines.append(line[2:])
            elif line:
                self.entries.append(Entry(self, line))

    @staticmethod
    def cut(rest, length):
        data = rest.encode()
        return data[:length].decode(), data[length + 1:].decode()

    def key_at(self, place, path):
        """The key that the path has in the tree after so many entries."""
        found = None
        for at, name, key in self.marks:
            if at <= place and name == path:
                found = key
        return found

    def paths_at(self, place, key):
        return sorted({path for at, path, _ in self.marks if at <= place and self.key_at(place, path) == key}, key=str.encode)


class Frame:
    def __init__(self, journal, text):
        peer, slot, way, epoch, seq, body = text.split(" ", 5)
        self.peer, self.slot, self.up, self.epoch, self.seq, self.body = journal.names[peer], int(slot), way == "up", int(epoch), int(seq), body

    def opens(self):
        return self.body == "OPEN"

    def closes(self):
        return self.body == "CLOSE"


class Entry:
    def __init__(self, journal, text):
        stamp, name, self.kind, *rest = text.split(" ", 3)
        self.fields = rest[0] if rest else ""
        time, count = stamp.split(".")
        self.time, self.count = int(time), int(count)
        self.repo = None if name == "-" else journal.names[name]
        self.taken, self.sent, self.lines = None, [], []

    def field(self, name):
        found = re.search(rf"(?:^| ){name}=(.*)$", self.fields)
        return found[1] if name == "key" else found[1].split(" ", 1)[0]

    def job(self):
        """The number of the job that made it, if one did."""
        if self.kind in ("bar", "order", "end", "talk"):
            first = self.fields.split(" ")[0]
            return None if first == "-" else int(first)
        if self.kind == "share":
            owner = self.field("for")
        elif self.kind in ("gain", "gone"):
            owner = self.field("by")
        elif self.kind == "fault":
            owner = self.fields.split(" ")[1]
        else:
            return None
        return int(owner[4:]) if owner.startswith("job:") else None


class Claims:
    """The claims of one journal, in the words of specs/Claims."""

    def __init__(self, name, journal, script):
        self.journal, self.out, self.texts = journal, [], {}
        self.name, self.in_rounds = name, script is not None and not re.search(r"(?m)^(begin|turn|settle|sync|par) ?", script)
        self.paths = {r: {} for r in range(len(journal.repos))}
        self.rings = {}     # what was sent and not taken: by taker, peer, slot and way
        self.ends = {}      # epoch and whether it is open: by repository, peer, slot and side
        self.asked = {}     # the last request on a connection: by client, server, slot
        self.senders = {}   # the entry that sent a frame
        self.words = {}     # the words beside answers: by repository, job and peer
        self.owes = {}      # the keys whose status a repository owes its location logs
        self.slots = {}     # of jobs: by repository and job
        self.next, self.settling = 0, False

    # ---- words of the claims

    def text(self, value):
        """The name of a byte string."""
        if value not in self.texts:
            self.texts[value] = f"t{len(self.texts)}"
        return self.texts[value]

    def spelled(self, value):
        if re.fullmatch(r"[ !#-\[\]-~]*", value):
            return f'codes "{value}"'
        return listed([str(b) for b in value.encode()])

    def by(self, word):
        if word == "script":
            return "by.Script"
        if word.startswith("job:"):
            return f"(by.Job {word[4:]})"
        peer, slot = word[5:].rsplit(".", 1)
        return f"(by.Peer {self.journal.names[peer]} {slot})"

    def frame(self, f):
        body = {"OPEN": "Opening", "CLOSE": "Closing"}.get(f.body)
        if body is None:
            body = f"(Bytes {f.body[6:]})" if f.body.startswith("BYTES ") else f"(Line {self.text(f.body)})"
        return f"({'up' if f.up else 'down'} {f.peer} {f.slot} {f.epoch} {f.seq} {body})"

    def file(self, word):
        return f"(Location {self.text(word[9:])})" if word.startswith("location ") else f"(Of logs.{LOGS[word]})"

    def need(self, word):
        n, m = word.split(",")
        return f"(need {n} {m})"

    def repos_of(self, word):
        return listed([str(self.journal.names[x]) for x in word.split(",") if x != "-"])

    def proof(self, words):
        given = dict(w.split("=") for w in words)
        lists = " ".join(f"({self.repos_of(given[x])})" for x in ("locked", "trusted", "recent"))
        return f"(proof {self.need(given['need'])} {lists})"

    def key_of(self, word, place):
        if word.startswith('"'):
            word = word[1:-1]
        return (self.journal.key_at(place, word[1:]), word[1:]) if word.startswith("@") else (word, None)

    def job(self, text, place):
        found = re.fullmatch(r'(drop|get|copy|move) (\w+) ("[^"]*"|\S+)(?: (from|to) (\w+))?', text)
        verb, _, word, way, peer = found.groups()
        kind = {"move": "MoveFrom" if way == "from" else "MoveTo"}.get(verb, capital(verb))
        key, path = self.key_of(word, place)
        return key, f"(job jobs.{kind} {self.text(key)} {optional(path and self.text(path))} {optional(None if peer is None else self.journal.names[peer])})"

    def refusal(self, words, transfer):
        reason, rest = words[1], words[2:]
        if reason in ("notpresent", "storefault", "crashed", "nothere", "busy", "closed", "rejected"):
            names = {"notpresent": "NotPresent", "storefault": "StoreFault", "nothere": "NotHere"}
            return ("transfers." if transfer else "drops.") + names.get(reason, capital(reason))
        if reason == "required":
            return f"(drops.Required {self.text(' '.join(rest))})"
        if reason == "held":
            until = rest[0][6:]
            return f"(drops.Held {optional(None if until == 'open' else until)})"
        if reason == "barred":
            return f"(drops.Barred {rest[0]})"
        if reason == "lacking":
            causes = [f"(record {{ repo = {self.journal.names[c.split(':')[0]]}; cause = causes.{capital(c.split(':')[1])} }})"
                      for c in rest[4][7:].split(",") if c != "-"]
            return f"(drops.Lacking {self.proof(rest[:4])} ({listed(causes)}))"
        if reason == "expired":
            return f"(drops.Expired {rest[0]} {rest[1]})"
        if reason == "denied":
            return f"(drops.Denied denials.{capital(rest[0])})"
        if reason == "lost":
            return f"(drops.Lost {'true' if rest[0] == 'ordered' else 'false'})"
        if reason == "oldprotocol":
            return f"(drops.OldProtocol {rest[0]})"
        if reason == "nosource":
            causes = [f"(record {{ repo = {self.journal.names[c.split(':')[0]]}; cause = sources.{capital(c.split(':')[1])} }})"
                      for c in rest[0][7:].split(",") if c != "-"]
            return f"(transfers.NoSource ({listed(causes)}))"
        raise ValueError(" ".join(words))

    def outcome(self, text, kind):
        words = text.split(" ")
        if words[0] == "done":
            if len(words) > 1 and words[1] == "absent":
                return f"(outcomes.DroppedAbsent {self.proof(words[2:])})"
            if words[1].startswith("need="):
                return f"(outcomes.Dropped {self.proof(words[1:])})"
            start = words[-1][6:]
            start = optional(None if start == "-" else start)
            if words[1].startswith("source="):
                source = words[1][7:]
                return f"(outcomes.Got {optional(None if source == '-' else self.journal.names[source])} {start})"
            return f"(outcomes.Copied {start})"
        if words[1] == "transfer":
            return f"(outcomes.TransferRefused {self.refusal(words[2:], True)})"
        transfer = kind in ("get", "copy")
        return f"(outcomes.{'TransferRefused' if transfer else 'Refused'} {self.refusal(words[1:], transfer)})"

    def closed_end(self, e):
        """The peer, the slot and the side of the end that a close is of."""
        return f"{self.journal.names[e.field('peer')]} {e.field('slot')} {'true' if e.field('side') == 'client' else 'false'}"

    def kind(self, e, place):
        """The entry's kind."""
        f = e.fields
        if e.kind == "begin":
            number, what = f.split(" ", 1)
            key, made = self.job(what, place)
            self.paths[e.repo][int(number)] = self.journal.paths_at(place, key)
            self.slots[e.repo, int(number)] = what.split(" ")[0]
            return f"kinds.Begin {number} {made}"
        if e.kind == "gain":
            return f"kinds.Gain {self.by(e.field('by'))} {e.field('size')} {self.text(e.field('key'))}"
        if e.kind == "share":
            return f"kinds.Share {e.field('hold')} {e.field('end')} {self.by(e.field('for'))} {self.text(e.field('key'))}"
        if e.kind == "release":
            return f"kinds.Release {e.field('hold')} {self.text(e.field('key'))}"
        if e.kind == "check":
            return f"kinds.Check found.{capital(e.field('found'))} {self.text(e.field('key'))}"
        if e.kind == "bar":
            return f"kinds.Bar {f.split(' ')[0]} {self.need(e.field('need'))} {self.text(e.field('key'))}"
        if e.kind == "order":
            deadline = e.field("deadline")
            return (f"kinds.Order {f.split(' ')[0]} {self.journal.names[e.field('target')]} {optional(None if deadline == '-' else deadline)} "
                    f"{self.need(e.field('need'))} {self.text(e.field('key'))}")
        if e.kind == "gone":
            return f"kinds.Gone {self.by(e.field('by'))} {self.text(e.field('key'))}"
        if e.kind == "log":
            return f"kinds.Log {self.file(f.split(' ', 1)[1])}"
        if e.kind == "compact":
            return f"kinds.Compact {self.file(f)}"
        if e.kind == "talk":
            return f"kinds.Talk {optional(None if f == '-' else f)}"
        if e.kind == "close":
            return f"kinds.Close {self.closed_end(e)}"
        if e.kind == "crash":
            return f"kinds.Crash {e.field('clock')}"
        if e.kind == "wait":
            return f"kinds.Wait {f}"
        if e.kind == "fault":
            call, source = f.split(" ")
            return f"kinds.Fault calls.{CALLS[call]} {self.by(source)}"
        if e.kind == "end":
            number, rest = f.split(" ", 1)
            return f"kinds.End {number} {self.outcome(rest, self.slots[e.repo, int(number)])}"
        raise ValueError(e.kind)

    # ---- what a turn found

    def end(self, r, peer, slot, client):
        return self.ends.setdefault((r, peer, slot, client), [0, False])

    def may_take(self, end, f):
        return not end[1] and end[0] < f.epoch if f.opens() else end[1] and f.epoch == end[0]

    def at_hand(self, r):
        """The first frame at each end, after those that a turn drops."""
        found = []
        for (taker, peer, slot, up), ring in sorted(self.rings.items()):
            if taker != r:
                continue
            end = self.end(r, peer, slot, not up)
            while ring and not self.may_take(end, ring[0]):
                ring.pop(0)
            if ring:
                found.append(ring[0])
        return found

    def full(self, r):
        return [f"end {taker} {slot} {'true' if up else 'false'}" for (taker, peer, slot, up), ring in sorted(self.rings.items())
                if peer == r and len(ring) > PLACES - 2]

    def part(self, e):
        for f in e.sent:
            words = f.body.split(" ")
            if words[0] == "PUT-FROM" or words[0] == "GET":
                return words[1]
        return "0"

    def right(self, e):
        return "true" if e.kind == "gain" or e.kind == "fault" and e.fields.startswith("commit") else "false"

    def words_of(self, e):
        if e.kind != "end":
            return "[]"
        number = int(e.fields.split(" ")[0])
        told = [(c, w) for (r, j, c), w in sorted(self.words.items()) if (r, j) == (e.repo, number) and w]
        return listed([f"({c}, words.{w})" for c, w in told])

    def look(self, e):
        fails = f"calls.{CALLS[e.fields.split(' ')[0]]}" if e.kind == "fault" else None
        hand = listed([self.frame(f) for f in self.at_hand(e.repo)])
        return f"({hand}) ({listed(self.full(e.repo))}) {optional(fails)} {self.part(e)} {self.right(e)} ({self.words_of(e)})"

    # ---- from entry to entry

    def is_step(self, e):
        """Whether a turn made it, and no line of the script."""
        if e.kind in ("begin", "wait", "compact", "crash") or e.repo is None:
            return False
        if e.kind == "gain":
            return e.field("by") != "script"
        if e.kind == "fault":
            return not e.fields.endswith(" script")
        if e.kind == "close":
            return e.taken is not None
        if e.kind == "log":
            return e.fields.split(" ", 1)[1][9:] in self.owes.get(e.repo, [])
        return True

    def note_owed(self, e):
        """What lines the entry makes its repository owe, and what it pays."""
        owed = self.owes.setdefault(e.repo, [])
        if e.kind == "crash":
            owed.clear()
        if e.kind == "log" and e.fields.split(" ", 1)[1][9:] in owed:
            owed.remove(e.fields.split(" ", 1)[1][9:])
        if e.kind == "fault" and e.fields.startswith("putfile") and owed and not e.fields.endswith("script"):
            owed.pop(0)
        if e.kind == "gain" and e.field("by") != "script" or e.kind == "gone":
            owed.append(e.field("key"))
        f = e.taken
        if f is not None and not f.up:
            request = self.asked.get((e.repo, f.peer, f.slot), "")
            if request.startswith("REMOVE") and f.body == "SUCCESS" or request.startswith("PUT ") and f.body in ("SUCCESS", "ALREADY-HAVE"):
                owed.append(request.split(" ", 2 if not request.startswith("REMOVE ") else 1)[-1])

    def note_word(self, e):
        f, number = e.taken, e.job()
        if f is None or f.up or number is None:
            return
        request = self.asked.get((e.repo, f.peer, f.slot), "")
        sender = self.senders.get((f.peer, e.repo, f.slot, f.up, f.epoch, f.seq))
        awaited = request.startswith("CHECKPRESENT") or request.startswith("REMOVE")
        if sender is not None and awaited:
            word = None
            if sender.kind == "check":
                word = FOUND_WORDS.get(sender.field("found"))
            elif sender.kind == "fault":
                word = "Fault"
            self.words[e.repo, number, f.peer] = word

    def pass_on(self, e):
        """Takes and sends the entry's frames."""
        self.note_word(e)
        self.note_owed(e)
        f = e.taken
        if f is not None:
            ring = self.rings[e.repo, f.peer, f.slot, f.up]
            while ring[0].seq != f.seq or ring[0].epoch != f.epoch:
                ring.pop(0)
            ring.pop(0)
            end = self.end(e.repo, f.peer, f.slot, not f.up)
            if f.opens():
                end[:] = [f.epoch, True]
            elif f.closes():
                end[1] = False
        for f in e.sent:
            there = Frame.__new__(Frame)
            there.peer, there.slot, there.up, there.epoch, there.seq, there.body = e.repo, f.slot, f.up, f.epoch, f.seq, f.body
            self.rings.setdefault((f.peer, e.repo, f.slot, f.up), []).append(there)
            self.senders[e.repo, f.peer, f.slot, f.up, f.epoch, f.seq] = e
            end = self.end(e.repo, f.peer, f.slot, f.up)
            if f.opens():
                end[:] = [f.epoch, True]
                self.rings.get((e.repo, f.peer, f.slot, False), []).clear()
            elif f.closes():
                end[1] = False
            if f.up and f.body.split(" ")[0] in REQUESTS:
                self.asked[e.repo, f.peer, f.slot] = f.body

    def idle(self, place, repos):
        for r in repos:
            hand = listed([self.frame(f) for f in self.at_hand(r)])
            self.claim(f"idle{place}_{r}", f"IsIdle s{r} p{place - 1} ({hand})")

    def claim(self, name, text):
        self.out.append(f"{name} : {text}\nunfolding opened\n{name} = refl\n")

    def rounds(self, e, place, step):
        """The turns between the last entry and this one, in the rounds that end a job line."""
        many = len(self.journal.repos)
        if not self.in_rounds:
            return
        if step and self.settling:
            turns = range(self.next, e.repo if e.repo >= self.next else e.repo + many)
            self.idle(place, [t % many for t in turns])
            self.next = (e.repo + 1) % many
        elif not step:
            if self.settling:
                self.idle(place, range(many))
            self.settling, self.next = e.kind == "begin", 0

    def make(self):
        past = "[]"
        for place, e in enumerate(self.journal.entries):
            step = self.is_step(e)
            self.rounds(e, place, step)
            kind = self.kind(e, place)
            look = self.look(e) if step else None
            taken = "None" if e.taken is None else f"(Some {self.frame(e.taken)})"
            sent, lines = listed([self.frame(f) for f in e.sent]), listed([self.text(x) for x in e.lines])
            self.out.append(f"abbrev e{place} : Entry\ne{place} = entry {e.time} {e.count} {optional(e.repo)} ({kind}) {taken} ({sent}) ({lines})\n")
            if step:
                self.claim(f"claim{place}", f"Makes s{e.repo} {past} {look} e{place}")
            elif e.kind == "close":
                self.claim(f"claim{place}", f"Closes s{e.repo} {past} e{place} (end {self.closed_end(e)})")
            elif e.kind == "crash":
                self.claim(f"claim{place}", f"Crashes s{e.repo} {past} e{place}")
            self.pass_on(e)
            self.out.append(f"abbrev p{place} : List Entry\np{place} = e{place} ∷ {past}\n")
            past = f"p{place}"
        if self.in_rounds and self.settling:
            self.idle(len(self.journal.entries), range(len(self.journal.repos)))
        return self.file_text()

    def file_text(self):
        head = []
        repos = [f"repository ({self.spelled(n)}) ({listed([str(b) for b in bytes.fromhex(u.replace('-', ''))])}) {o} {v} {'true' if k else 'false'}"
                 for n, u, o, v, k in self.journal.repos]
        for r in range(len(self.journal.repos)):
            paths = [(j, ps) for j, ps in sorted(self.paths[r].items()) if ps]
            given = listed([f"({j}, {listed([self.text(p) for p in ps])})" for j, ps in paths])
            head.append(f"abbrev s{r} : SetUp\ns{r} = set_up {r} repos ({given})\n")
        texts = [f"abbrev {name} : List ℕ\n{name} = {self.spelled(value)}\n" for value, name in self.texts.items()]
        joined = " ∷ ".join(f"({x})" for x in repos)
        return "\n".join([HEAD.format(script=self.name), *texts, f"abbrev repos : List RepoView\nrepos = {joined} ∷ []\n", *head, *self.out])


def module_of(name):
    return "".join(capital(part) for part in re.split(r"[-_]", name))


def made(folder, names):
    files = {}
    for name in names:
        with open(f"{folder}/{name}.journal", encoding="utf-8") as file:
            journal = Journal(file.read())
        with open(f"{folder}/{name}.annex", encoding="utf-8") as file:
            script = file.read()
        files[module_of(name)] = Claims(name, journal, script).make()
    return files


def main(words):
    check = words[:1] == ["--check"]
    folder, out, *names = words[check:]
    names = names or sorted(f[:-8] for f in os.listdir(folder) if f.endswith(".journal"))
    wrong = 0
    for module, text in made(folder, names).items():
        path = f"{out}/{module}.antt"
        if not check:
            with open(path, "w", encoding="utf-8") as file:
                file.write(text)
        elif not os.path.exists(path) or open(path, encoding="utf-8").read() != text:
            print(f"{path}: not as the journal says")
            wrong += 1
    return 1 if wrong else 0


if __name__ == "__main__":
    sys.exit(main(sys.argv[1:]))
