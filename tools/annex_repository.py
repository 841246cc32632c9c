"""Reads a git-annex repository by git alone: its branch, its files and their keys, its remotes, and which contents it has.

Nothing here is written, and git-annex isn't run. Unproved, and no part of the program.
"""
import hashlib
import os
import re
import subprocess

POINTER_BYTES = 32768  # a longer file is no pointer
POINTER = re.compile(rb"/annex/objects/([^/\n]+)")
LINK = re.compile(rb"(?:.*/)?\.git/(?:.*/)?annex/objects/(?:.*/)?([^/\n]+)$")
STAMP = re.compile(r"(\d{1,10})(?:\.(\d{1,12}))?s?")
UUID = re.compile(r"[0-9a-f]{8}(-[0-9a-f]{4}){3}-[0-9a-f]{12}")
GROUP = re.compile(r"[^\0- \x7f]+")
STATUSES = "10X"  # of two of one stamp the later one is preferred
LEVELS = {"1": "trusted", "?": "semitrusted", "0": "untrusted", "X": "dead"}
MOST_BYTES_OF_A_LINE = 8192  # a longer one says nothing
COSTS = {"clone": 100, "other": 200}
# settings of git that decide jobs, and that nobody reads here
UNREAD = re.compile(r"remote\..*\.annex-(?:ignore-command|cost-command)|annex\.tune\..*")


class Failure(Exception):
    """Why a question has no answer, for the user."""


def text_of(data):
    return os.fsdecode(data)


def surroundings(path):
    """The environment for git in this folder: the repository is this one, and none above it or of a caller."""
    kept = {name: value for name, value in os.environ.items() if name not in ("GIT_DIR", "GIT_WORK_TREE", "GIT_INDEX_FILE")}
    return {**kept, "GIT_CEILING_DIRECTORIES": os.path.dirname(os.path.realpath(path))}


def git(path, *words, given=None, wrong=True):
    """What git prints in this folder; where it fails, that is told, or with `wrong` as False it is nothing."""
    ended = subprocess.run(["git", "-C", path, *words], input=given, stdout=subprocess.PIPE, stderr=subprocess.PIPE, env=surroundings(path))
    if ended.returncode == 0:
        return ended.stdout
    if wrong:
        raise Failure("git %s: %s" % (" ".join(words), text_of(ended.stderr).strip() or "status %d" % ended.returncode))
    return b""


def file_of_key(key):
    """The key as the name of a file."""
    return key.replace("&", "&a").replace("%", "&s").replace(":", "&c").replace("/", "%")


def key_of_file(name):
    return name.replace("%", "/").replace("&c", ":").replace("&s", "%").replace("&a", "&")


def folders_of(name):
    """The two places below objects/ where git-annex may keep the content of the key with this file name."""
    digest = hashlib.md5(os.fsencode(key_of_file(name)))
    word = int.from_bytes(digest.digest()[:4], "little")
    letters = ["0123456789zqjxkmvwgpfZQJXKMVWGPF"[word >> 6 * place & 31] for place in range(6)]
    mixed = "".join(letters[place ^ 1] for place in range(4))
    return os.path.join(mixed[:2], mixed[2:]), os.path.join(digest.hexdigest()[:3], digest.hexdigest()[3:6])


def key_of_text(mode, text):
    """The key that a symlink's target names, or the text of a pointer, as an unlocked file has it; or None."""
    named = (LINK if mode == "120000" else POINTER).match(text)
    return key_of_file(text_of(named[1])) if named else None


# What a line of a log file says: its topic, its stamp, and what is said, of two with one stamp the greater; or None. A line
# without a stamp has an empty one, which is less than all others.


def stamp(word):
    found = STAMP.fullmatch(word)
    return (int(found[1]), (found[2] or "").ljust(9, "0")[:9]) if found else None


def status_said(line):
    words = line.split(" ")
    fits = len(words) == 3 and stamp(words[0]) and words[1] in ("0", "1", "X") and UUID.fullmatch(words[2])
    return (words[2], stamp(words[0]), STATUSES.index(words[1])) if fits else None


def number_said(line):
    words = line.split(" ")
    fits = len(words) == 2 and stamp(words[0]) and re.fullmatch("[0-9]{1,9}", words[1])
    return ("", stamp(words[0]), int(words[1])) if fits else None


def text_said(line):
    """Of a line that begins with a repository, and may end with `timestamp=` and a stamp."""
    front, _, last = line.rpartition(" ")
    stamped = front and last.startswith("timestamp=")
    uuid, _, text = (front if stamped else line).partition(" ")
    when = stamp(last[len("timestamp=") :]) if stamped else ()
    return (uuid, when, text) if when is not None and UUID.fullmatch(uuid) else None


def level_said(line):
    found = text_said(line)
    return (*found[:2], list(LEVELS).index(found[2])) if found and found[2] in LEVELS else None


def groups_said(line):
    found = text_said(line)
    return found if found and all(GROUP.fullmatch(group) for group in found[2].split(" ") if found[2]) else None


def group_text_said(line):
    when, _, rest = line.partition(" ")
    group, _, text = rest.partition(" ")
    return (group, stamp(when), text) if stamp(when) and GROUP.fullmatch(group) else None


SAID = {
    "location": status_said, "trust.log": level_said, "uuid.log": text_said, "group.log": groups_said,
    "numcopies.log": number_said, "mincopies.log": number_said, "preferred-content.log": text_said,
    "required-content.log": text_said, "group-preferred-content.log": group_text_said, "remote.log": text_said,
}  # fmt: skip


def newest(file, lines):
    """What the lines of this log file say now of each topic."""
    found = {}
    for said in map(SAID[file], (line for line in lines if len(line.encode()) <= MOST_BYTES_OF_A_LINE)):
        if said and (said[0] not in found or said[1:] > found[said[0]]):
            found[said[0]] = said[1:]
    return {topic: what for topic, (_, what) in found.items()}


class Blobs:
    """The texts of git's objects, from one process of git."""

    def __init__(self, path):
        command = ["git", "-C", path, "cat-file", "--batch"]
        self.process = subprocess.Popen(command, stdin=subprocess.PIPE, stdout=subprocess.PIPE, env=surroundings(path))

    def read(self, name):
        self.process.stdin.write(name.encode() + b"\n")
        self.process.stdin.flush()
        words = self.process.stdout.readline().split()
        if len(words) != 3:
            raise Failure("git has no object %s" % name)
        data = self.process.stdout.read(int(words[2]))
        self.process.stdout.read(1)
        return data

    def close(self):
        self.process.stdin.close()
        self.process.stdout.close()
        self.process.wait()


class Branch:
    """The log files of a repository: of its branch git-annex, of those of its remotes that aren't merged into it yet, as
    git-annex itself would do first, and of what it has written and not committed yet."""

    def __init__(self, repository):
        self.blobs = Blobs(repository.path)
        self.objects, self.journal, self.read = {}, {}, {}
        for ref in self.refs(repository.path):
            for entry in filter(None, git(repository.path, "ls-tree", "-r", "-z", "--full-tree", ref).split(b"\0")):
                head, _, path = entry.partition(b"\t")
                self.objects.setdefault(self.name(text_of(path)), set()).add((ref, head.split()[2].decode()))
        for folder in ("journal", "journal-private"):
            self.read_journal(os.path.join(repository.git_folder, "annex", folder), folder == "journal")

    @staticmethod
    def refs(path):
        """The branch, and those of remotes that have more than it has."""
        own = "refs/heads/git-annex"
        there = bool(git(path, "for-each-ref", own))
        more = ["--no-merged=" + own] if there else []
        names = git(path, "for-each-ref", "--format=%(refname)", *more).decode().split()
        return [own] * there + [name for name in names if name.endswith("/git-annex") and name != own]

    @staticmethod
    def name(path):
        """A location log is known by its last part, since its folders follow from that."""
        return path.rsplit("/", 1)[-1] if "/" in path else path

    def read_journal(self, folder, replaces):
        """A file of the journal stands for that of the branch; one of the private journal is added to it."""
        for name in sorted(os.listdir(folder)) if os.path.isdir(folder) else ():
            path = name.replace("__", "\0").replace("_", "/").replace("\0", "_")
            with open(os.path.join(folder, name), "rb") as file:
                self.journal.setdefault(self.name(path), []).append((replaces, file.read()))

    def lines(self, name):
        """The lines of the log file, each once, in byte order. One that isn't UTF-8 is left out."""
        if name not in self.read:
            self.read[name] = self.read_lines(name)
        return self.read[name]

    def read_lines(self, name):
        journal = self.journal.get(name, [])
        replaced = any(replaces for replaces, _ in journal)
        objects = self.objects.get(name, ())
        data = [self.blobs.read(blob) for ref, blob in objects if not (replaced and ref == "refs/heads/git-annex")]
        lines = set(b"\n".join([*data, *(text for _, text in journal)]).split(b"\n")) - {b""}
        return [line.decode() for line in sorted(lines) if is_utf8(line)]

    def location(self, key):
        return self.lines(file_of_key(key) + ".log")

    def statuses(self, key):
        """What the location log of the key says of each repository: `1`, `0` or `X`."""
        return {uuid: STATUSES[rank] for uuid, rank in newest("location", self.location(key)).items()}

    def levels(self):
        return {uuid: list(LEVELS.values())[rank] for uuid, rank in newest("trust.log", self.lines("trust.log")).items()}

    def number(self, kind):
        """The number of copies that a log says, `numcopies` or `mincopies`, or None."""
        return newest(kind + ".log", self.lines(kind + ".log")).get("")

    def texts(self, file):
        """The text that a log says of each repository."""
        return newest(file, self.lines(file))


def is_utf8(data):
    try:
        data.decode()
    except UnicodeDecodeError:
        return False
    return True


class Repository:
    """A git-annex repository in a folder that can be read."""

    def __init__(self, path):
        if not git(path, "rev-parse", "--git-dir", wrong=False):
            raise Failure("%s isn't a repository that git can read" % path)
        self.path = text_of(git(path, "rev-parse", "--absolute-git-dir").rstrip(b"\n"))
        self.git_folder = text_of(git(path, "rev-parse", "--path-format=absolute", "--git-common-dir").rstrip(b"\n"))
        top = git(path, "rev-parse", "--show-toplevel", wrong=False).rstrip(b"\n")
        self.top = text_of(top) if top else None
        self.config = {}
        for entry in git(path, "config", "--null", "--list").split(b"\0"):
            name, _, value = text_of(entry).partition("\n")
            self.config.setdefault(name, []).append(value)
        self.uuid = self.setting("annex.uuid")
        if not self.uuid:
            raise Failure("%s isn't a git-annex repository: it has no annex.uuid" % path)

    def setting(self, name):
        return self.config.get(name, [None])[-1]

    def has(self, key):
        name = file_of_key(key)
        objects = os.path.join(self.git_folder, "annex", "objects")
        return any(os.path.isfile(os.path.join(objects, folder, name, name)) for folder in folders_of(name))

    def entries(self):
        """Mode, object and path of each file of the tree: of the index, or without one of HEAD."""
        if self.top:
            listed = git(self.top, "ls-files", "-s", "-z")
        else:
            listed = git(self.path, "ls-tree", "-r", "-z", "--full-tree", "HEAD", wrong=False)
        for entry in filter(None, listed.split(b"\0")):
            head, _, path = entry.partition(b"\t")
            words = head.decode().split()
            yield words[0], words[1 if self.top else 2], text_of(path)

    def keys(self):
        """Each annexed file of the tree, in order of path, with its key: symlinks, and pointers, as unlocked files have them."""
        entries = [entry for entry in self.entries() if entry[0] in ("120000", "100644", "100755")]
        given = "".join(name + "\n" for _, name, _ in entries).encode()
        listed = git(self.path, "cat-file", "--batch-check=%(objectsize)", given=given).split() if entries else []
        blobs, found = Blobs(self.path), {}
        for (mode, name, path), size in zip(entries, listed):
            key = key_of_text(mode, blobs.read(name)) if size.isdigit() and int(size) <= POINTER_BYTES else None
            if key:
                found[path] = key
        blobs.close()
        return found

    def attributes(self, paths):
        """The numbers of copies that .gitattributes gives to these paths: {path: {"numcopies": N, "mincopies": N}}."""
        if not self.top or not paths:
            return {}
        given = b"".join(os.fsencode(path) + b"\0" for path in paths)
        said = git(self.top, "check-attr", "-z", "--stdin", "annex.numcopies", "annex.mincopies", given=given).split(b"\0")
        found = {}
        for path, name, value in zip(said[::3], said[1::3], said[2::3]):
            if value.isdigit():
                found.setdefault(text_of(path), {})[name.decode().partition(".")[2]] = int(value)
        return found

    def remotes(self):
        """The remotes in the order in which git-annex asks them: the cheapest first, then by name."""
        names = {name.split(".", 1)[1].rsplit(".", 1)[0] for name in self.config if re.fullmatch(r"remote\..+\..+", name)}
        return sorted((Remote(self, name) for name in names), key=lambda remote: (remote.cost, remote.name))

    def unread_settings(self):
        return sorted(name for name in self.config if UNREAD.fullmatch(name))


class Remote:
    """A remote: its clone where it can be reached by a path, else why it can't be asked."""

    def __init__(self, repository, name):
        self.repository, self.name = repository, name
        self.level = self.setting("annex-trustlevel")
        self.clone, self.why = self.reach(repository.top or repository.path)
        self.uuid = self.clone.uuid if self.clone else self.setting("annex-uuid")
        if (self.setting("annex-ignore") or "").lower() in ("true", "yes", "on", "1"):
            self.clone, self.why = None, "its annex-ignore is set"
        cost = self.setting("annex-cost") or ""
        self.cost = float(cost) if re.fullmatch(r"\d+(\.\d+)?", cost) else COSTS["clone" if self.clone else "other"]

    def setting(self, word):
        return self.repository.setting("remote.%s.%s" % (self.name, word))

    def reach(self, base):
        """The clone, or why there is none."""
        url = self.setting("url")
        if url is None:
            return None, "it is a special remote"
        url = url[len("file://") :] if url.startswith("file://") else url
        if "://" in url or re.match(r"[^/]*:", url):
            return None, "its address is no path"
        folder = os.path.join(base, os.path.expanduser(url))
        if not os.path.isdir(folder):
            return None, "its folder isn't there"
        try:
            return Repository(folder), None
        except Failure as failure:
            return None, str(failure)
