#!/usr/bin/env python3
"""Makes sources over which a crate is checked by the contracts of the crates below it, before those are proved.

    tools/over_contracts.py REPOSITORY OUT CRATE [CRATE ..]
    OUT/check.sh CRATE_FOLDER [WORDS ..]

Each CRATE that is named stays as it is. Of every crate below, the types, the public functions' contracts and the definitions
stay, and of lemma files those to which the named ones lead; each body is replaced by a call of a foreign function that ensures
false, and imports and dependencies without a use go, so that a check takes two to five minutes. WORDS go to `rattle check`, as
`--only MODULE` and `--allow-holes`. OUT must lie outside the repository. What is checked so is no proof: `rt ci` proves. It
doesn't see the layout, wrong bodies that must be refused, nor contracts that no call can meet.
"""
import os, re, shutil, subprocess, sys

# the kit's folder, in which its first page stands
KIT = os.path.dirname(subprocess.run(["rt", "doc"], check=True, capture_output=True, text=True).stdout.split("\n")[0])


def read_crates(repo):
    crates = {}
    for line in open(os.path.join(repo, "crates.txt")):
        line = line.split("#")[0].strip()
        if not line:
            continue
        head, deps = line.split(":", 1)
        crates[head.split()[0]] = [d for d in deps.split() if "=" not in d]
    return crates


def skip_string(s, i):
    i += 1
    while s[i] != '"':
        i += 2 if s[i] == "\\" else 1
    return i + 1


def skip_antt(s, i):
    """Behind the brace that closes the one at i, in antt's text."""
    depth = 0
    while True:
        c = s[i]
        if c == '"':
            i = skip_string(s, i)
            continue
        if s.startswith("--", i) and (s[i - 1] in " \n\t{"):
            while s[i] != "\n":
                i += 1
            continue
        if c == "{":
            depth += 1
        elif c == "}":
            depth -= 1
            if depth == 0:
                return i + 1
        i += 1


WORD = re.compile(r"[A-Za-z_][A-Za-z0-9_]*")


def skip_token(s, i):
    """Behind a comment, text or character that starts at i, or None."""
    c = s[i]
    if s.startswith("//", i):
        while i < len(s) and s[i] != "\n":
            i += 1
        return i
    if s.startswith("/*", i):
        return s.index("*/", i) + 2
    raw = re.match(r'(b|c|br|r)?r(#*)"', s[i:i + 12]) if c in "rbc" else None
    if raw:
        end = '"' + raw.group(2)
        return s.index(end, i + raw.end()) + len(end)
    if c == '"':
        return skip_string(s, i)
    if c == "b" and s[i + 1:i + 2] == '"':
        return skip_string(s, i + 1)
    quote = i + 1 if c == "b" and s[i + 1:i + 2] == "'" else i if c == "'" else None
    if quote is not None:
        m = re.match(r"'(\\x[0-9a-fA-F]{2}|\\u\{[^}]*\}|\\.|[^\\'\n])'", s[quote:])
        if m:
            return quote + m.end()
        return quote + 1
    m = WORD.match(s, i)
    if m:
        return m.end()
    return None


def skip_rust(s, i):
    """Behind the brace that closes the one at i, in Rattle's text, in which clauses of closures may stand."""
    depth = 0
    while True:
        j = skip_token(s, i)
        if j is not None:
            word = s[i:j]
            if word in ("requires", "ensures", "ghost"):
                m = re.compile(r"\*?\s*[A-Za-z_0-9]*\s*(:|=)?\s*\{").match(s, j)
                if m:
                    i = skip_antt(s, m.end() - 1)
                    continue
            i = j
            continue
        if s[i] == "{":
            depth += 1
        elif s[i] == "}":
            depth -= 1
            if depth == 0:
                return i + 1
        i += 1


CLAUSE = re.compile(r"(requires|ensures)\*?\s*([A-Za-z_0-9]+\s*)?\{")
GHOST = re.compile(r"ghost\s+([A-Za-z_0-9]+)\s*(:|=)\s*\{")
BODY = "{\n    crate::stub_assumed::never();\n    unreachable!()\n}"


def block_kind(header):
    header = re.sub(r"//[^\n]*", "", header)
    if re.search(r"\btrait\b", header) or re.search(r"\bimpl\b.*\bfor\b", header, re.S):
        return "kept"
    return "other"


def stub_file(s):
    out = []
    stack = []
    dropping = None
    i = 0
    signature = False
    depth = 0  # round and square brackets in a signature
    while i < len(s):
        if s.startswith("macro_rules!", i):
            j = skip_rust(s, s.index("{", i))
            out.append(s[i:j])
            i = j
            continue
        at_word = i == 0 or not (s[i - 1].isalnum() or s[i - 1] == "_")
        m = at_word and (CLAUSE.match(s, i) if signature else None) or at_word and GHOST.match(s, i)
        if m:
            j = skip_antt(s, m.end() - 1)
            out.append(s[i:j])
            i = j
            continue
        j = skip_token(s, i)
        if j is not None:
            word = s[i:j]
            if word.startswith("//") or word.startswith("/*"):
                i = j
                continue
            if word == "fn" and re.match(r"\s+[A-Za-z_]", s[j:j + 4]) and not signature:
                signature, depth = True, 0
                before = "".join(out[-40:]).rstrip()
                public = re.search(r"\bpub$", before)
                crate = re.search(r"\bpub\((crate|super)\)$", before)
                if not public and not (stack and stack[-1] == "kept"):
                    if crate:
                        # takes the words of the visibility back
                        text = "".join(out).rstrip()
                        out[:] = [text[:text.rindex("pub(")]]
                    dropping = len(out)
            out.append(word)
            i = j
            continue
        c = s[i]
        if c == "#" and re.match(r"#\[(tactic|cycle)", s[i:i + 9]):
            j, level = i + 1, 0
            while True:
                if s[j] == "[":
                    level += 1
                elif s[j] == "]":
                    level -= 1
                    if level == 0:
                        break
                j += 1
            i = j + 1
            continue
        if signature:
            if c in "([":
                depth += 1
            elif c in ")]":
                depth -= 1
            elif c == ";" and depth == 0:
                signature = False
            elif c == "{" and depth == 0:
                i = skip_rust(s, i)
                out.append(BODY)
                signature = False
                if dropping is not None:
                    del out[dropping:]
                    dropping = None
                continue
        elif c == "{":
            text = "".join(out)
            start = max(text.rfind(";"), text.rfind("{"), text.rfind("}")) + 1
            stack.append(block_kind(text[start:]))
        elif c == "}" and stack:
            stack.pop()
        out.append(c)
        i += 1
    return "".join(out)


def trim_uses(s):
    """Drops imported names that nothing names any more."""

    uses = re.compile(r"^[ \t]*use ([^;]*);\n?", re.M)
    body = uses.sub("", s)

    def is_used(name):
        if re.match(r"[a-z_0-9]+$", name):
            return re.search(r"\b" + name + r"(::|!)", re.sub(r"use [^;]*;", "", body)) is not None
        return re.search(r"\b" + name + r"\b", body) is not None

    def flat(text):
        """The paths of a use item."""
        text = text.strip()
        m = re.match(r"(.*?)\{(.*)\}$", text, re.S)
        if not m:
            return [text]
        parts, level, now = [], 0, ""
        for c in m.group(2):
            if c == "," and level == 0:
                parts.append(now)
                now = ""
                continue
            level += c == "{"
            level -= c == "}"
            now += c
        parts.append(now)
        return [m.group(1) + q for part in parts if part.strip() for q in flat(part)]

    def again(m):
        kept = []
        for path in flat(m.group(1)):
            name = path.split(" as ")[-1].strip() if " as " in path else path.split("::")[-1].strip()
            if name == "self":
                name = path.split("::")[-2]
            if name == "*" or is_used(name):
                kept.append(path if not path.endswith("::self") else path[: -len("::self")])
        return "".join(f"use {path};\n" for path in kept)

    return uses.sub(again, s)


def put(path, text, kept):
    kept.add(path)
    data = text if isinstance(text, bytes) else text.encode()
    if os.path.exists(path) and open(path, "rb").read() == data:
        return
    os.makedirs(os.path.dirname(path), exist_ok=True)
    open(path, "wb").write(data)


PROOF = ("Answers.antt", "Invariants.antt", "Proof.antt")


def lemma_files(repo, crates, real):
    """The lemma files of crates that aren't real to which the real ones lead, as paths (CRATE, A.antt)."""
    found, todo = set(), []
    cites = re.compile(r"Rattle\.([a-z_0-9]+)\.proofs\.([A-Za-z_0-9.+]+)")

    def read(path, own):
        for m in cites.finditer(open(path).read()):
            name, words = m.group(1), m.group(2).strip(".").split(".")
            if name not in crates or name in real:
                continue
            for n in range(len(words), 0, -1):
                rel = os.path.join(*words[:n]) + ".antt"
                full = os.path.join(repo, "crates", name, "proofs", rel)
                if os.path.exists(full):
                    if (name, rel) not in found:
                        found.add((name, rel))
                        todo.append((full, name))
                    break

    for name in real:
        for folder, _, files in os.walk(os.path.join(repo, "crates", name)):
            if "/out" in folder:
                continue
            for f in files:
                if f.endswith((".antt", ".rt")):
                    read(os.path.join(folder, f), name)
    for name in crates:
        for folder, _, files in os.walk(os.path.join(repo, "crates", name, "specs")):
            for f in files:
                read(os.path.join(folder, f), name)
        for folder, _, files in os.walk(os.path.join(repo, "crates", name, "src")):
            for f in files:
                read(os.path.join(folder, f), name)
    while todo:
        path, name = todo.pop()
        read(path, name)
    return found


def stub_crate(repo, out, name, kept, lemmas):
    source = os.path.join(repo, "crates", name)
    target = os.path.join(out, "crates", name)
    for part in ("src", "specs"):
        for folder, dirs, files in os.walk(os.path.join(source, part)):
            for f in files:
                path = os.path.join(folder, f)
                to = os.path.join(target, os.path.relpath(path, source))
                if part == "src" and f.endswith(".rt"):
                    text = stub_file(open(path).read())
                    if os.path.relpath(path, os.path.join(source, "src")) == "lib.rt":
                        text = with_stub_mod(text)
                    text = trim_uses(text)
                    put(to, text, kept)
                elif f.endswith(".antt"):
                    put(to, open(path, "rb").read(), kept)
    own = {rel for n, rel in lemmas if n == name}
    nodes = {}
    for rel in own:
        put(os.path.join(target, "proofs", rel), open(os.path.join(source, "proofs", rel), "rb").read(), kept)
    for folder, _, files in os.walk(os.path.join(source, "proofs")):
        for f in files:
            path = os.path.join(folder, f)
            rel = os.path.relpath(path, os.path.join(source, "proofs"))
            if f in PROOF or rel in own or not own:
                continue
            text = open(path).read()
            if re.search(r"^(pub )?mod ", text, re.M):
                base = "" if rel == "Lib.antt" else rel[: -len(".antt")] + "/"
                lines = []
                for line in text.split("\n"):
                    m = re.match(r"(pub )?mod ([A-Za-z_0-9]+)", line)
                    if not m or base + m.group(2) + ".antt" in own:
                        lines.append(line)
                put(os.path.join(target, "proofs", rel), "\n".join(lines), kept)
    put(os.path.join(target, "src", "stub_assumed.rt"), ASSUMED.replace("NAME", name), kept)
    os.makedirs(os.path.join(target, "c"), exist_ok=True)


def names_in(folder, names):
    found = set()
    for f, _, files in os.walk(folder):
        if "/out" in f:
            continue
        for n in files:
            if n.endswith((".rt", ".antt")):
                text = open(os.path.join(f, n)).read()
                for m in re.finditer(r"Rattle\.([a-z_0-9]+)\.|\b([a-z_0-9]+)::", text):
                    found.add(m.group(1) or m.group(2))
    return [n for n in names if n in found]


ASSUMED = """//! What stands for each body.
unsafe extern "C" {
    safe fn NAME_stub_never() -> u32
        ensures { ⊥ };
}

/// Never returns.
pub(crate) fn never()
    ensures { ⊥ }
{
    NAME_stub_never();
}
"""


def with_stub_mod(text):
    """The root with `mod stub_assumed;` behind its head."""
    lines = text.split("\n")
    at = 0
    while at < len(lines) and (lines[at].startswith("//!") or lines[at].startswith("#!") or not lines[at].strip()):
        at += 1
    return "\n".join(lines[:at] + ["mod stub_assumed;"] + lines[at:])


CHECK = r"""#!/usr/bin/env python3
import os, subprocess, sys

OUT, KIT = %(out)r, %(kit)r
CRATES = %(crates)r
PLACES = %(places)r


def below(names):
    seen, order = set(), []

    def go(n):
        if n in seen:
            return
        seen.add(n)
        for d in CRATES.get(n, []):
            go(d)
        order.append(n)

    for n in names:
        go(n)
    return order


folder = os.path.abspath(sys.argv[1])
name = os.path.basename(folder)
libs = below(CRATES[name])
own = [n for n in libs if n in CRATES]
kit = [n for n in libs if n not in CRATES]
root = os.path.join(folder, "src", "lib.rt")
if not os.path.exists(root):
    root = os.path.join(folder, "src", "main.rt")
words = ["nice", "-n", "19", KIT + "/bin/rattle", "check", "--crate-name", name, root]
for n in ["std"] + kit:
    words += ["--extern", f"{n}={KIT}/rlibs/{n}.rlib"]
words += ["-L", f"dependency={KIT}/rlibs"]
words += ["--antt-project", KIT + "/rattle/logic/antt-project.json", "--logic-built", KIT + "/logic_built"]
for n in own:
    uses = ",".join(["std"] + CRATES[n])
    words += ["--lib", f"{n}:{uses}={PLACES[n]}/src/lib.rt"]
inc = os.path.join(OUT, "inc", name)
os.makedirs(inc, exist_ok=True)
words += ["--incremental", inc, "--jobs", "1"] + sys.argv[2:]
if os.environ.get("STUB_ONLY"):
    print(" ".join(words))
else:
    sys.exit(subprocess.call(words, env=dict(os.environ, RT_ALLOW_C="1")))
"""


def main():
    repo, out = os.path.abspath(sys.argv[1]), os.path.abspath(sys.argv[2])
    real = sys.argv[3:]
    crates = read_crates(repo)
    kept = set()
    lemmas = lemma_files(repo, crates, real)
    places = {}
    for name in crates:
        if name in real:
            places[name] = os.path.join(repo, "crates", name)
        elif os.path.exists(os.path.join(repo, "crates", name, "src", "lib.rt")):
            stub_crate(repo, out, name, kept, lemmas)
            places[name] = os.path.join(out, "crates", name)
    for folder, _, files in os.walk(os.path.join(out, "crates")):
        for f in files:
            path = os.path.join(folder, f)
            if path not in kept:
                os.remove(path)
    slim = {n: crates[n] if n in real else names_in(places[n], crates[n]) for n in places}
    put(os.path.join(out, "check.sh"), CHECK % dict(out=out, kit=KIT, crates=slim, places=places), set())
    os.chmod(os.path.join(out, "check.sh"), 0o755)


main()
