#!/usr/bin/env python3
"""Keeps the documents, README.md and docs/*.md, and says on which modules of definitions a module or a contract stands.

    tools/documents.py fold          folds their paragraphs at 120 columns; tables, headings and code stay as they are
    tools/documents.py names         prints each word in backquotes that looks like a name of the tree, and is none
    tools/documents.py below MODULE..
                                     prints the modules of specs/ on which these stand, as annex_cli/specs/Top, each
                                     with its lines but for imports and blank ones, and their sum
    tools/documents.py private       prints the modules of specs/ whose first line says that they are for private
                                     contracts, for proofs or for tests though a public contract stands on them, or
                                     doesn't though none does

Unproved, and no part of the program.
"""
import functools
import os
import pathlib
import re
import sys

TOP = pathlib.Path(__file__).resolve().parent.parent
WIDTH = 120
ITEM = re.compile(r"( *)([-*]|\d+\.) +")
# what stands together: a code span, also with what touches it; or a word
WORD = re.compile(r"(?:`[^`]*`|[^\s`]+|`)+")
# a word that would make something else of a line that it stands first in
MARK = re.compile(r"[-+*]+$|\d+[.)]$|[#>|]")
# what an import takes of a module of definitions: a part of it, and names there; or a name for the module itself
IMPORT = re.compile(r"use Rattle\.(\w+)\.specs\.([A-Z]\w*)\.?([\w.]*?)(?:\.?\{([^}]*)\}| as (\w+))?(?:;|$)", re.M)
# a module of definitions that a crate passes on
PASSED = re.compile(r"^pub use Rattle\.(\w+)\.specs\.(\w+)$", re.M)
# where a definition begins, and its name
DEFINED = re.compile(r"^(?:(?:abbrev|unfoldable|pub|record|data) )+(\S+)", re.M)
# where an item of code begins: its indent, who sees it, its sort, and its name, of an impl that of its type
HEAD = re.compile(r"^( *)(pub |pub\(crate\) |)(?:const )?(fn|trait|impl|struct|enum)\b(?:<.*?>)? (?:.* for )?(\w+)", re.M)


def pages():
    return [TOP / "README.md", *sorted((TOP / "docs").glob("*.md"))]


def folded(words, first, later):
    """Lines of these words, the first and the later ones each behind this front."""
    lines = [first + words[0]]
    for word in words[1:]:
        if len(lines[-1]) + 1 + len(word) > WIDTH and not MARK.match(word):
            lines.append(later + word)
        else:
            lines[-1] += " " + word
    return lines


def fold(text):
    out, paragraph, fenced, within = [], [], False, ""

    def end():
        if paragraph:
            front = (ITEM.match(paragraph[0]) or re.match(" *", paragraph[0])).group(0)
            words = WORD.findall(" ".join([paragraph[0][len(front) :], *paragraph[1:]]))
            out.extend(folded(words, front, " " * len(front)))
            paragraph.clear()

    for line in text.split("\n"):
        item = ITEM.match(line)
        fence = line.lstrip().startswith("```")
        # four spaces more than the text around has make code of a line, but not within a paragraph
        code = not paragraph and not item and line.startswith(within + "    ")
        if fenced or fence or code or re.match(r" *(\||#|$)", line):
            end()
            out.append(line)
            fenced = fenced != fence
            within = "" if line.startswith("#") else within
            continue
        if item:
            end()
            within = " " * len(item.group(0))
        elif not paragraph and not line.startswith(within):
            within = ""
        paragraph.append(line)
    end()
    return "\n".join(out)


def tree_names():
    """The names of files and folders, and each word of the code and of the definitions."""
    names = set()
    for folder, _, files in os.walk(TOP):
        if "/.git" in folder or "/out" in folder:
            continue
        names |= {os.path.basename(folder), *files, *(name.split(".")[0] for name in files)}
        for name in files:
            if name.endswith((".rt", ".antt", ".txt", ".py")):
                names |= set(re.findall(r"[A-Za-z_]\w*", (pathlib.Path(folder) / name).read_text()))
    return names


def foreign_names(text, known):
    """The names in backquotes that the tree hasn't: words with `_` or `::`, and paths of files."""
    for span in re.findall(r"`([^`\n]+)`", re.sub(r"(?ms)^```.*?^```$", "", text)):
        if re.fullmatch(r"[A-Za-z]\w*(::\w+)+|[a-z]\w*_\w+|[\w/]+\.(antt|rt|py|md|annex)", span):
            words = re.split(r"::|/|\.(?:antt|rt|py|md|annex)$", span)
            yield from (span for word in words if word and word not in known and not word.isupper())


@functools.cache
def home_of(crate, module):
    """The crate where a module of definitions stands that is named as this crate's, which may pass it on."""
    library = TOP / "crates" / crate / "specs" / "Lib.antt"
    for lower, passed in PASSED.findall(library.read_text()) if library.exists() else ():
        if passed == module:
            return home_of(lower, module)
    return crate


def below(modules):
    """Each of these modules and those below them, with its lines."""
    found, left = {}, list(modules)
    while left:
        name = left.pop()
        crate, _, path = name.partition("/specs/")
        crate = home_of(crate, path.partition("/")[0])
        name = "%s/specs/%s" % (crate, path)
        file = TOP / "crates" / crate / "specs" / (path + ".antt")
        if name in found or not file.exists():
            continue
        lines = [line for line in file.read_text().split("\n") if line.strip()]
        found[name] = sum(not line.startswith("use ") for line in lines)
        for line in lines:
            used = re.match(r"use Rattle\.(\w+)\.specs\.([\w.]+?)(?:\.\{| as |$)", line)
            if used:
                left.append("%s/specs/%s" % (used.group(1), used.group(2).replace(".", "/")))
    return found


def uses(text):
    """The definitions that each name of this file stands for; of a module's name it is the module with no name."""
    names = {}
    for crate, module, part, taken, alias in IMPORT.findall(text):
        home = "%s/specs/%s" % (home_of(crate, module), module)
        for word in taken.split(",") if taken else [alias or module]:
            # a variant belongs to its type
            name = part.split(".")[0] or (word.split()[0] if taken else "")
            names.setdefault(word.split()[-1].strip("◌"), set()).add((home, name))
    return names


def cited(text, names):
    """The definitions that this text cites, where its file has these names."""
    for word in set(re.split(r"[\s(){}\[\],;]+", text)):
        first, _, rest = word.strip("◌").partition(".")
        yield from ((home, name or rest.split(".")[0]) for home, name in names.get(first, ()))


def public_contracts(text, exported):
    """The contracts of this file's public items, and what its public types and traits say of what contracts see of them."""
    text = re.sub(r" *//.*|ghost use [^;]*;", "", text)
    heads, public, open_items = list(HEAD.finditer(text)), False, False
    for head, end in zip(heads, [*(head.start() for head in heads[1:]), len(text)]):
        indent, seen, sort, name = head.groups()
        item = text[head.start() : end]
        if sort == "fn":
            contract = re.search(r"\b(requires|ensures)\b.*", re.split(r"(?m)^ *\{\}?$", item)[0], re.S)
            exports = public if indent else name in exported
            if contract and exports and (seen == "pub " or indent and open_items):
                yield contract.group(0)
        elif not indent:
            public, open_items = name in exported, sort == "trait" or " for " in head.group(0)
            if public and open_items:
                # how a type fills what contracts see of it is its own
                yield item if sort == "trait" else " ".join(re.findall(r"ghost Value = .*", item))


def public_modules():
    """The modules of specs/ on whose definitions the contracts of public items stand."""
    cites, left = {}, []
    for file in TOP.glob("crates/*/specs/*.antt"):
        text, home = file.read_text(), str(file.relative_to(TOP / "crates"))[: -len(".antt")]
        # what stands before the first definition, then a name and the text of its definition, again and again
        _, *parts = DEFINED.split(text)
        names = uses(text)
        for name in parts[::2]:
            names.setdefault(name.strip("◌"), set()).add((home, name.strip("◌")))
        for name, body in zip(parts[::2], parts[1::2]):
            cites[home, name.strip("◌")] = set(cited(body, names))
    for file in TOP.glob("crates/*/src/**/*.rt"):
        crate = file.relative_to(TOP / "crates").parts[0]
        library = TOP / "crates" / crate / "src" / "lib.rt"
        if library.exists() and not crate.endswith("_tests"):
            exported = set(re.findall(r"\w+", " ".join(re.findall(r"(?m)^pub [^;(]*", library.read_text()))))
            text = file.read_text()
            left += cited(" ".join(public_contracts(text, exported)), uses(text))
    found = set()
    while left:
        definition = left.pop()
        if definition not in found:
            found.add(definition)
            left += cites.get(definition, ())
    return {home for home, _ in found}


def main(words):
    if words == ["fold"]:
        for page in pages():
            page.write_text(fold(page.read_text()))
    elif words == ["names"]:
        known = tree_names()
        for page in pages():
            for span in foreign_names(page.read_text(), known):
                print("%s: %s" % (page.relative_to(TOP), span))
    elif words[1:] and words[0] == "below":
        found = below(words[1:])
        for name in sorted(found):
            print("%6d %s" % (found[name], name))
        print("%6d in %d modules" % (sum(found.values()), len(found)))
    elif words == ["private"]:
        public = public_modules()
        for file in sorted(TOP.glob("crates/*/specs/*.antt")):
            home = str(file.relative_to(TOP / "crates"))[: -len(".antt")]
            marked = re.search("for (private contracts|proofs|tests)", file.read_text().split("\n")[0], re.I)
            if file.stem != "Lib" and bool(marked) == (home in public):
                print("%s: %s" % (home, "marked, and public" if marked else "not marked, and not public"))
    else:
        print(__doc__)
        return 1
    return 0


if __name__ == "__main__":
    sys.exit(main(sys.argv[1:]))
