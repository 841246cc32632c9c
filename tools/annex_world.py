"""What a git-annex repository tells of all repositories: who they are, who matters to a key, and how many copies it wants.

Nothing here is written, and git-annex isn't run. Unproved, and no part of the program.
"""
import re

from annex_repository import UUID, Branch, Failure
from annex_script import MOST_REPOSITORIES, Line

# repositories that git-annex has by itself
SPECIAL = {"00000000-0000-0000-0000-000000000001": "web", "00000000-0000-0000-0000-000000000002": "bittorrent"}


class World:
    """What the repository tells of all repositories: their names, levels, clones and claims."""

    def __init__(self, here, question):
        self.here, self.branch = here, Branch(here)
        others = [remote for remote in here.remotes() if remote.uuid and remote.uuid != here.uuid]
        self.remotes = [remote for remote in others if UUID.fullmatch(remote.uuid)]
        self.odd = [remote.name for remote in others if not UUID.fullmatch(remote.uuid)]
        self.by_uuid = {remote.uuid: remote for remote in reversed(self.remotes)}
        self.described = {uuid: text for uuid, text in self.branch.texts("uuid.log").items() if text}
        self.names = {**SPECIAL, **self.described}
        self.names.update((uuid, remote.name) for uuid, remote in self.by_uuid.items())
        self.names[here.uuid] = "here"
        self.levels, self.changed = self.branch.levels(), {}
        for remote in self.remotes:
            self.change(remote.uuid, remote.level)
        for level, names in (("semitrusted", question.semitrust), ("untrusted", question.untrust)):
            for name in names:
                self.change(self.uuid(name), level)
        self.distrust_exports()
        self.peer = self.peer_of(question.source or question.sink)

    def peer_of(self, name):
        """The one with which a job goes on, where the question names it: a clone that can be asked."""
        if name is None:
            return None
        peer = self.uuid(name)
        if not self.clone(peer):
            raise Failure("%s can't be asked: %s" % (name, self.why_unasked(peer)))
        return peer

    def change(self, uuid, level):
        """A level that a setting or an option gives, whatever the log says."""
        if level in ("trusted", "semitrusted", "untrusted", "dead"):
            self.levels[uuid] = self.changed[uuid] = level

    def distrust_exports(self):
        """A remote to which trees are exported counts as untrusted, whatever its level is, as git-annex has it."""
        for uuid, text in self.branch.texts("remote.log").items():
            if uuid in self.by_uuid and re.search(r"\b(exporttree|importtree)=yes\b", text) and self.level(uuid) != "dead":
                self.change(uuid, "untrusted")

    def level(self, uuid):
        return self.levels.get(uuid, "semitrusted")

    def name(self, uuid):
        return self.names.get(uuid, uuid)

    def uuid(self, name):
        found = [remote.uuid for remote in self.remotes if remote.name == name] or [u for u in self.names if name in (u, self.names[u])]
        if len(found) != 1:
            raise Failure("there is no one repository of the name %s" % name)
        return found[0]

    def clone(self, uuid):
        return self.by_uuid[uuid].clone if uuid in self.by_uuid else None

    def why_unasked(self, uuid):
        return self.by_uuid[uuid].why if uuid in self.by_uuid else "it is no remote"

    def rank(self, uuid):
        """The order in which repositories stand: git-annex counts trusted claims before it asks the cheapest."""
        places = [remote.uuid for remote in self.remotes]
        return (self.level(uuid) != "trusted", places.index(uuid) if uuid in places else len(places), uuid)


class Holders:
    """Which other repositories matter to a question of a key, and what isn't asked of whom."""

    def __init__(self, world, key, everyone, receivers=()):
        self.claimed = [uuid for uuid, status in world.branch.statuses(key).items() if status == "1" and uuid != world.here.uuid]
        self.having_here = [world.here.uuid] if world.here.has(key) else []
        having = {remote.uuid for remote in world.remotes if remote.clone and remote.clone.has(key)}
        counts = {uuid for uuid in self.claimed if world.level(uuid) == "trusted"}
        distrusted = {uuid for uuid in self.claimed if world.level(uuid) in ("untrusted", "dead")}
        asked = {uuid for uuid in [*self.claimed, *(having if everyone else ())] if world.clone(uuid)} - counts - distrusted
        self.having = having & {*asked, *counts, *distrusted, *receivers, *([world.peer] if world.peer else ())}
        self.unclaimed = sorted((u for u in having - self.having if world.level(u) in ("trusted", "semitrusted")), key=world.rank)
        self.unasked = sorted(set(self.claimed) - asked - counts - distrusted, key=world.rank)
        weights = {world.peer: 0} if world.peer else {}
        for weight, uuids in enumerate((counts, asked & having, asked - having, distrusted, receivers), 1):
            weights.update((uuid, weight) for uuid in uuids if uuid not in weights)
        order = sorted(weights, key=lambda uuid: (weights[uuid], world.rank(uuid)))
        self.repositories, self.cut = order[: MOST_REPOSITORIES - 1], order[MOST_REPOSITORIES - 1 :]
        self.unseen = sorted({uuid for uuid in self.claimed if not world.clone(uuid)} | set(self.cut), key=world.rank)


class Numbers:
    """The numbers of copies of each key: as the logs say them, or as attributes, settings and options do."""

    def __init__(self, world, question, paths_of):
        logs = {kind: world.branch.number(kind) for kind in ("numcopies", "mincopies")}
        self.current = {kind: logs[kind] if logs[kind] is not None else 1 for kind in logs}
        setting = world.here.setting("annex.numcopies") or ""
        self.base = dict(self.current)
        if logs["numcopies"] is None and setting.isdigit():
            self.base["numcopies"] = int(setting)
        self.forced = {kind: getattr(question, kind) for kind in logs}
        self.paths_of = paths_of
        self.attributes = world.here.attributes([path for paths in paths_of.values() for path in paths])

    def lines(self, key):
        """The lines that set the numbers of this key: the greatest that one of its files has."""
        for kind, base in self.base.items():
            found = [self.attributes.get(path, {}).get(kind, base) for path in self.paths_of[key]]
            wanted = self.forced[kind] if self.forced[kind] is not None else max(found, default=base)
            if wanted != self.current[kind]:
                self.current[kind] = wanted
                yield Line("%s here %d" % (kind, wanted), kind + " REPO N")

    def by_path(self, is_writable):
        """The lines that set them for many keys at once: those of all, and those of each path that has its own."""
        for kind, base in self.base.items():
            base = self.forced[kind] if self.forced[kind] is not None else base
            if base != self.current[kind]:
                yield Line("%s here %d" % (kind, base), kind + " REPO N")
            for path in sorted(self.attributes):
                number = self.attributes[path].get(kind, base)
                if self.forced[kind] is None and number != base and is_writable(path):
                    yield Line("%sfor here %d %s" % (kind, number, re.sub(r"[*?[]", r"[\g<0>]", path)), kind + "for REPO N REST")
