"""Batches of cases on one kind of file system, in a process with a mount namespace of its own."""

import os
import tempfile
from typing import NamedTuple

from crashes import Crashes
from disks import KINDS, Refused, go_apart, make_image, remove_apart
from model import Model
from runs import Live, in_turn


class Programs(NamedTuple):
    """The paths of the programs that a worker starts: the mount's daemon, and that of trees.c."""

    mount: str
    trees: str


class Outside(NamedTuple):
    """A state of a case that isn't in the set of its program. `alone` is the case with the syncs of the others in its group."""

    case: object
    alone: object
    done: int
    inside: bool
    state: str
    how: str


class Checked(NamedTuple):
    """What a batch came to: how many cases there were, how many crashes, what was outside, and all that was found, by cases."""

    cases: int
    crashes: int
    outside: list
    seen: dict


class Worker:
    """A process's images, and the sets of its profile."""

    def __init__(self, name, profile, programs, makes_image=True):
        self.kind, self.programs = KINDS[name], programs
        self.folder = tempfile.mkdtemp(prefix="calibrate-")
        self.model = Model(programs.trees, profile or self.kind.profile)
        try:
            if makes_image:
                go_apart(self.folder)
                os.mkdir(os.path.join(self.folder, "after"))
                self.image = make_image(self.kind, self.folder, os.path.join(self.folder, "after"))
        except (OSError, Refused) as error:
            self.close()
            raise Refused(str(error)) from None

    def check(self, groups, crashes, keep_seen=False, compares=True):
        """Runs groups of cases, each given by their numbers, crashes them, and compares what is left. `seen` has all of it if asked."""
        live = Live(self.kind, self.programs.mount, self.image, self.folder)
        try:
            for group in groups:
                live.run(group, seed_of(group))
        finally:
            live.close()
        reader = Crashes(self.kind, live.record, self.image, self.folder, crashes)
        count, outside, seen = 0, [], {}
        try:
            for group, (_, events) in zip(groups, reader.groups()):
                found = reader.crash(group, events, seed_of(group))
                if keep_seen:
                    seen.update((number, [each for each in found if each.number == number]) for number in group)
                for number in group:
                    if compares:
                        outside += self.compare(group, number, [each for each in found if each.number == number])
                    count += 1
        finally:
            reader.close()
        return Checked(count, reader.recovered, outside, seen)

    def compare(self, group, number, found):
        """Returns what was found of a case and isn't in the set."""
        alone, case = alone_of(group, number), group[number]
        distinct = {(each.done, each.inside, each.state): each for each in found}
        outside = []
        for place, each in sorted(distinct.items()):
            if not self.model.is_in(alone, *place):
                outside.append(Outside(case, alone, *each[1:]))
        return outside

    def close(self):
        self.model.close()
        remove_apart(self.folder)


def seed_of(group):
    return min(group)


def alone_of(group, number):
    """A case with `~sync` in place of each sync of the others in its group, and their commits."""
    steps = []
    for other, text in in_turn(group, seed_of(group)):
        if other == number:
            steps.append(text)
        elif text.split()[0] in ("fsync", "fdatasync", "map", "~sync"):
            steps.append("~sync")
        elif text in ("sync", "~commit"):
            steps.append("~commit")
    steps = [text for at, text in enumerate(steps) if text not in ("~commit", "~sync") or steps[at - 1 : at] != [text]]
    return group[number]._replace(steps=tuple(steps))
