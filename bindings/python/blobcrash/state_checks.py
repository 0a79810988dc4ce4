"""Checks of what crashes left, each state once, some at the same time."""

from __future__ import annotations

import os
import pickle
import shutil
import subprocess
from typing import Dict, List, Tuple

from .crash_places import Place, State
from .states import CrashState
from .states_command import written

# What a check may tell apart: the content, and what is acknowledged.
Known = Tuple[bytes, Tuple[str, ...]]


class Checks:
    """Runs the command of a check in a folder for each state that it doesn't know. What the command prints isn't shown."""

    def __init__(self, command: List[str], folder: str, jobs: int) -> None:
        self._command, self._folder, self.jobs = command, folder, jobs
        self._fails: Dict[Known, bool] = {}
        self._under_way: Dict[Known, Tuple["subprocess.Popen[bytes]", str]] = {}
        self.count = 0

    def begin(self, place: Place, state: State) -> Known:
        """Begins the check of a state, once fewer than the jobs are under way, unless it is known."""
        known = (state.digest, place.run.acknowledged(place.line))
        if known not in self._fails and known not in self._under_way:
            while len(self._under_way) >= self.jobs:
                self.fails(next(iter(self._under_way)))
            self.count += 1
            folder = os.path.join(self._folder, str(self.count))
            environment = written(crash_state(place, state), folder)
            silent = subprocess.DEVNULL
            check = subprocess.Popen(self._command, env=environment, stdin=silent, stdout=silent, stderr=silent)
            self._under_way[known] = check, folder
        return known

    def fails(self, known: Known) -> bool:
        """Whether a check that was begun fails."""
        if known in self._under_way:
            check, folder = self._under_way.pop(known)
            self._fails[known] = check.wait() != 0
            shutil.rmtree(folder, ignore_errors=True)
        return self._fails[known]

    def end(self) -> None:
        """Ends the checks that are under way."""
        for check, folder in self._under_way.values():
            check.kill()
            check.wait()
            shutil.rmtree(folder, ignore_errors=True)
        self._under_way.clear()


def crash_state(place: Place, state: State) -> CrashState:
    """A state as a check gets it."""
    acknowledged = place.run.acknowledged(place.line)
    return CrashState(place.line, place.script(state), acknowledged, pickle.loads(state.pickled), place.run.is_files)
