"""The functions in which a program made the calls of its record, from what `strace` printed of the same run."""

from __future__ import annotations

import shutil
import subprocess
from typing import Dict, List, Tuple

from .called import Called
from .recorded_run import RecordedRun
from .traced_calls import Frame, Matching

# How many functions of a stack are named.
_MOST = 4
COMMAND = "strace -f -k -y -z -e trace=%file,write,pwrite64,writev,ftruncate,fallocate,fsync,fdatasync -o FILE PROGRAM"


class Stacks:
    """The stacks of the calls of a record. `missing` says what is missing to have more, if something is."""

    def __init__(self, run: RecordedRun, called: Called, traced: str) -> None:
        matching = Matching(traced)
        self._frames: Dict[int, List[Frame]] = {}
        self._places: Dict[Tuple[str, int], str] = {}
        self.missing = "" if matching.has_stacks else f"it has no stacks of calls: {COMMAND} writes them (Debian: strace)"
        self._addr2line = shutil.which("addr2line")
        if not self.missing and self._addr2line is None:
            self.missing = "files and lines need addr2line (Debian: binutils)"
        for line in range(1, len(run.lines) + 1):
            thread = run.thread(line)
            if thread is not None and run.is_files and not run.lines[line - 1].startswith("#"):
                word, names, length = called.named(line)
                self._frames[line] = matching.stack(thread, word, names, length)

    def of(self, line: int) -> List[str]:
        """The functions in which a call was made, the innermost first, with file and line if the program has these symbols."""
        return [self._named(frame) for frame in self._frames.get(line, [])[:_MOST]]

    def _named(self, frame: Frame) -> str:
        function = frame.function or f"{frame.module.rsplit('/', 1)[-1]}+{frame.address:#x}"
        place = self._place(frame)
        return f"{function} ({place})" if place else function

    def _place(self, frame: Frame) -> str:
        """The file and the line of a call: those of the byte before the address to which it returns."""
        known = frame.module, frame.address
        if known not in self._places:
            self._places[known] = ""
            if self._addr2line is not None:
                command = [self._addr2line, "-s", "-e", frame.module, hex(frame.address - 1)]
                no = subprocess.DEVNULL
                ran = subprocess.run(command, stdin=no, stdout=subprocess.PIPE, stderr=no, text=True, check=False)
                found = ran.stdout.split(" ")[0].strip()
                self._places[known] = "" if found.startswith("??") or found.endswith((":0", ":?")) else found
        return self._places[known]
