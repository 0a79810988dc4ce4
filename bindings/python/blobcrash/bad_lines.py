"""The errors of lines that are none of a script."""

from __future__ import annotations

from .checking import check as faults_of
from .errors import BadLine


def bad_line(line: bytes) -> BadLine:
    """The error of a line that is none of a script, with the reason."""
    faults = faults_of(line)
    why = faults[0].why if faults else None
    return BadLine("bad call: " + line.decode(errors="backslashreplace") + (f": {why}" if why else ""), why=why)


def bad_at(script: bytes, line: int, what: str) -> BadLine:
    """The error of a line of a text, with the reason for it if that is known."""
    why = next((fault.why for fault in faults_of(script) if fault.line == line), None)
    return BadLine(f"{what}: {why}" if why else what, line, why)
