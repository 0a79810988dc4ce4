"""The errors of files: those of `os`, which also name the refusal."""

from __future__ import annotations

from typing import Any, Optional

from .errors import Injected
from .foreign_files import Refusal


def error_of(refused: Refusal, path: Any = None, to: Optional[Any] = None) -> OSError:
    """The error of a refused call: an `OSError` of the class that Python has for its errno. `refusal` is the refusal's name."""
    if refused.name == "Injected":
        error: OSError = Injected("error Injected")
    else:
        error = OSError(refused.number, f"{refused.name}: {refused.text}", *(() if path is None else (path, None, to)))
    setattr(error, "refusal", refused.name)
    return error
