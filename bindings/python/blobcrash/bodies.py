"""What a body has to be: a function that has run when it returns."""

from __future__ import annotations

import functools
import inspect
from typing import Any, Callable, Tuple

_KINDS: Tuple[Tuple[Callable[[Any], bool], str], ...] = (
    (inspect.iscoroutinefunction, "an `async def`"),
    (inspect.isasyncgenfunction, "an asynchronous generator"),
    (inspect.isgeneratorfunction, "a generator: it has a `yield`"),
)
# Types of most results.
_PLAIN = frozenset((bool, bytes, int, str, tuple, type(None)))


def check_body(body: Callable[..., Any]) -> None:
    """Raises `TypeError` if a call of the body wouldn't run it, or if it can't be called."""
    if not callable(body):
        raise TypeError(f"the body is a function that takes a store, not {type(body).__name__}")
    function = _function_of(body)
    for is_kind, kind in _KINDS:
        if is_kind(function):
            raise TypeError(f"the body is {kind}, so a call of it runs nothing: {_CURE}")


def check_result(result: Any) -> None:
    """Raises `TypeError` if a body returned something that is yet to run."""
    if type(result) in _PLAIN:
        return
    is_generator = inspect.isgenerator(result)
    if not is_generator and not inspect.isasyncgen(result) and not inspect.isawaitable(result):
        return
    if is_generator or inspect.iscoroutine(result):
        result.close()
    raise TypeError(f"the body returned a {type(result).__name__}, which hasn't run: {_CURE}")


_CURE = "give a function that has made all of its calls when it returns, as `lambda store: asyncio.run(body(store))`"


def _function_of(body: Any) -> Any:
    """The function that a call runs in the end: of a partial, of a method, of an object with `__call__`."""
    # No chain of these is longer, but one may lead back to itself.
    for _ in range(100):
        if isinstance(body, functools.partial):
            body = body.func
        elif inspect.ismethod(body):
            body = body.__func__
        elif inspect.isfunction(body) or inspect.isclass(body) or not hasattr(type(body), "__call__"):
            break
        else:
            body = type(body).__call__
    return body
