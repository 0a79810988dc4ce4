"""The rows of tests/hostile.tsv in Python: `hostile.py library` or `hostile.py pipe`. The last line is `N rows hold, M don't`."""

import os
import subprocess
import sys
from urllib.parse import unquote, unquote_to_bytes

TOP = os.path.dirname(os.path.dirname(os.path.abspath(__file__)))
sys.path.insert(0, os.path.join(TOP, "bindings", "python"))

from blobcrash import Library, Program, StorageError, Store, program, run

MAX = 2**64 - 1
WORDS = [0, MAX, MAX, 0, MAX, 0, 0, MAX, 0, MAX, MAX]
HEADER = b"CWIC\0\0\0\0"
BLOBS = {("p", b"a"): b"abcdef", ("p", b"b"): b"second", ("62", b"c"): b"third"}
RATES = ["open 1 2", "read 1 2", "sync 1 2", "remove 1 2", "scan 1 2", "write 1 2 0 1 subset", "resize 1 2 0 1"]
SURROGATE = "\udc80"


def number(text):
    return eval(text, {"MAX": MAX})  # of a row's own text: a number, or `MAX` with a number


def argument(word):
    kind, _, value = word.partition(":")
    if kind == "bytes":
        return unquote_to_bytes(value)
    text = unquote(value)
    kinds = {"text": lambda: text, "int": lambda: number(text), "bool": lambda: text == "1", "float": lambda: float(text)}
    kinds.update({"none": lambda: None, "list": lambda: [int(text)], "surrogate": lambda: "p" + SURROGATE})
    return kinds[kind]()


def make(by, first, call="", arguments=()):
    images = [(partition, name, HEADER + data) for (partition, name), data in BLOBS.items()]
    words, seed = [first, *WORDS], None
    if call == "image":
        images.append(arguments)
    if call == "seed":
        seed = arguments[0]
    if call == "words":
        words += arguments
    return Store(seed, words=words, images=images, by=by)


def perform(store, blob, call, arguments):
    if call in ("open", "loose"):
        partition, name, *versions = arguments
        method = store.open if call == "open" else store.open_loose
        return method(partition, name, tuple(versions)) if versions else method(partition, name)
    if call == "writes":
        return blob.write(*arguments, sync=True)
    if call in ("read", "write", "resize"):
        return getattr(blob, call)(*arguments)
    if call in ("image", "seed", "words"):
        return None
    return getattr(store, call)(*arguments)


def outcome_of(ask, *arguments):
    """The outcome of a call, as the table has it."""
    try:
        ask(*arguments)
    except StorageError as error:
        return ":".join([type(error).__name__, *error.fields])
    except (TypeError, ValueError):
        return "refused"
    return "ok"


def blobs_of(store):
    """The durable blobs."""
    found = {}
    store.configure("clear")
    for partition in ("p", "62", "q", "-", "clear", "n" * 300):
        if outcome_of(store.scan, partition) == "ok":
            for name in store.scan(partition):
                blob, size = store.open_loose(partition, name, (0, 65535))
                found[partition, name] = blob.read(0, size)
    return found


def changed(leaves):
    """The durable blobs after a row's call."""
    blobs = dict(BLOBS)
    for part in [] if leaves == "-" else [leaves]:
        path, _, data = part.partition("=")
        partition, _, name = path.partition("/")
        blobs[partition, unquote_to_bytes(name)] = unquote_to_bytes(data)
    return blobs


def wrong(by, first, call, words, draws, outcome, leaves):
    """What doesn't hold of a row if this is the first word; none if it holds."""
    arguments = [argument(word) for word in words]
    begins = call in ("image", "seed", "words")
    expected = [unquote(field) if field != "surrogate" else "p" + SURROGATE for field in outcome.split(":")]
    expected = ":".join(expected)
    if begins and outcome == "refused":
        found = outcome_of(make, by, first, call, arguments)
        return None if found == expected else f"{found} in place of {expected}"
    with make(by, first, call, arguments) as store:
        blob, _ = store.open("p", b"a")
        for rate in RATES:
            store.configure(rate)
        lines = len(store.script)
        found = outcome_of(perform, store, blob, call, arguments)
        if draws and first == 0:
            expected, leaves = "Injected", "-"
        if found != expected:
            return f"{found} in place of {expected}"
        if found == "refused" and len(store.script) != lines:
            return f"the script has {store.script[lines:]}"
        store.call("config scan 1 2")
        probes = [outcome_of(store.scan, "p") for _ in range(6)]
        awaited = ["Injected" if word == 0 else "ok" for word in [first, *WORDS][draws : draws + 6]]
        if probes != awaited:
            return f"after it {probes} in place of {awaited}"
        left = blobs_of(store)
        if left != changed(leaves):
            return f"it leaves {left}"
        script = store.script if first else []
    words = [[word for word in line.split(" ") if word][:1] for line in script]
    calls = [word for word in words if word and word[0][:1] != "#" and word[0] not in ("image", "words", "seed")]
    replies = ran("".join(line + "\n" for line in script).encode(), by).count(b"\n")
    return None if replies == len(calls) else f"the script has {replies} replies to {len(calls)} calls"


def ran(script, by):
    """What a whole script prints."""
    if by is Library:
        return run(script)
    return subprocess.run([program()], input=script, stdout=subprocess.PIPE, check=True).stdout


def main(by):
    held = broken = other = 0
    with open(os.path.join(TOP, "tests", "hostile.tsv"), encoding="utf-8") as file:
        rows = [(at, line.rstrip("\n").split("\t")) for at, line in enumerate(file, 1) if not line.startswith("#")]
    for at, (clients, call, arguments, draws, outcome, leaves) in rows:
        words = [] if arguments == "-" else arguments.split(" ")
        if "P" not in clients:
            other += 1
            continue
        reason = None
        for first, count in zip((MAX, 0), (draws.split("/") * 2)[:2]):
            reason = reason or wrong(by, first, call, words, int(count), outcome, leaves)
        held += reason is None
        broken += reason is not None
        if reason:
            print(f"hostile.tsv:{at}: {call} {arguments}: {reason}")
    print(f"{held} rows hold, {broken} don't; Python can't express {other}")
    return int(broken > 0)


if __name__ == "__main__":
    sys.exit(main(Program if sys.argv[1:] == ["pipe"] else Library))
