"""What each call of a script did, read from its reply and its remarks: nothing is drawn here.

`Model(script).rows` has for each call the changes that `State` applies, and marks that are shown at this call alone.
"""

import re

from .script import unhex
from .state import CUT, GAP, LIVE, PENDING, State, without

END = 1 << 64
# The most bytes of a blob that are shown.
LONGEST = 1 << 24


class Lane:
    """A blob's name. `file` is its current incarnation; None while there is none."""

    def __init__(self, index, partition, name):
        self.index, self.partition, self.name = index, partition, name
        self.file = None
        # An image that no open has accepted yet.
        self.image = None
        # Whether durable bytes wait for an open since the store was rebuilt.
        self.is_closed = False
        # The ranges that were shown as not durable.
        self.shown = []


class File:
    """An incarnation. `log` has what was recorded of it, in the order of issue; `version` counts changes of its durable bytes."""

    def __init__(self, lane):
        self.lane, self.log, self.version = lane, [], 0


class Handle:
    """An open handle. Except in the ranges of `dirty`, its live bytes are the durable ones of a version of its file."""

    def __init__(self, file):
        self.file, self.version, self.dirty, self.is_stale = file, file.version, [], False


class Write:
    """A recorded write. Without a number it is durable already."""

    def __init__(self, call, at, start, length, number):
        self.call, self.at, self.start, self.end, self.number = call, at, start, at + length, number


class Resize:
    """A resize that a crash applies."""

    def __init__(self, length):
        self.length = length


class Row:
    """What a call did. `pending` has the number, the mode and the rate of a write that is pending from this call on."""

    def __init__(self):
        self.changes, self.marks, self.pending = [], [], None


class Model:
    def __init__(self, script):
        self.script = script
        self.state = State()
        self.lanes, self.rows, self.problems = [], [], []
        self.data = {}
        self._by_name, self._handles, self._files = {}, {}, []
        self._retention = None
        self._next_write = 0
        for partition, name, raw in script.images():
            self._lane(partition, name).image = raw
        for call, step in enumerate(script.steps):
            self._step(call, step)

    def _step(self, call, step):
        self._call, self._row, self._answer = call, Row(), step.answer
        self.rows.append(self._row)
        make = getattr(self, "_on_" + step.words[0], None)
        if step.reply is not None and make is not None:
            make(step, *step.words[1:])

    def _change(self, *change):
        if any(isinstance(it, int) and it > LONGEST for it in change):
            line = self.script.steps[self._call].line
            raise ValueError(f"line {line} makes a blob longer than {LONGEST} bytes, which no page shows")
        self._row.changes.append(list(change))
        self.state.apply(change, self._call, self.data, self._answer)

    def _mark(self, kind, lane, *more):
        self._row.marks.append([kind, lane.index, *more])

    def _lane(self, partition, name):
        key = (partition, bytes(name))
        if key not in self._by_name:
            self._by_name[key] = Lane(len(self.lanes), *key)
            self.lanes.append(self._by_name[key])
            self.state._begin(len(self.lanes) - 1, "")
            self.state._end(len(self.lanes) - 1)
        return self._by_name[key]

    # Settings.

    def _on_config(self, step, what, *words):
        if what == "clear":
            self._retention = None
        elif what == "write":
            rate, mode = words[2:4], words[4:]
            self._retention = None if int(rate[0]) == 0 else (" ".join(mode), "/".join(rate))

    # Opens and names.

    def _on_open(self, step, partition, name, *versions, admits=True):
        if self._answer[0] != "opened":
            return
        lane = self._lane(partition, unhex(name))
        number, size = int(self._answer[1]), int(self._answer[2])
        if lane.file is None:
            self._begin(lane, size)
        elif admits:
            self._retire(lane)
        self._handles[number] = Handle(lane.file)
        self._change("open", number, lane.index)
        self._mark("open", lane, number)
        if len(self.state.live[number]) != size:
            self._problem(f"the model has {len(self.state.live[number])} bytes, and {size} were opened")

    def _on_loose(self, step, *words):
        self._on_open(step, *words, admits=False)

    def _begin(self, lane, size):
        if not lane.is_closed:
            image = lane.image or b""
            self._change("begin", lane.index, image[len(image) - size :].hex() if size else "")
        lane.file, lane.image, lane.is_closed = File(lane), None, False
        self._files.append(lane.file)

    def _on_admit(self, step, partition, name):
        lane = self._lane(partition, unhex(name))
        if lane.file is not None:
            self._retire(lane)

    def _retire(self, lane):
        """What is pending of a lane is dropped: no crash brings it back."""
        lane.file.log = []
        self._mark_over(lane, "lost", PENDING)
        self._settle(lane)
        self._show_others(lane, None)

    def _on_close(self, step, handle):
        if self._answer == ["ok"] and int(handle) in self._handles:
            lane = self._handles.pop(int(handle)).file.lane
            self._change("close", int(handle))
            self._mark("close", lane, int(handle))

    def _on_remove(self, step, partition, name=None):
        if self._answer != ["ok"]:
            return
        for lane in self.lanes:
            if lane.partition == partition and name in (None, lane.name.hex() or "-"):
                self._mark("removed", lane)
                self._end(lane)
                self._change("end", lane.index)
                lane.image, lane.is_closed = None, False

    def _end(self, lane):
        """The incarnation of a lane ends, and its handles are stale."""
        for number, handle in self._handles.items():
            if handle.file is lane.file and not handle.is_stale:
                handle.is_stale = True
                self._change("stale", number)
        if lane.file is not None:
            lane.file.log = []
        lane.file = None

    # Calls of a handle.

    def _on_read(self, step, handle, offset, length):
        handle, offset = int(handle), int(offset)
        if self._answer[0] != "bytes" or handle not in self._handles:
            return
        read = unhex(self._answer[1])
        self._mark("read", self._handles[handle].file.lane, offset, offset + len(read))
        if bytes(self.state.live[handle][offset : offset + len(read)]) != read:
            self._problem("the model has other bytes than were read")

    def _on_write(self, step, number, offset, text, is_sync=False):
        number, at, data = int(number), int(offset), unhex(text)
        handle = self._handles.get(number)
        if handle is None:
            return
        self.data[self._call] = data
        if self._answer == ["ok"] and is_sync:
            if data:
                self._write_live(number, at, 0, len(data))
                self._write_durable(handle, at, 0, len(data))
                self._mark("synced", handle.file.lane, at, at + len(data))
        elif self._answer == ["ok"] or step.is_unsynced():
            self._write_plain(number, at, len(data))
        elif self._answer[0] == "error":
            self._write_failed(number, at, len(data), step.failed_write(), is_sync)

    def _on_writes(self, step, *words):
        self._on_write(step, *words, is_sync=True)

    def _write_plain(self, number, at, length):
        handle = self._handles[number]
        lane, old = handle.file.lane, len(self.state.live[number])
        retained = self._retention is not None and length > 0
        if retained:
            handle.file.log.append(Write(self._call, at, 0, length, self._next_write))
            self._row.pending = [self._next_write, *self._retention]
            self._next_write += 1
        if handle.is_stale:
            self._write_live(number, at, 0, length)
            self._mark("stale", lane, at, at + length)
            return
        if at > old:
            self._over(lane, old, at - old, GAP)
        handle.dirty.append((min(at, old), at + length))
        lane.shown.append((at, at + length))
        self._change("plain", number, lane.index, at, PENDING if retained else LIVE)
        self._mark("write", lane, at, at + length)

    def _write_live(self, number, at, start, length):
        handle = self._handles[number]
        handle.dirty.append((min(at, len(self.state.live[number])), at + length))
        self._change("live", number, at, self._call, start, length)

    def _write_durable(self, handle, at, start, length):
        file = handle.file
        self._change("durable", file.lane.index, at, self._call, start, length)
        self._change("settle", file.lane.index, [(at, at + length)])
        if file.log:
            file.log.append(Write(self._call, at, start, length, None))
        is_equal = handle.version == file.version
        file.version += 1
        if is_equal:
            handle.version = file.version

    def _write_failed(self, number, at, length, failed, is_sync):
        handle = self._handles[number]
        lane = handle.file.lane
        if failed is None:
            if self._answer[1] == "BlobMissing" and is_sync:
                self._write_live(number, at, 0, length)
                self._mark("stale", lane, at, at + length)
            return
        kept, live = failed
        if live is not None:
            self._write_live(number, live[0], live[0] - at, live[1] - live[0])
            self._mark("stale", lane, at, at + length)
            return
        for start, end in kept:
            self._write_live(number, start, start - at, end - start)
            self._write_durable(handle, start, start - at, end - start)
            self._mark("kept", lane, start, end)
        for start, end in without((at, at + length), kept):
            self._mark("lost", lane, start, end)

    def _on_resize(self, step, number, length):
        number, wanted = int(number), int(length)
        handle, pending = self._handles.get(number), step.pending_resize()
        if handle is None or (self._answer != ["ok"] and pending is None):
            return
        length = wanted if self._answer == ["ok"] else pending
        old, lane = len(self.state.live[number]), handle.file.lane
        handle.dirty.append((min(old, length), max(old, length)))
        self._change("resize", number, length)
        if pending is not None:
            handle.file.log.append(Resize(pending))
        if handle.is_stale:
            return
        if old < length:
            self._over(lane, old, length - old, GAP)
        end = max(old, len(self.state.lanes[lane.index].durable))
        if length < end:
            self._over(lane, length, end - length, CUT)
        self._mark("resize", lane, length)

    def _on_sync(self, step, number):
        if self._answer == ["ok"]:
            self._sync(int(number))

    def _on_startsync(self, step, number):
        handle = self._handles.get(int(number))
        if self._answer[0] == "started" and not step.is_failed_start() and not handle.is_stale:
            self._sync(int(number))

    def _sync(self, number):
        handle = self._handles[number]
        file, live = handle.file, self.state.live[number]
        lane = file.lane
        if handle.version == file.version:
            ranges = joined(handle.dirty, len(live))
        else:
            ranges = different(live, self.state.lanes[lane.index].durable)
        self._change("sync", lane.index, number, ranges, len(live))
        file.log, handle.dirty = [], []
        file.version += 1
        handle.version = file.version
        self._settle(lane)
        self._show_others(lane, number)
        self._mark("sync", lane, len(live))

    # The whole store.

    def _on_crash(self, step):
        if self._answer[0] != "crashed":
            return
        words = {int(row.split(":")[0]): i for i, row in enumerate(self._answer) if i > 0}
        for file in self._files:
            self._crash(file, words)
            file.log = []
        self._files = [lane.file for lane in self.lanes if lane.file is not None]
        for lane in self.lanes:
            if lane.file is not None:
                self._mark_over(lane, "lost", LIVE)
                self._settle(lane)
                self._mark("crash", lane)

    def _crash(self, file, words):
        lane, certain, resized = file.lane, [], False
        is_current = lane.file is file
        holes = {}
        for entry in reversed(file.log):
            if isinstance(entry, Write) and entry.number is None:
                certain = joined([*certain, (entry.at, entry.end)], END)
            elif isinstance(entry, Write):
                holes[entry.number] = [(s, e) for s, e in certain if s < entry.end and entry.at < e]
        for entry in file.log:
            if isinstance(entry, Resize):
                resized = True
                if is_current:
                    self._change("cut", lane.index, entry.length)
                    self._mark("resize", lane, entry.length)
            elif entry.number is None:
                if resized and is_current:
                    length = entry.end - entry.at
                    self._change("durable", lane.index, entry.at, entry.call, entry.start, length)
            else:
                self._keep(lane, entry, words.get(entry.number, -1), holes[entry.number], is_current)
        file.version += 1

    def _keep(self, lane, write, word, holes, is_current):
        if word >= 0 and is_current:
            self._change("kept", lane.index, write.at, write.call, write.start, word, holes)
        covered = [(max(s, write.at), min(e, write.end)) for s, e in holes]
        self._mark("drawn" if is_current else "ended", lane, write.call, word, covered)

    def _on_reopen(self, step):
        for lane in self.lanes:
            if lane.file is not None:
                self._mark_over(lane, "lost", PENDING, LIVE)
                self._end(lane)
                lane.is_closed = True
                self._settle(lane)
                self._mark("reopen", lane)
        for number, handle in self._handles.items():
            handle.is_stale = True
        self._next_write, self._files = 0, []

    # What isn't durable.

    def _over(self, lane, at, length, kind):
        if length > 0:
            lane.shown.append((at, at + length))
            self._change("over", lane.index, at, length, kind)

    def _settle(self, lane):
        if lane.shown:
            self._change("settle", lane.index, joined(lane.shown, END))
            lane.shown = []

    def _show_others(self, lane, but):
        """Shows what the other current handles of a lane have live, and not durable."""
        durable = self.state.lanes[lane.index].durable
        for number, handle in self._handles.items():
            if number != but and handle.file is lane.file and not handle.is_stale:
                ranges = different(self.state.live[number], durable)
                lane.shown += ranges
                if ranges:
                    self._change("show", lane.index, number, ranges)

    def _mark_over(self, lane, kind, *kinds):
        over = self.state.lanes[lane.index].over
        for found in re.finditer(b"[" + bytes(kinds) + b"]+", bytes(over)):
            self._mark(kind, lane, found.start(), found.end())

    def _problem(self, text):
        step = self.script.steps[self._call]
        self.problems.append(f"line {step.line}, {step.text[:60]}: {text}")


def joined(ranges, most):
    """The union of some ranges, as far as `most`, as sorted ranges that are apart."""
    union = []
    for start, end in sorted(ranges):
        end = min(end, most)
        if start >= end:
            continue
        if union and start <= union[-1][1]:
            union[-1] = (union[-1][0], max(union[-1][1], end))
        else:
            union.append((start, end))
    return union


def different(live, durable, block=4096):
    """The ranges in which live bytes differ from durable ones, and those past their end."""
    ranges = []
    for start in range(0, len(live), block):
        one, other = live[start : start + block], durable[start : start + block]
        if one != other:
            for i in range(len(one)):
                if i >= len(other) or one[i] != other[i]:
                    ranges.append((start + i, start + i + 1))
            ranges = joined(ranges, len(live)) if len(ranges) > block else ranges
    return joined(ranges, len(live))
