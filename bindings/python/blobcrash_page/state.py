"""The bytes of all blobs and handles, which change by change become those after each call.

`page.js` does the same in the page. A change is a list:

    begin LANE HEX                      the durable bytes of a new blob
    end LANE                            the blob is removed
    open HANDLE LANE                    live bytes, which are the durable ones
    stale HANDLE, close HANDLE
    live HANDLE AT CALL FROM LEN        data of that call, from FROM on, becomes live at the offset AT
    plain HANDLE LANE AT KIND           all data of this call becomes live, and isn't durable: see the kinds below
    durable LANE AT CALL FROM LEN       the data becomes durable
    kept LANE AT CALL FROM WORD HOLES   of that data the bytes become durable that the word of this call's reply chose, but for the holes
    resize HANDLE LEN, cut LANE LEN     the length of the live, of the durable bytes
    sync LANE HANDLE RANGES LEN         the live bytes in these ranges become durable, and the length is LEN
    over LANE AT LEN KIND               zeros that aren't durable, or bytes that were cut off
    show LANE HANDLE RANGES             live bytes that aren't durable
    settle LANE RANGES                  forgets what `over` and `show` said of these ranges
"""

# Kinds of bytes that aren't durable: a crash may keep them; a crash loses them; zeros before such bytes; durable bytes that a
# resize cut off, and that stay durable until it is synced.
PENDING, LIVE, GAP, CUT = 1, 2, 3, 4
IS_GAP = bytes(kind == GAP for kind in range(256))


class LaneBytes:
    """The bytes of a blob. `durable` is None if there is no blob; `gaps` says which of them are zeros that no write wrote."""

    def __init__(self):
        self.durable = None
        self.gaps = bytearray()
        self.over = bytearray()


class State:
    def __init__(self):
        self.lanes = []
        self.live = {}

    def apply(self, change, call, data, answer):
        """Makes a change of a call. `data` has the bytes that each call writes, `answer` the words of the reply to this one."""
        getattr(self, "_" + change[0])(*change[1:], this=call, data=data, answer=answer)

    def _begin(self, lane, text, **_):
        while len(self.lanes) <= lane:
            self.lanes.append(LaneBytes())
        it = self.lanes[lane]
        it.durable = bytearray.fromhex(text)
        it.gaps = bytearray(len(it.durable))
        it.over = bytearray()

    def _end(self, lane, **_):
        self.lanes[lane].durable = None
        self.lanes[lane].gaps = bytearray()
        self.lanes[lane].over = bytearray()

    def _open(self, handle, lane, **_):
        self.live[handle] = bytearray(self.lanes[lane].durable)

    def _stale(self, handle, **_):
        pass

    def _close(self, handle, **_):
        self.live.pop(handle, None)

    def _live(self, handle, at, call, start, length, data, **_):
        put(self.live[handle], at, data[call][start : start + length])

    def _plain(self, handle, lane, at, kind, this, data, **_):
        put(self.live[handle], at, data[this])
        put(self.lanes[lane].over, at, bytes([kind]) * len(data[this]))

    def _durable(self, lane, at, call, start, length, data, **_):
        self._put(lane, at, data[call][start : start + length])

    def _put(self, lane, at, piece):
        it = self.lanes[lane]
        if at > len(it.gaps):
            it.gaps += b"\1" * (at - len(it.gaps))
        put(it.durable, at, piece)
        put(it.gaps, at, bytes(len(piece)))

    def _kept(self, lane, at, call, start, word, holes, data, answer, **_):
        for first, end in kept_ranges(answer[word].split(":")[1], at, holes):
            self._put(lane, first, data[call][start + first - at : start + end - at])

    def _resize(self, handle, length, **_):
        cut(self.live[handle], length, 0)

    def _cut(self, lane, length, **_):
        cut(self.lanes[lane].durable, length, 0)
        cut(self.lanes[lane].gaps, length, 1)

    def _sync(self, lane, handle, ranges, length, **_):
        it, live = self.lanes[lane], self.live[handle]
        cut(it.durable, length, 0)
        cut(it.gaps, length, 0)
        for start, end in ranges:
            it.durable[start:end] = live[start:end]
            over = it.over[start:end]
            if 0 not in over:
                it.gaps[start : start + len(over)] = over.translate(IS_GAP)
                continue
            for i, kind in enumerate(over, start):
                if kind:
                    it.gaps[i] = kind == GAP

    def _over(self, lane, at, length, kind, **_):
        put(self.lanes[lane].over, at, bytes([kind]) * length)

    def _show(self, lane, handle, ranges, **_):
        for start, end in ranges:
            put(self.lanes[lane].over, start, bytes([LIVE]) * (end - start))

    def _settle(self, lane, ranges, **_):
        over = self.lanes[lane].over
        for start, end in ranges:
            end = min(end, len(over))
            if start < end:
                over[start:end] = bytes(end - start)


def put(to, at, piece):
    """Writes bytes at an offset; zeros fill a gap."""
    if at > len(to):
        to += bytes(at - len(to))
    to[at : at + len(piece)] = piece


def cut(to, length, fill):
    """Cuts bytes to a length, or lengthens them."""
    if length < len(to):
        del to[length:]
    else:
        to += bytes([fill]) * (length - len(to))


def kept_ranges(choices, at, holes):
    """The ranges of a write at `at` with the choice `1`, outside the holes."""
    ranges, i = [], choices.find("1")
    while i >= 0:
        end = choices.find("0", i)
        end = len(choices) if end < 0 else end
        ranges += without((at + i, at + end), holes)
        i = choices.find("1", end)
    return ranges


def without(found, holes):
    """A range without some holes, which are sorted."""
    start, end = found
    left = []
    for first, last in holes:
        if first < end and start < last:
            if start < first:
                left.append((start, first))
            start = max(start, last)
    if start < end:
        left.append((start, end))
    return left
