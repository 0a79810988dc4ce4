// The bytes of all blobs and handles, which change by change become those after each call: what state.py does, once more.

const PENDING = 1, LIVE = 2, GAP = 3, CUT = 4;

// Bytes that grow.
class Bytes {
  constructor(from) {
    this.buffer = new Uint8Array(from ? from.length : 16);
    this.length = 0;
    if (from) this.put(0, from.all ? from.all() : from);
  }
  all() { return this.buffer.subarray(0, this.length); }
  get(i) { return i < this.length ? this.buffer[i] : undefined; }
  reserve(length) {
    if (length <= this.buffer.length) return;
    const grown = new Uint8Array(Math.max(length, 2 * this.buffer.length));
    grown.set(this.all());
    this.buffer = grown;
  }
  // Writes bytes at an offset; `fill` fills a gap.
  put(at, bytes, fill = 0) {
    this.reserve(at + bytes.length);
    if (at > this.length) this.buffer.fill(fill, this.length, at);
    this.buffer.set(bytes, at);
    this.length = Math.max(this.length, at + bytes.length);
  }
  fill(at, length, byte) {
    this.reserve(at + length);
    if (at > this.length) this.buffer.fill(0, this.length, at);
    this.buffer.fill(byte, at, at + length);
    this.length = Math.max(this.length, at + length);
  }
  // Cuts the bytes to a length, or lengthens them.
  cut(length, fill = 0) {
    this.reserve(length);
    if (length > this.length) this.buffer.fill(fill, this.length, length);
    this.length = length;
  }
}

// The value of each hex digit, by its code.
const DIGITS = new Uint8Array(128);
for (let i = 0; i < 16; i++) for (const text of [i.toString(16), i.toString(16).toUpperCase()]) DIGITS[text.charCodeAt(0)] = i;

function bytesOfHex(hex) {
  if (hex === "-") return new Uint8Array(0);
  const bytes = new Uint8Array(hex.length >> 1);
  for (let i = 0; i < bytes.length; i++) bytes[i] = (DIGITS[hex.charCodeAt(2 * i)] << 4) | DIGITS[hex.charCodeAt(2 * i + 1)];
  return bytes;
}

// A blob: its durable bytes, null while there is none; which of them are zeros that nobody wrote; what isn't durable, and its values.
class LaneBytes {
  constructor(from) {
    this.durable = from && from.durable ? new Bytes(from.durable) : null;
    this.gaps = new Bytes(from && from.gaps);
    this.over = new Bytes(from && from.over);
    this.values = new Bytes(from && from.values);
  }
}

class State {
  // `calls` have the bytes that each call writes, and the words of its reply.
  constructor(calls, lanes, from) {
    this.calls = calls;
    this.lanes = from ? from.lanes.map((it) => new LaneBytes(it)) : Array.from({ length: lanes }, () => new LaneBytes());
    // Of each handle its live bytes, its lane, and whether it is stale.
    this.handles = new Map();
    if (from) for (const [number, it] of from.handles) this.handles.set(number, { ...it, bytes: new Bytes(it.bytes) });
  }

  // How many bytes it holds.
  size() {
    let size = 0;
    for (const it of this.lanes) size += 3 * it.over.length + 2 * it.gaps.length;
    for (const it of this.handles.values()) size += it.bytes.length;
    return size;
  }

  make(call) {
    for (const [name, ...rest] of this.calls.changes(call)) this[name](call, ...rest);
  }

  begin(_, lane, hex) {
    const it = (this.lanes[lane] = new LaneBytes());
    it.durable = new Bytes(bytesOfHex(hex));
    it.gaps.cut(it.durable.length);
  }
  end(_, lane) { this.lanes[lane] = new LaneBytes(); }
  open(_, handle, lane) {
    this.handles.set(handle, { lane, isStale: false, bytes: new Bytes(this.lanes[lane].durable) });
  }
  stale(_, handle) { this.handles.get(handle).isStale = true; }
  close(_, handle) { this.handles.delete(handle); }
  live(_, handle, at, call, start, length) {
    this.handles.get(handle).bytes.put(at, this.calls.data(call).subarray(start, start + length));
  }
  plain(call, handle, lane, at, kind) {
    const data = this.calls.data(call), it = this.lanes[lane];
    this.handles.get(handle).bytes.put(at, data);
    it.over.fill(at, data.length, kind);
    it.values.put(at, data);
  }
  durable(_, lane, at, call, start, length) { this.lay(lane, at, this.calls.data(call).subarray(start, start + length)); }
  lay(lane, at, bytes) {
    const it = this.lanes[lane];
    it.gaps.put(at, new Uint8Array(bytes.length), 1);
    it.durable.put(at, bytes);
  }
  kept(call, lane, at, write, start, word, holes) {
    const data = this.calls.data(write);
    for (const [first, end] of this.calls.keptRanges(call, word, at, holes)) {
      this.lay(lane, first, data.subarray(start + first - at, start + end - at));
    }
  }
  resize(_, handle, length) { this.handles.get(handle).bytes.cut(length); }
  cut(_, lane, length) {
    this.lanes[lane].durable.cut(length);
    this.lanes[lane].gaps.cut(length, 1);
  }
  sync(_, lane, handle, ranges, length) {
    const it = this.lanes[lane], live = this.handles.get(handle).bytes;
    it.durable.cut(length);
    it.gaps.cut(length);
    for (const [start, end] of ranges) {
      it.durable.put(start, live.all().subarray(start, end));
      for (let i = start; i < end; i++) if (it.over.get(i)) it.gaps.buffer[i] = it.over.get(i) === GAP ? 1 : 0;
    }
  }
  over(_, lane, at, length, kind) {
    this.lanes[lane].over.fill(at, length, kind);
    this.lanes[lane].values.fill(at, length, 0);
  }
  show(_, lane, handle, ranges) {
    const it = this.lanes[lane], live = this.handles.get(handle).bytes;
    for (const [start, end] of ranges) {
      it.over.fill(start, end - start, LIVE);
      it.values.put(start, live.all().subarray(start, end));
    }
  }
  settle(_, lane, ranges) {
    const over = this.lanes[lane].over;
    for (const [start, end] of ranges) if (start < over.length) over.buffer.fill(0, start, Math.min(end, over.length));
  }
}

// The states after each call, at any call. Some on the way are kept, as many as fit into a bound.
class States {
  constructor(calls, lanes) {
    this.calls = calls;
    this.lanes = lanes;
    this.kept = [];
    this.room = 96 << 20;
    this.every = 64;
    this.restart();
  }
  restart() {
    this.at = -1;
    this.now = new State(this.calls, this.lanes);
  }
  // The state after a call; -1 is before the first. It is good until the next question.
  after(call) {
    if (call < this.at) {
      let from = null;
      for (const kept of this.kept) if (kept.at <= call && (!from || kept.at > from.at)) from = kept;
      if (from) {
        this.at = from.at;
        this.now = new State(this.calls, this.lanes, from.state);
      } else this.restart();
    }
    while (this.at < call) {
      this.at++;
      this.now.make(this.at);
      if (this.at % this.every === 0) this.keep();
    }
    return this.now;
  }
  keep() {
    const last = this.kept[this.kept.length - 1];
    if (last && last.at >= this.at) return;
    this.room -= this.now.size();
    this.kept.push({ at: this.at, state: new State(this.calls, this.lanes, this.now) });
    if (this.room > 0) return;
    // Every second one goes, and from here on fewer are kept.
    this.kept = this.kept.filter((_, i) => i % 2 === 0);
    this.every *= 2;
    this.room = (96 << 20) - this.kept.reduce((sum, kept) => sum + kept.state.size(), 0);
  }
}
