// The calls of the run, as the page was given them.

class Calls {
  constructor(run) {
    this.run = run;
    this.bytes = new Map();
    this.length = run.calls.length;
  }
  line(call) { return this.run.calls[call][0]; }
  text(call) { return this.run.calls[call][1]; }
  reply(call) { return this.run.calls[call][2]; }
  notes(call) { return this.run.calls[call][3]; }
  remarks(call) { return this.run.calls[call][4]; }
  changes(call) { return this.run.calls[call][5]; }
  marks(call) { return this.run.calls[call][6]; }
  // Number, mode and rate of a write that is pending from this call on.
  pending(call) { return this.run.calls[call][7]; }
  word(call) { return this.text(call).split(" ", 1)[0]; }
  // The bytes that a call writes.
  data(call) {
    if (!this.bytes.has(call)) this.bytes.set(call, bytesOfHex(this.text(call).split(" ")[3]));
    return this.bytes.get(call);
  }
  written(call) {
    const words = this.text(call).split(" ");
    const start = Number(words[2]);
    return { start, end: start + (words[3] === "-" ? 0 : words[3].length / 2) };
  }
  choices(call, word) { return this.reply(call).split(" ")[word].split(":")[1]; }
  // The ranges that a crash kept of a write at `at`, but for the holes.
  keptRanges(call, word, at, holes) {
    const choices = this.choices(call, word), ranges = [];
    for (let i = choices.indexOf("1"); i >= 0; ) {
      let end = choices.indexOf("0", i);
      if (end < 0) end = choices.length;
      let start = at + i;
      for (const [first, last] of holes) {
        if (first >= at + end || last <= start) continue;
        if (start < first) ranges.push([start, first]);
        start = Math.max(start, last);
      }
      if (start < at + end) ranges.push([start, at + end]);
      i = choices.indexOf("1", end);
    }
    return ranges;
  }
  isFailure(call) {
    const reply = this.reply(call);
    return reply === null || reply.startsWith("error");
  }
  isCrash(call) { return (this.reply(call) || "").startsWith("crashed"); }
  // The offsets of each lane at which something begins or ends.
  offsets() {
    const offsets = this.run.lanes.map(() => [0]);
    for (let call = 0; call < this.length; call++) {
      for (const [kind, lane, a, b] of this.marks(call)) {
        if (kind === "drawn" || kind === "ended") {
          const { start, end } = this.written(a);
          offsets[lane].push(start, end);
        } else if (kind !== "open" && kind !== "close") for (const x of [a, b]) if (x !== undefined) offsets[lane].push(x);
      }
      for (const [name, ...rest] of this.changes(call)) {
        if (name === "over") offsets[rest[0]].push(rest[1], rest[1] + rest[2]);
        if (name === "durable") offsets[rest[0]].push(rest[1], rest[1] + rest[4]);
        if (name === "begin") offsets[rest[0]].push(rest[1].length / 2);
      }
    }
    return offsets;
  }
}

const many = (count, word) => `${count} ${word}${count === 1 ? "" : "s"}`;

// What a call did, in words: a line each.
function wordsOf(calls, lanes, call) {
  const lines = [], pending = calls.pending(call), name = calls.word(call), reply = calls.reply(call);
  if (reply === null) return ["This call was not made: the run ended before it."];
  const where = (lane) => lanes[lane].label;
  for (const [kind, lane, ...more] of calls.marks(call)) {
    if (kind === "write" && pending) {
      const [number, mode, rate] = pending;
      lines.push(`Write ${number}: bytes ${more[0]}..${more[1]} of ${where(lane)} are pending. A crash keeps them by draws: mode ${mode}, rate ${rate}.`);
    } else if (kind === "write") lines.push(`Bytes ${more[0]}..${more[1]} of ${where(lane)} are live and not durable. A crash loses them.`);
    else if (kind === "synced") lines.push(`Bytes ${more[0]}..${more[1]} of ${where(lane)} are durable at once.`);
    else if (kind === "stale") lines.push(`The handle is stale: bytes ${more[0]}..${more[1]} are in its live bytes alone.`);
    else if (kind === "sync") lines.push(`${where(lane)} is durable as the handle reads it, ${many(more[0], "byte")}. Nothing of it is pending.`);
    else if (kind === "resize") lines.push(`${where(lane)} has a new length, ${many(more[0], "byte")}${calls.isCrash(call) ? "" : ", which isn't durable"}.`);
    else if (kind === "removed") lines.push(`${where(lane)} is removed. Its handles are stale.`);
    else if (kind === "reopen") lines.push(`The store is built anew over its durable bytes. All handles are stale.`);
    else if (kind === "open") lines.push(`Handle ${more[0]} is open on ${where(lane)}, and reads what is durable.`);
    else if (kind === "close") lines.push(`Handle ${more[0]} of ${where(lane)} is closed.`);
    else if (kind === "read") lines.push(`Bytes ${more[0]}..${more[1]} of ${where(lane)} were read.`);
    else if (kind === "kept") lines.push(`Bytes ${more[0]}..${more[1]} of the failed write were kept: they are durable.`);
    else if (kind === "lost" && name === "crash") lines.push(`Bytes ${more[0]}..${more[1]} of ${where(lane)} were never pending, and are lost.`);
    else if (kind === "lost") lines.push(`Bytes ${more[0]}..${more[1]} of ${where(lane)} are lost.`);
    else if (kind === "drawn" || kind === "ended") lines.push(drawnWords(calls, where(lane), call, kind, more));
  }
  for (const remark of calls.remarks(call)) if (/^ {2}(failed|started)|whose sync failed/.test(remark)) lines.push(remark.trim() + ".");
  return [...new Set(lines)];
}

function drawnWords(calls, where, call, kind, [write, word, covered]) {
  const { start, end } = calls.written(write), [number, mode, rate] = calls.pending(write);
  const hidden = covered.reduce((sum, [first, last]) => sum + last - first, 0);
  const kept = word < 0 ? 0 : calls.keptRanges(call, word, start, covered).reduce((sum, [first, last]) => sum + last - first, 0);
  const counts = [`${kept} kept`, `${end - start - kept - hidden} lost`].concat(hidden ? [`${hidden} covered by later durable bytes`] : []);
  const about = `Write ${number} of ${where} (line ${calls.line(write)}, bytes ${start}..${end}, mode ${mode}, rate ${rate})`;
  if (kind === "ended") return `${about} was drawn for and changes nothing: its blob has ended.`;
  return `${about} was not synced before this crash: ${counts.join(", ")}.`;
}
