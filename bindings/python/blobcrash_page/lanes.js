// How the bytes of a lane lie side by side. A column is one byte where there is room, and else a range.

const MOST_COLUMNS = 320;

// The columns of a lane, between the offsets at which something begins or ends.
function columnsOf(offsets) {
  const edges = [...new Set(offsets)].sort((a, b) => a - b);
  const end = edges.length ? edges[edges.length - 1] : 0;
  if (edges[0] !== 0) edges.unshift(0);
  if (end <= 64) return evenly(0, end, end);
  const wanted = (length) => (length <= 16 ? length : Math.round(16 + 4 * Math.log2(length / 16)));
  let total = 0;
  for (let i = 1; i < edges.length; i++) total += wanted(edges[i] - edges[i - 1]);
  if (edges.length > MOST_COLUMNS) return evenly(0, end, MOST_COLUMNS);
  const scale = Math.min(1, MOST_COLUMNS / total);
  const columns = [];
  for (let i = 1; i < edges.length; i++) {
    const count = Math.max(1, Math.floor(wanted(edges[i] - edges[i - 1]) * scale));
    columns.push(...evenly(edges[i - 1], edges[i], count));
  }
  return columns;
}

function evenly(start, end, count) {
  const columns = [];
  for (let i = 0; i < count; i++) {
    const from = start + Math.floor(((end - start) * i) / count);
    columns.push({ start: from, end: start + Math.floor(((end - start) * (i + 1)) / count) });
  }
  return columns;
}

// What is shown of a byte, from what matters least to what matters most.
const SHOWN = ["none", "ended", "durable", "gap", "zeros", "cut", "live", "pending", "read", "covered", "kept", "lost"];
const RANK = new Map(SHOWN.map((name, i) => [name, i]));

// What a byte of a lane is, without what a call did to it.
function kindAt(lane, i) {
  switch (lane.over.get(i)) {
    case PENDING: return "pending";
    case LIVE: return "live";
    case GAP: return "zeros";
    case CUT: return lane.durable && i < lane.durable.length ? "cut" : "none";
  }
  if (!lane.durable || i >= lane.durable.length) return "none";
  return lane.gaps.get(i) ? "gap" : "durable";
}

// The value that is shown of a byte.
function valueAt(lane, i) {
  const over = lane.over.get(i);
  if (over === PENDING || over === LIVE || over === GAP) return lane.values.get(i);
  return lane.durable ? lane.durable.get(i) : undefined;
}

// What a call did to each byte of a lane, as places in SHOWN; null where it did nothing to the lane.
function marksOf(calls, call, lane) {
  const painted = new Bytes();
  const paint = (kind, start, end) => { if (start < end) painted.fill(start, end - start, RANK.get(kind)); };
  for (const [kind, at, ...more] of calls.marks(call)) {
    if (at !== lane) continue;
    if (kind === "drawn") {
      const [write, word, covered] = more;
      const { start, end } = calls.written(write);
      paint("lost", start, end);
      if (word >= 0) for (const range of calls.keptRanges(call, word, start, [])) paint("kept", ...range);
      for (const range of covered) paint("covered", ...range);
    } else if (kind === "ended") paint("ended", calls.written(more[0]).start, calls.written(more[0]).end);
    else if (kind === "stale") paint("ended", ...more);
    else if (kind === "kept" || kind === "lost" || kind === "read") paint(kind, ...more);
  }
  return painted.length ? painted : null;
}

// What is shown of a byte.
function shownAt(lane, marks, i) {
  const kind = kindAt(lane, i);
  const mark = marks ? SHOWN[marks.get(i) || 0] : "none";
  // A read shows what isn't durable as that, and what a stale handle did changes no byte of another incarnation.
  if (mark === "none" || (mark === "read" && kind !== "durable") || (mark === "ended" && kind !== "none")) return kind;
  return mark;
}

// What is shown of a column, and the value where it is one byte.
function cellOf(lane, marks, column) {
  const step = Math.max(1, Math.floor((column.end - column.start) / 64));
  let kind = "none";
  for (let i = column.start; i < column.end; i += step) {
    const found = shownAt(lane, marks, i);
    if (RANK.get(found) > RANK.get(kind)) kind = found;
  }
  return { kind, value: column.end - column.start === 1 ? valueAt(lane, column.start) : undefined };
}

const hexOf = (value) => (value === undefined ? "" : value.toString(16).padStart(2, "0"));
