// What one call did: in words, and byte by byte.

const WIDTH = 16, MOST_STRIPES = 24;

function showCall(box, { calls, lanes, states, make }, call) {
  box.replaceChildren();
  const head = make("h2");
  head.append(make("span", "number", `line ${calls.line(call)}`), make("code", "", cutText(calls.text(call), 400)));
  box.append(head);
  if (calls.reply(call) !== null) {
    const reply = make("p", calls.isFailure(call) ? "reply failed" : "reply");
    reply.append(make("code", "", cutText(calls.reply(call), 2000)));
    box.append(reply);
  }
  const words = make("ul", "words");
  for (const line of wordsOf(calls, lanes, call)) words.append(make("li", "", line));
  box.append(words);
  const touched = new Set(calls.marks(call).map(([, lane]) => lane));
  for (const lane of lanes) if (touched.has(lane.i)) showLane(box, { calls, lane, states, make }, call);
}

const cutText = (text, most) => (text.length > most ? `${text.slice(0, most)}… (${text.length} characters)` : text);

// Rows of bytes: before the call, what the call did, after it, and what each handle reads.
function showLane(box, { calls, lane, states, make }, call) {
  const copy = (bytes) => (bytes ? new Uint8Array(bytes.all()) : null);
  const before = copy(states.after(call - 1).lanes[lane.i].durable);
  const state = states.after(call), now = state.lanes[lane.i];
  const marks = marksOf(calls, call, lane.i);
  const table = [];
  const isSame = before && now.durable && before.length === now.durable.length && before.every((byte, i) => byte === now.durable.get(i));
  const showsBefore = before && before.length > 0 && (!isSame || calls.marks(call).some(([kind]) => ["drawn", "kept", "lost", "removed"].includes(kind)));
  if (showsBefore) table.push({ label: "durable before", get: (i) => [before[i], "durable"], length: before.length, name: "before" });
  for (const row of drawnRows(calls, lane, call)) table.push(row);
  if (now.durable) {
    table.push({
      label: "durable", name: "durable", length: now.durable.length,
      get: (i) => {
        const mark = marks ? SHOWN[marks.get(i) || 0] : "none";
        return [now.durable.get(i), mark === "kept" || mark === "covered" ? mark : now.gaps.get(i) ? "gap" : "durable"];
      },
    });
  }
  // A stale handle is of interest where it is used, and where it becomes stale.
  const words = calls.text(call).split(" ");
  const shows = (number) => Number(words[1]) === number || calls.marks(call).some(([kind]) => kind === "reopen" || kind === "removed");
  for (const [number, handle] of state.handles) {
    if (handle.lane !== lane.i || (handle.isStale && !shows(number))) continue;
    table.push({
      label: `handle ${number} reads`, name: `handle-${number}`, length: handle.bytes.length, isStale: handle.isStale,
      get: (i) => [handle.bytes.get(i), handle.isStale ? "ended" : now.durable && now.durable.get(i) === handle.bytes.get(i) ? kindAt(now, i) : now.over.get(i) ? kindAt(now, i) : "live"],
    });
  }
  const end = Math.max(0, ...table.map((row) => row.end || row.length));
  const section = make("section", "bytes");
  section.dataset.lane = lane.i;
  section.append(make("h3", "", `${lane.label}: ${now.durable ? many(now.durable.length, "durable byte") : "no blob"}`));
  const wanted = stripesOf(calls, lane, call, end);
  for (const at of wanted.slice(0, MOST_STRIPES)) section.append(drawStripe(make, table, at));
  if (wanted.length > MOST_STRIPES) section.append(make("p", "more", `${wanted.length - MOST_STRIPES} more rows of ${WIDTH} bytes`));
  box.append(section);
}

// Each write that a crash drew for, or that failed.
function drawnRows(calls, lane, call) {
  const rows = [];
  for (const [kind, at, ...more] of calls.marks(call)) {
    if (at !== lane.i || kind !== "drawn") continue;
    const [write, word, covered] = more, { start, end } = calls.written(write), data = calls.data(write);
    const choices = word < 0 ? "" : calls.choices(call, word);
    rows.push({
      label: `write ${calls.pending(write)[0]}`, name: `write-${calls.pending(write)[0]}`, start, end, length: end,
      get: (i) => {
        if (i < start || i >= end) return [undefined, "none"];
        const isCovered = covered.some(([first, last]) => first <= i && i < last);
        return [data[i - start], isCovered ? "covered" : choices[i - start] === "1" ? "kept" : "lost"];
      },
    });
  }
  const marks = calls.marks(call).filter(([kind, at]) => at === lane.i && (kind === "kept" || kind === "lost"));
  if (marks.length && calls.word(call).startsWith("write")) {
    const { start, end } = calls.written(call), data = calls.data(call);
    rows.push({
      label: "failed write", name: "failed", start, end, length: end,
      get: (i) => {
        const mark = marks.find(([, , first, last]) => first <= i && i < last);
        return mark ? [data[i - start], mark[0]] : [undefined, "none"];
      },
    });
  }
  return rows;
}

// The stripes to show: those that the call reaches, or the first ones.
function stripesOf(calls, lane, call, end) {
  const wanted = new Set();
  const add = (start, last) => {
    for (let at = start - (start % WIDTH), count = 0; at < last && count < 400; at += WIDTH, count++) wanted.add(at);
  };
  for (const [kind, at, a, b] of calls.marks(call)) {
    if (at !== lane.i) continue;
    if (kind === "drawn") add(calls.written(a).start, calls.written(a).end);
    else if (["write", "synced", "stale", "kept", "lost", "read"].includes(kind)) add(a, b);
  }
  if (wanted.size === 0) add(0, Math.min(end, 8 * WIDTH));
  return [...wanted].filter((at) => at < end).sort((a, b) => a - b);
}

function drawStripe(make, table, at) {
  const box = make("table"), head = make("tr");
  head.append(make("th", "", `at ${at}`));
  for (let i = at; i < at + WIDTH; i++) head.append(make("th", "offset", i % WIDTH));
  box.append(head);
  for (const row of table) {
    if (row.length <= at && row.end === undefined && row.name !== "before" && !row.name.startsWith("handle") && row.name !== "durable") continue;
    if (row.end !== undefined && (row.end <= at || row.start >= at + WIDTH)) continue;
    const line = make("tr", row.isStale ? "stale" : "");
    line.dataset.row = row.name;
    line.append(make("th", "label", row.label + (row.isStale ? " (stale)" : "")));
    for (let i = at; i < at + WIDTH; i++) {
      const [value, kind] = i < row.length ? row.get(i) : [undefined, "none"];
      const cell = make("td", value === undefined ? "b none" : `b ${kind}`, hexOf(value));
      cell.dataset.at = i;
      line.append(cell);
    }
    box.append(line);
  }
  return box;
}

// What the pointer shows of a column.
function tipOf(calls, states, lane, call, isCall, column) {
  const state = states.after(call).lanes[lane.i], marks = isCall ? marksOf(calls, call, lane.i) : null;
  const { kind, value } = cellOf(state, marks, column);
  const range = column.end - column.start === 1 ? `byte ${column.start}` : `bytes ${column.start}..${column.end}`;
  const lines = [`${range} of ${lane.label}: ${MEANS[kind]}${value === undefined ? "" : ` (${hexOf(value)})`}`];
  if (["pending", "kept", "lost", "covered"].includes(kind)) {
    const found = writeAt(calls, lane.i, call, column.start);
    if (found >= 0) {
      const [number, mode, rate] = calls.pending(found), { start, end } = calls.written(found);
      lines.push(`write ${number}, line ${calls.line(found)}, bytes ${start}..${end}, mode ${mode}, rate ${rate}`);
    }
  }
  return lines.join("\n");
}

// The last write up to a call that has a byte, and was pending if one is wanted that was; -1 without one.
function writeAt(calls, lane, call, at, isPending = true) {
  for (; call >= 0; call--) {
    if (!calls.word(call).startsWith("write") || (isPending && !calls.pending(call))) continue;
    const { start, end } = calls.written(call);
    if (start <= at && at < end && calls.marks(call).some(([kind, it]) => (kind === "write" || kind === "stale") && it === lane)) return call;
  }
  return -1;
}

const MEANS = {
  none: "no byte", durable: "durable", gap: "durable, a zero of a gap", zeros: "a zero of a gap, not durable",
  cut: "cut off by a resize that isn't durable", live: "live, not durable: a crash loses it", pending: "pending: a crash may keep it",
  ended: "through a stale handle, and not durable", read: "read", covered: "later bytes were durable over it", kept: "kept", lost: "lost",
};
