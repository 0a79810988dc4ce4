// The page: calls on the left, the bytes of each blob on the right, and below what the chosen call did.

(function () {
  const run = JSON.parse(document.getElementById("run").textContent);
  const calls = new Calls(run);
  const lanes = run.lanes.map(([partition, hex], i) => ({ i, label: nameOf(partition, hex), columns: [] }));
  calls.offsets().forEach((offsets, i) => (lanes[i].columns = columnsOf(offsets)));
  const states = new States(calls, lanes.length);
  // A name that no call reaches isn't shown.
  const reached = new Set(run.calls.flatMap((_, call) => calls.marks(call).map(([, lane]) => lane)));
  const shownLanes = lanes.filter((lane) => reached.has(lane.i));
  const byId = (id) => document.getElementById(id);
  const list = byId("list"), rowsBox = byId("rows"), detail = byId("detail"), tip = byId("tip");
  let rows = [], chosen = -1, rowHeight = 28;
  const opened = new Set();

  function nameOf(partition, hex) {
    const bytes = bytesOfHex(hex === "" ? "-" : hex);
    const isText = bytes.length > 0 && bytes.every((byte) => byte > 32 && byte < 127);
    return `${partition} ${hex || "-"}` + (isText ? ` "${String.fromCharCode(...bytes)}"` : "");
  }

  function make(tag, kind, text) {
    const it = document.createElement(tag);
    if (kind) it.className = kind;
    if (text !== undefined) it.textContent = text;
    return it;
  }

  // Rows: notes, calls, and long runs of calls that are folded.
  const PLAIN = new Set(["write", "writes", "read", "size", "sync", "resize", "startsync", "finish", "config"]);
  const isPlain = (call) => PLAIN.has(calls.word(call)) && !calls.isFailure(call);

  function layRows() {
    rows = [];
    for (const [notes, text] of run.preamble) {
      for (const note of notes) rows.push({ kind: "note", text: `# ${note}` });
      rows.push({ kind: "note", text });
    }
    for (let call = 0; call < calls.length; ) {
      let end = call;
      while (end < calls.length && isPlain(end)) end++;
      if (end - call > 40 && !opened.has(call)) {
        addCalls(call, call + 8);
        rows.push({ kind: "fold", from: call + 8, to: end - 12, key: call });
        addCalls(end - 12, end);
      } else addCalls(call, Math.max(end, call + 1));
      call = Math.max(end, call + 1);
    }
    for (const note of run.notes) rows.push({ kind: "note", text: `# ${note}` });
    rows.forEach((row, i) => (row.i = i));
    rowHeight = parseFloat(getComputedStyle(list).getPropertyValue("--row")) || 28;
    rowsBox.style.height = `${rows.length * rowHeight}px`;
  }

  function addCalls(from, to) {
    for (let call = from; call < to; call++) {
      for (const note of calls.notes(call)) rows.push({ kind: "note", text: `# ${note}` });
      rows.push({ kind: "call", call });
    }
  }

  const lastCallOf = (row) => {
    for (let i = row.i; i >= 0; i--) if (rows[i].kind !== "note") return rows[i].kind === "call" ? rows[i].call : rows[i].to - 1;
    return -1;
  };

  // What is seen of the list is drawn, and no more.
  function draw(all) {
    const first = all ? 0 : Math.max(0, Math.floor(list.scrollTop / rowHeight) - 4);
    const last = all ? rows.length : Math.min(rows.length, first + Math.ceil(list.clientHeight / rowHeight) + 9);
    const drawn = document.createDocumentFragment();
    for (let i = first; i < last; i++) drawn.append(drawRow(rows[i]));
    rowsBox.replaceChildren(drawn);
  }

  function drawRow(row) {
    const box = make("div", `row ${row.kind}`);
    box.style.top = `${row.i * rowHeight}px`;
    box.id = `row${row.i}`;
    box.dataset.row = row.i;
    box.setAttribute("role", "option");
    box.setAttribute("aria-selected", String(row.i === chosen));
    if (row.i === chosen) box.classList.add("chosen");
    if (row.kind === "call") fillCall(box, row.call);
    else {
      const text = make("div", "text");
      if (row.kind === "fold") {
        text.append(make("span", "said", `▸ ${many(row.to - row.from, "call")}, lines ${calls.line(row.from)} to ${calls.line(row.to - 1)} (Enter)`));
      } else text.append(make("span", "number"), make("span", "said", row.text));
      box.append(text);
    }
    if (row.kind === "note") return box;
    const call = lastCallOf(row);
    const state = states.after(call);
    for (const lane of shownLanes) box.append(drawLane(lane, state.lanes[lane.i], row.kind === "call" ? call : -1));
    return box;
  }

  function fillCall(box, call) {
    const text = make("div", "text"), link = make("a", "said", calls.text(call));
    link.href = `#L${calls.line(call)}`;
    link.tabIndex = -1;
    text.append(make("span", "number", calls.line(call)), link, make("span", "reply", calls.reply(call) === null ? "not made" : calls.reply(call)));
    if (calls.isFailure(call)) box.classList.add("failed");
    if (calls.isCrash(call)) box.classList.add("crash");
    for (const [kind] of calls.marks(call)) if (["sync", "removed", "reopen"].includes(kind)) box.classList.add("edge", kind);
    box.append(text);
  }

  function drawLane(lane, state, call) {
    const box = make("div", "lane");
    box.dataset.lane = lane.i;
    box.style.width = `${lane.width}px`;
    const marks = call < 0 ? null : marksOf(calls, call, lane.i);
    let last = null, count = 0;
    const close = () => { if (last && count > 1) last.style.width = `${count * lane.cell}px`; };
    lane.columns.forEach((column, i) => {
      const { kind, value } = cellOf(state, marks, column);
      // Of a lost byte, the byte that was lost: of this call, if it is a write, and else of the last one before it.
      const isGone = kind === "ended" || kind === "lost";
      const gone = isGone ? lostValue(lane, calls.word(call).startsWith("write") ? call : call - 1, column) : undefined;
      const seen = gone === undefined ? value : gone;
      const text = lane.cell >= 17 && kind !== "none" ? hexOf(seen) : "";
      if (last && last.kind === kind && last.plain && !text) {
        count++;
        return;
      }
      close();
      const cell = make("i", `b ${kind}`, text);
      Object.assign(cell, { kind, plain: !text });
      cell.style.left = `${i * lane.cell}px`;
      cell.style.width = `${lane.cell}px`;
      box.append(cell);
      last = cell;
      count = 1;
    });
    close();
    if (call >= 0) drawEdges(box, lane, call);
    return box;
  }

  // The byte of the last write that has one here, which isn't durable.
  function lostValue(lane, call, column) {
    const write = column.end - column.start === 1 ? writeAt(calls, lane.i, call, column.start, false) : -1;
    return write < 0 ? undefined : calls.data(write)[column.start - calls.written(write).start];
  }

  function drawEdges(box, lane, call) {
    for (const [kind, at, length] of calls.marks(call)) {
      if (at !== lane.i) continue;
      if (["sync", "removed", "reopen", "crash"].includes(kind)) box.classList.add("edge", kind);
      if (kind !== "resize") continue;
      const edge = make("i", "length"), column = lane.columns.findIndex((it) => it.end > length);
      edge.style.left = `${(column < 0 ? lane.columns.length : column) * lane.cell - 1}px`;
      box.append(edge);
    }
  }

  function measure() {
    const room = Math.max(220, list.clientWidth * (innerWidth < 720 ? 0.96 : 0.56) - 24);
    const head = byId("lanes");
    head.replaceChildren(make("span", "text", `${many(calls.length, "call")}`));
    for (const lane of shownLanes) {
      const share = Math.max(160, room / Math.min(shownLanes.length, 3));
      lane.cell = Math.max(2, Math.min(22, Math.floor(share / Math.max(1, lane.columns.length))));
      lane.width = Math.max(90, lane.cell * lane.columns.length);
      const name = make("span", "name", lane.label);
      name.style.width = `${lane.width}px`;
      name.title = lane.label;
      head.append(name);
    }
  }

  // Choosing a row: by keys, by a click, or by the address.
  function choose(i, scrolls = true) {
    chosen = Math.max(0, Math.min(rows.length - 1, i));
    const row = rows[chosen];
    if (scrolls) {
      const top = chosen * rowHeight;
      if (top < list.scrollTop + rowHeight) list.scrollTop = top - 2 * rowHeight;
      else if (top > list.scrollTop + list.clientHeight - 3 * rowHeight) list.scrollTop = top - list.clientHeight + 4 * rowHeight;
    }
    draw();
    list.setAttribute("aria-activedescendant", `row${chosen}`);
    if (row.kind === "call") {
      showCall(detail, { calls, lanes, states, make }, row.call);
      history.replaceState(null, "", `#L${calls.line(row.call)}`);
    } else detail.replaceChildren(make("h2", "", row.kind === "fold" ? "Calls that are folded. Enter shows them." : row.text));
  }

  function step(by, wanted = (row) => row.kind !== "note") {
    for (let i = chosen + by; i >= 0 && i < rows.length; i += by) if (wanted(rows[i])) return choose(i);
  }

  function unfold(row) {
    opened.add(row.key);
    layRows();
    choose(rows.findIndex((it) => it.kind === "call" && it.call === row.from));
  }

  function chooseLine(line) {
    for (let call = 0; call < calls.length; call++) {
      if (calls.line(call) < line) continue;
      const fold = rows.find((row) => row.kind === "fold" && row.from <= call && call < row.to);
      if (fold) {
        opened.add(fold.key);
        layRows();
      }
      return choose(rows.findIndex((row) => row.kind === "call" && row.call === call));
    }
    choose(rows.findIndex((row) => row.kind === "call"));
  }

  const isTurn = (row) => row.kind === "call" && (calls.isCrash(row.call) || calls.isFailure(row.call));
  const page = () => Math.max(1, Math.floor(list.clientHeight / rowHeight) - 2);
  const keys = {
    ArrowDown: () => step(1), ArrowUp: () => step(-1), j: () => step(1), k: () => step(-1),
    ArrowRight: () => step(1, isTurn), ArrowLeft: () => step(-1, isTurn),
    PageDown: () => choose(chosen + page()), PageUp: () => choose(chosen - page()),
    Home: () => choose(0), End: () => choose(rows.length - 1),
    Enter: () => { if (rows[chosen] && rows[chosen].kind === "fold") unfold(rows[chosen]); },
  };
  list.addEventListener("keydown", (event) => {
    if (event.ctrlKey || event.metaKey || event.altKey || !keys[event.key]) return;
    keys[event.key]();
    event.preventDefault();
  });
  list.addEventListener("click", (event) => {
    const box = event.target.closest(".row");
    if (!box) return;
    event.preventDefault();
    const row = rows[Number(box.dataset.row)];
    if (row.kind === "fold") unfold(row);
    else choose(row.i, false);
    list.focus();
  });

  // What lies under the pointer.
  list.addEventListener("mousemove", (event) => {
    const box = event.target.closest(".lane"), rowBox = event.target.closest(".row");
    tip.hidden = !box;
    if (!box) return;
    const lane = lanes[box.dataset.lane], row = rows[rowBox.dataset.row];
    const column = lane.columns[Math.floor((event.clientX - box.getBoundingClientRect().left) / lane.cell)];
    tip.hidden = !column;
    if (!column) return;
    tip.textContent = tipOf(calls, states, lane, lastCallOf(row), row.kind === "call", column);
    tip.style.left = `${Math.min(event.clientX + 14, innerWidth - tip.offsetWidth - 8)}px`;
    tip.style.top = `${Math.min(event.clientY + 16, innerHeight - tip.offsetHeight - 8)}px`;
  });
  list.addEventListener("mouseleave", () => (tip.hidden = true));

  let isDue = false;
  const drawSoon = () => {
    if (isDue) return;
    isDue = true;
    requestAnimationFrame(() => { isDue = false; draw(); });
  };
  list.addEventListener("scroll", drawSoon);
  addEventListener("resize", () => { layRows(); measure(); drawSoon(); });
  addEventListener("hashchange", () => chooseLine(Number(location.hash.slice(2))));
  addEventListener("beforeprint", () => draw(rows.length <= 4000));
  addEventListener("afterprint", () => draw());

  layRows();
  measure();
  const firstTurn = rows.find(isTurn);
  if (/^#L\d+$/.test(location.hash)) chooseLine(Number(location.hash.slice(2)));
  else choose(firstTurn ? firstTurn.i : rows.findIndex((row) => row.kind === "call"));
  list.focus({ preventScroll: true });
})();
