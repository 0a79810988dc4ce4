"""A short run as a still picture: a line for each call, and next to it the bytes of each blob."""

import html

from .model import Model
from .script import Script
from .state import CUT, GAP, LIVE, PENDING, State, kept_ranges

ROW, CELL, LETTER, MARGIN = 24, 24, 7.3, 14
# The most bytes of a blob in a picture.
WIDEST = 4096

# The background and the letters of each kind of byte, as in the light page.
COLOURS = {
    "durable": ("#d5dbe1", "#1c2024"),
    "pending": ("#ffd979", "#4b3500"),
    "live": ("#ffeec2", "#5b4300"),
    "zeros": ("#eceff1", "#5d666f"),
    "gap": ("#eceff1", "#5d666f"),
    "cut": ("#ffffff", "#777c80"),
    "read": ("#b6d7f2", "#0d3c61"),
    "covered": ("#5a6acb", "#ffffff"),
    "kept": ("#1d7d46", "#ffffff"),
    "lost": ("#c62828", "#ffffff"),
}
KINDS = {PENDING: "pending", LIVE: "live", GAP: "zeros", CUT: "cut"}
LEGEND = ("durable", "pending", "kept", "lost", "read")


def bytes_shown(state, values, lane, marks, answer, model):
    """The kind and the value of each byte of a lane after a call that made these marks."""
    it = state.lanes[lane]
    durable = it.durable or b""
    end = max([len(durable)] + [i + 1 for i, kind in enumerate(it.over) if kind])
    refuse_wide(end)
    shown = []
    for i in range(end):
        over = it.over[i] if i < len(it.over) else 0
        # No byte is durable past the end, before bytes that only a stale handle has.
        kind = KINDS[over] if over else "gap" if i >= len(durable) or it.gaps[i] else "durable"
        value = values[lane].get(i, 0) if over in (PENDING, LIVE, GAP) else durable[i] if i < len(durable) else None
        shown.append([kind, value])
    for kind, at, *more in marks:
        if at != lane:
            continue
        if kind == "drawn":
            write, word, covered = more
            start, data = int(model.script.steps[write].words[2]), model.data[write]
            paint(shown, "lost", start, start + len(data), data)
            for first, last in kept_ranges(answer[word].split(":")[1], start, []) if word > 0 else ():
                paint(shown, "kept", first, last)
            for first, last in covered:
                paint(shown, "covered", first, last)
        elif kind in ("kept", "lost", "read"):
            paint(shown, kind, *more)
    return shown


def refuse_wide(end):
    """Raises `ValueError` if a blob with this end is too long for a picture."""
    if end > WIDEST:
        raise ValueError(f"a picture shows blobs of up to {WIDEST} bytes, and one has {end}")


def paint(shown, kind, start, end, data=None):
    """Gives a range of bytes a kind. Bytes that are lost past the end show what was lost."""
    refuse_wide(end)
    for i in range(start, end):
        while len(shown) <= i:
            shown.append(["lost", data[len(shown) - start] if data and len(shown) >= start else None])
        shown[i][0] = kind


def note_values(values, call, changes, model):
    """Notes the values of bytes that aren't durable."""
    for name, *rest in changes:
        if name == "plain":
            values[rest[1]].update(enumerate(model.data[call], rest[2]))
        elif name == "over":
            values[rest[0]].update(dict.fromkeys(range(rest[1], rest[1] + rest[2]), 0))


def picture(script_text, told_text):
    """Returns the picture of a run as SVG. `told_text` is what `blobcrash explain --json` printed."""
    script = Script(script_text, told_text)
    model = Model(script)
    state, values = State(), [{} for _ in model.lanes]
    for lane in range(len(model.lanes)):
        state._begin(lane, "")
        state._end(lane)
    rows = []
    for call, (step, row) in enumerate(zip(script.steps, model.rows)):
        rows += [("note", f"# {note}", "", []) for note in step.notes if rows]
        for change in row.changes:
            state.apply(change, call, model.data, step.answer)
        note_values(values, call, row.changes, model)
        shown = [bytes_shown(state, values, lane, row.marks, step.answer, model) for lane in range(len(model.lanes))]
        rows.append((step.answer[0], step.text, step.reply or "", shown))
    return drawn(rows, len(model.lanes))


def drawn(rows, lanes):
    left = MARGIN + LETTER * max((len(text) + 2 + len(reply) for _, text, reply, _ in rows), default=0) + 12
    widths = [CELL * max([len(shown[lane]) for _, _, _, shown in rows if shown] or [0]) + 16 for lane in range(lanes)]
    width, height = left + sum(widths) + MARGIN, ROW * (len(rows) + 1) + 2 * MARGIN
    parts = [
        f'<svg xmlns="http://www.w3.org/2000/svg" width="{width:.0f}" height="{height:.0f}" viewBox="0 0 {width:.0f} {height:.0f}" role="img"'
        ' font-family="ui-monospace, DejaVu Sans Mono, Menlo, Consolas, monospace" font-size="12">',
        "<title>A run, call by call, with the bytes of each blob</title>",
        f'<rect width="{width:.0f}" height="{height:.0f}" rx="6" fill="#fbfbf9" stroke="#dcdfe2"/>',
    ]
    for i, (kind, text, reply, shown) in enumerate(rows):
        top = MARGIN + ROW * i
        parts.append(words(MARGIN, top, text, "#5d666f" if kind == "note" else "#1c2024"))
        if reply:
            parts.append(words(MARGIN + LETTER * (len(text) + 2), top, reply, "#a4161a" if kind == "error" else "#5d666f"))
        at = left
        for lane, cells in enumerate(shown):
            parts += [cell(at + CELL * j, top, *it) for j, it in enumerate(cells)]
            at += widths[lane]
    at = MARGIN
    for kind in LEGEND:
        parts += [cell(at, height - MARGIN - ROW, kind, 0x6B), words(at + CELL + 4, height - MARGIN - ROW, kind, "#5d666f")]
        at += CELL + 4 + LETTER * (len(kind) + 2)
    return "\n".join(parts + ["</svg>", ""])


def words(x, top, text, colour):
    return f'<text x="{x:.1f}" y="{top + 16}" fill="{colour}" xml:space="preserve">{html.escape(text)}</text>'


def cell(x, top, kind, value):
    back, front = COLOURS[kind]
    strike = ' text-decoration="line-through"' if kind == "lost" else ""
    text = "" if value is None else f'<text x="{x + CELL / 2 - 0.5:.1f}" y="{top + 16}" text-anchor="middle" fill="{front}"{strike}>{value:02x}</text>'
    return f'<rect x="{x:.1f}" y="{top + 2}" width="{CELL - 1}" height="{ROW - 4}" fill="{back}"/>{text}'
