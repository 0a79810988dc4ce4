"""The page of a diagnosis: the causes, and the calls of the run with what was unsynced, the crash, and the missing sync in its place.
It is one file of HTML without a program, in the style of the page of a run."""

import html

from .page import HEAD, source_of, text_of

# How many columns of rails are drawn, and the width of one.
COLUMNS, WIDTH = 16, 8

PAGE = (
    HEAD
    + """<main>
{causes}
<ul class="ending">{ending}</ul>
{calls}
</main>
</body>
</html>
"""
)

LEGEND = (
    ("unsynced", "an upright line: a file or names that are unsynced"),
    ("sync", "ends it: all of it is durable"),
    ("lost", "lost by the crash"),
    ("missing", "the sync that the program lacks"),
)


def timeline(shown):
    """Returns the page of what `blobcrash diagnose` found: `summary` and `ending`, lines of text; `causes`, objects as of its JSON with a `why`;
    `rows`, the lines of the run, each with `line`, `text`, `kind` and `by`; `rails`, each with `of`, `start`, `end`, `changes` and `slot`; and
    `since`, the line from which on there are crashes."""
    style = "\n".join([text_of("page.css"), text_of("timeline.css"), *_columns()])
    return PAGE.format(
        policy=html.escape(f"default-src 'none'; style-src {source_of(style)}; base-uri 'none'; form-action 'none'"),
        title="Which sync is missing",
        style=style,
        summary=html.escape(shown["summary"]),
        problems="",
        legend="".join(f'<li><span class="b {kind}">{kind}</span> {html.escape(text)}</li>' for kind, text in LEGEND),
        causes="\n".join(_cause(cause) for cause in shown["causes"]),
        ending="".join(f'<li{_inner(line)}>{html.escape(line.strip())}</li>' for line in shown["ending"]),
        calls=_Calls(shown).markup(),
    )


def _columns():
    """The places of the columns: the policy allows no style of an element."""
    yield from (f".rails i.s{slot} {{ left: {slot * WIDTH + 3}px; }}" for slot in range(COLUMNS))
    yield from (f".rails.w{count} {{ width: {count * WIDTH}px; }}" for count in range(COLUMNS + 1))


def _inner(line):
    return ' class="inner"' if line.startswith(" ") else ""


def _cause(cause):
    items = [_item("lost", f"{_named(call)}{_part(call)}") for call in cause.get("lost", [])]
    items += [_item("lost", f"dropped by {_named(call)}, which failed") for call in [cause.get("failed")] if call]
    if cause["at"] and cause["at"]["line"] not in [call["line"] for call in cause.get("lost", [])]:
        items.append(_item("unsynced", _named(cause["at"]), "kept" if cause["class"] == "order" else "then"))
    items += [_item("missing", f"<code>{html.escape(sync['sync'])}</code> before {_link(sync['before'])}") for sync in cause.get("syncs", [])]
    if not cause.get("syncs"):
        items.append("<li>No added sync helps.</li>")
    why = f"<p>{html.escape(cause['why'])}</p>" if cause["why"] else ""
    heading = f"<h2>{cause['cause']}. {html.escape(cause['class'])}</h2>"
    kept = f"<li>The state is in <code>{html.escape(cause['kept'])}</code>.</li>"
    return f'<section class="cause" id="cause{cause["cause"]}">{heading}{why}<ul>{"".join(items)}{kept}</ul></section>'


def _item(kind, markup, word=None):
    return f'<li><span class="b {kind}">{word or kind}</span> {markup}</li>'


def _named(call):
    by = f", by {html.escape(call['process'])}" if call.get("process") else ""
    stack = f", in {html.escape(', '.join(call['stack']))}" if call.get("stack") else ""
    return f"{_link(call['line'])}, <code>{html.escape(call['call'])}</code>{by}{stack}"


def _part(call):
    """Which bytes of a torn write were kept and lost."""
    runs = {what: " ".join(f"{start}..{end}" for start, end in call.get(what, [])) for what in ("kept", "lost")}
    return f": kept {runs['kept']}; lost {runs['lost']}" if runs["kept"] else ""


def _link(line):
    return f'<a href="#L{line}">line {line}</a>'


class _Calls:
    """The rows of the timeline."""

    def __init__(self, shown):
        self.rows, self.rails, self.since = shown["rows"], [rail for rail in shown["rails"] if rail["slot"] < COLUMNS], shown["since"]
        self.width = 1 + max((rail["slot"] for rail in self.rails), default=-1)
        # The causes by the lines that they lose, before which a sync is missing, and after which there is the crash.
        self.lost, self.missing, self.crashes = {}, {}, {}
        for cause in shown["causes"]:
            for call in cause.get("lost", []):
                self.lost.setdefault(call["line"], []).append(cause)
            for sync in cause.get("syncs", []):
                self.missing.setdefault((sync["before"], sync["sync"]), []).append(cause)
            self.crashes.setdefault(cause["at"]["line"] if cause["at"] else 0, []).append(cause)

    def markup(self):
        early = [self._row(row) for row in self.rows if row["line"] <= self.since]
        folded = f"<details><summary>{len(early)} lines before, all of it durable</summary>{''.join(early)}</details>" if early else ""
        parts, by, before = ['<h2 class="calls">The calls</h2>', folded], None, self.since
        if 0 in self.crashes:
            parts.append(self._crash(0))
        for row in self.rows:
            if row["line"] <= self.since:
                continue
            if row["by"] and row["by"] != by:
                by = row["by"]
                parts.append(self._line("by", "", "", self._rails(before, True), html.escape(by)))
            parts += [self._missing(*place) for place in self.missing if place[0] == row["line"]]
            parts.append(self._row(row))
            if row["line"] in self.crashes:
                parts.append(self._crash(row["line"]))
            before = row["line"]
        return "\n".join(parts)

    def _row(self, row):
        line, kind = row["line"], row["kind"]
        lost = self.lost.get(line, [])
        badge = f'<span class="b lost">lost{_numbers(lost)}</span> ' if lost else ""
        if kind == "sync":
            badge = '<span class="b sync">sync</span> '
        if kind == "note" and row["text"].startswith("acknowledged "):
            badge = '<span class="b note">note</span> '
        return self._line(f"{kind} lost" if lost else kind, f' id="L{line}"', line, self._rails(line), badge + html.escape(row["text"]))

    def _missing(self, before, sync):
        """A missing sync, with a bar over the rails of what it would make durable."""
        causes = self.missing[before, sync]
        lines = {call["line"] for cause in causes for call in cause["lost"]}
        bars = "".join(f'<i class="s{rail["slot"]} missed"></i>' for rail in self.rails if lines & set(rail["changes"]) and _is_through(rail, before - 1))
        said = f'<span class="b missing">missing{_numbers(causes)}</span> {html.escape(sync)}'
        return self._line("missing", "", "+", self._rails(before - 1, True) + bars, said)

    def _crash(self, line):
        causes = self.crashes[line]
        if causes[0]["class"] == "no loss":
            said = "The power goes off. Nothing is lost, and the check fails."
        else:
            links = " ".join(f'<a class="b lost" href="#cause{cause["cause"]}">lost {cause["cause"]}</a>' for cause in causes)
            said = f"The power goes off, and the check fails: {links}"
        return self._line("crash", "", "", self._rails(line, True), said)

    def _rails(self, line, is_between=False):
        """The rails at a line, or between it and the next one."""
        found = []
        for rail in self.rails:
            is_last = rail["end"] == line and not is_between
            if not (_is_through(rail, line) or is_last):
                continue
            kinds = [f"s{rail['slot']}"]
            if not is_between:
                kinds += ["from"] * (rail["start"] == line) + ["to"] * is_last + ["changed"] * (line in rail["changes"])
            kinds += ["lost"] * self._is_lost(rail, line)
            found.append(f'<i class="{" ".join(kinds)}" title="{html.escape(rail["of"])}"></i>')
        return "".join(found)

    def _is_lost(self, rail, line):
        """Whether a change of a rail up to this line is lost by a crash after it."""
        return any(
            lost <= line and any(line <= (cause["at"]["line"] if cause["at"] else 0) for cause in self.lost[lost])
            for lost in rail["changes"]
            if lost in self.lost
        )

    def _line(self, kind, place, number, rails, said):
        cells = f'<span class="number">{number}</span><span class="rails w{self.width}">{rails}</span><span class="said">{said}</span>'
        return f'<div class="call {kind}"{place}>{cells}</div>'


def _is_through(rail, line):
    """Whether something of a rail is unsynced after a line."""
    return rail["start"] <= line and (rail["end"] is None or rail["end"] > line)


def _numbers(causes):
    """The numbers of causes, for a label."""
    return " " + " ".join(str(cause["cause"]) for cause in causes)
