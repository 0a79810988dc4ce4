"""A chart of an exploration: how many runs came to each outcome, and which single draw decides most.

    Exploration([("bytes 6161", 12), ("bytes 6162", 4)], draws=[(8, 1, 8, 3)])

has the outcomes with how many runs came to each. Of each draw it has how many runs made it as true, and how many of these failed,
and the same as false. `table` tells it in a terminal, `chart_markup` in a page.
"""

import html


class Exploration:
    def __init__(self, outcomes, draws=()):
        self.outcomes = sorted(outcomes, key=lambda outcome: -outcome[1])
        self.draws = list(draws)

    def deciding(self):
        """The draws with their numbers, the one that decides most first: by how far the shares of failing runs are apart. One that
        no run made both ways comes last."""
        rows = [(number, *draw) for number, draw in enumerate(self.draws)]
        return sorted(rows, key=lambda row: (-_apart(*row[1:]), row[0]))


def _apart(true, true_fails, false, false_fails):
    return abs(true_fails / true - false_fails / false) if true and false else 0.0


def _share(part, whole):
    return part / whole if whole else 0.0


def table(exploration, width=80, most=12):
    """The chart as lines of a terminal."""
    total = sum(count for _, count in exploration.outcomes)
    lines = [f"{total} runs, {len(exploration.outcomes)} outcomes"]
    for label, count in exploration.outcomes[:most]:
        bar = "#" * max(1, round(24 * _share(count, total)))
        lines.append(f"{count:>10} {_share(count, total):>6.1%} {bar:<24} {label}"[:width])
    if len(exploration.outcomes) > most:
        lines.append(f"{len(exploration.outcomes) - most:>10} more outcomes")
    if exploration.draws:
        lines.append("")
        lines.append(f"{'draw':>5} {'fails if true':>20} {'fails if false':>20}")
        for number, true, true_fails, false, false_fails in exploration.deciding()[:most]:
            lines.append(f"{number:>5} {_of(true_fails, true):>20} {_of(false_fails, false):>20}")
    return "\n".join(lines)


def _of(part, whole):
    return f"{part} of {whole} ({_share(part, whole):.0%})" if whole else "never drawn"


def chart_markup(exploration, most=30):
    """The chart as a section of a page."""
    total = sum(count for _, count in exploration.outcomes) or 1
    rows = "".join(
        f'<tr><td class="count">{count}</td><td>{_meter(count, total)}</td><td><code>{html.escape(label)}</code></td></tr>'
        for label, count in exploration.outcomes[:most]
    )
    text = f'<section class="chart"><h2>{total} runs, {len(exploration.outcomes)} outcomes</h2><table>{rows}</table>'
    if exploration.draws:
        rows = "".join(
            f"<tr><td>draw {number}</td><td>{_meter(tf, t)}</td><td>{_of(tf, t)}</td><td>{_meter(ff, f)}</td><td>{_of(ff, f)}</td></tr>"
            for number, t, tf, f, ff in exploration.deciding()[:most]
        )
        text += (
            "<h2>Which draw decides: how many runs fail</h2><table>"
            '<tr><th></th><th colspan="2">if it is true</th><th colspan="2">if it is false</th></tr>' + rows + "</table>"
        )
    return text + "</section>\n"


def _meter(part, whole):
    return f'<meter min="0" max="{max(whole, 1)}" value="{part}">{_of(part, whole)}</meter>'
