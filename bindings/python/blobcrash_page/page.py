"""The page: one file of HTML with its style and its program in it, which asks no network."""

import base64
import hashlib
import html
import json
import os

from .chart import chart_markup
from .model import Model
from .script import Script, lines_of

SCRIPTS = ("state.js", "calls.js", "lanes.js", "detail.js", "page.js")

LEGEND = (
    ("durable", "durable"),
    ("pending", "pending: a crash may keep it"),
    ("live", "live: a crash loses it"),
    ("kept", "kept"),
    ("lost", "lost"),
    ("covered", "covered by later durable bytes"),
    ("gap", "zero of a gap"),
    ("cut", "cut off, not durable"),
    ("read", "read"),
    ("ended", "through a stale handle"),
)

# The start of each page, up to the end of its legend.
HEAD = """<!doctype html>
<html lang="en">
<head>
<meta charset="utf-8">
<meta http-equiv="Content-Security-Policy" content="{policy}">
<meta name="viewport" content="width=device-width, initial-scale=1">
<title>{title}</title>
<style>{style}</style>
</head>
<body>
<header>
<h1>{title}</h1>
<p>{summary}</p>
{problems}<ul class="legend">{legend}</ul>
</header>
"""

PAGE = (
    HEAD
    + """{chart}<div id="lanes"></div>
<div id="list" tabindex="0" role="listbox" aria-label="Calls"><div id="rows"></div></div>
<div id="detail" aria-live="polite"></div>
<footer><kbd>↑</kbd> <kbd>↓</kbd> call by call, <kbd>←</kbd> <kbd>→</kbd> to the next crash or failure, <kbd>Enter</kbd> unfolds.
<noscript>This page needs its own script, which the browser does not run.</noscript></footer>
<div id="tip" hidden></div>
<script type="application/json" id="run">{run}</script>
<script>{script}</script>
</body>
</html>
"""
)


def page(script_text, replies_text, told_text, title="What a crash left", chart=None):
    """Returns a page of a script that was run, as a text.

    `replies_text` is what `blobcrash` printed for the script, `told_text` what `blobcrash explain --json` did. `chart` is an
    `Exploration`, if the page is to show one. A ValueError says that the texts are not of one run.
    """
    script = Script(script_text, told_text)
    told = [step.reply for step in script.steps if step.reply is not None]
    if told != lines_of(replies_text):
        raise ValueError("the replies are not those of the explanation")
    model = Model(script)
    style, program = text_of("page.css"), "\n".join(text_of(name) for name in SCRIPTS)
    return PAGE.format(
        policy=html.escape(f"default-src 'none'; style-src {source_of(style)}; script-src {source_of(program)}; base-uri 'none'; form-action 'none'"),
        title=html.escape(title),
        style=style,
        summary=html.escape(summary(script)),
        problems="".join(f'<p class="problem">{html.escape(problem)}</p>\n' for problem in model.problems[:5]),
        legend="".join(f'<li><i class="b {kind}">6b</i>{html.escape(text)}</li>' for kind, text in LEGEND),
        chart=chart_markup(chart) if chart is not None else "",
        run=_data(run_of(script, model, title)),
        script=program,
    )


def run_of(script, model, title):
    """The run as the page's program reads it."""
    return {
        "title": title,
        "preamble": [[step.notes, step.text] for step in script.preamble],
        "lanes": [[lane.partition, lane.name.hex()] for lane in model.lanes],
        "calls": [
            [step.line, step.text, step.reply, step.notes, step.remarks, row.changes, row.marks, row.pending]
            for step, row in zip(script.steps, model.rows)
        ],
        "notes": script.notes,
    }


def summary(script):
    """What the run was, in one sentence."""
    made = [step for step in script.steps if step.reply is not None]
    crashes = sum(step.answer[0] == "crashed" for step in made)
    failures = sum(step.answer[0] == "error" for step in made)
    text = f"{_many(len(made), 'call')}, {_many(crashes, 'crash', 'crashes')}, {_many(failures, 'refused call')}."
    seeds = [step.text for step in script.preamble if step.words[0] == "seed"]
    return " ".join([text] + [f"{seed}." for seed in seeds])


def _many(count, one, more=None):
    return f"{count} {one if count == 1 else more or one + 's'}"


def text_of(name):
    """A file of this package."""
    with open(os.path.join(os.path.dirname(os.path.abspath(__file__)), name), encoding="utf-8") as file:
        return file.read()


def source_of(text):
    """What a policy says of one inline text: its checksum."""
    return "'sha256-" + base64.b64encode(hashlib.sha256(text.encode()).digest()).decode() + "'"


def _data(value):
    """A value as JSON that can't end the element that has it, nor begin another."""
    text = json.dumps(value, separators=(",", ":"))
    return text.replace("&", "\\u0026").replace("<", "\\u003c").replace(">", "\\u003e")
