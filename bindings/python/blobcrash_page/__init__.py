"""A page that shows a run of a store that crashed, call by call: `page(script, replies, told)` returns its HTML, where `told` is what
`blobcrash explain --json` printed."""

from .chart import Exploration, chart_markup, table
from .explored import exploration
from .page import page
from .script import replies_of

__all__ = ["Exploration", "chart_markup", "exploration", "page", "replies_of", "table"]
