"""After which call the power goes off: what a run without a crash says of it, and the options of each seed."""

from mounting import Broken


class Points:
    """
    The crash points of a run. `measured` is what the run without a crash came to: its changing `calls`, its `acknowledged` lines, and how many
    calls came `before` the one that --after-acknowledgement names, or before the first one.
    """

    def __init__(self, options, measured):
        self.calls = measured["calls"]
        self.acknowledges = measured["acknowledged"] > 0
        self._options, self._before = options, measured["before"]
        line, call = options.after_acknowledgement, options.from_call
        if line and self._before is None:
            raise Broken(f"the run without a crash acknowledges only {measured['acknowledged']} times")
        if call and call > self.calls:
            raise Broken(f"the run without a crash makes only {self.calls} changing calls")

    def words(self, seed):
        """Returns the options of a seed. They repeat it without a run that is measured before."""
        options = self._options
        if options.after_acknowledgement:
            return self._after(options.after_acknowledgement)
        if options.from_call:
            count = options.stop_after or self.calls - options.from_call + 1
            return ["--from-call", str(options.from_call), "--stop-after", str(count)]
        if options.stop_after is None and self.acknowledges and seed % 2 == 0:
            return self._after(1)
        return ["--stop-after", str(options.stop_after or self.calls)]

    def _after(self, line):
        stop_after = self._options.stop_after
        count = max(self.calls - self._before, 0) if stop_after is None else stop_after
        return ["--after-acknowledgement", str(line), "--stop-after", str(count)]


def command(options, draw):
    """Returns the command of the control socket that switches the power off, by the options of one seed."""
    if options.after_acknowledgement:
        return f"crash-after {draw.randint(0, options.stop_after)} {options.after_acknowledgement}"
    first = options.from_call or 1
    return f"crash-after {draw.randint(first, first + options.stop_after - 1)}"
