"""tools/crash_run: takes a program through the seeds, in processes of their own. crash_options.py has the options."""

import argparse
import itertools
import json
import os
import shlex
import subprocess
import sys

import crash_options
import interrupts
from crash_options import TOP, of_seed, parse
from crash_points import Points
from crash_runs import FINE, VERDICTS, judge, reap_orphans, without_a_crash
from crash_swarm import drawn
from losses import described
from mounting import Broken, Failed

DIAGNOSE = os.path.join(TOP, "tools", "diagnose")
TOOL = os.path.join(TOP, "tools", "crash_run")
PROGRAM = os.path.join(TOP, "blobcrash") if os.path.isdir(os.path.join(TOP, "crates")) else "blobcrash"


def run_one(options, built=None):
    """Runs one seed in this process. `built` is the path of the daemon. Returns its result as a line."""
    reap_orphans()
    try:
        result = (judge if options.one == "judge" else without_a_crash)(options, built or program())
    except (Broken, Failed) as error:
        result = {"error": str(error)}
    except KeyboardInterrupt:
        result = {"error": "interrupted"}
    return json.dumps(result)


def program():
    """Returns the path of the daemon."""
    build = subprocess.Popen(["sh", os.path.join(TOP, "adapters", "mount", "build.sh")], stdout=subprocess.PIPE, text=True)
    try:
        with interrupts.interruptible():
            built = build.communicate()[0]
    except KeyboardInterrupt:
        build.terminate()
        build.wait()
        raise
    if build.returncode:
        sys.exit(build.returncode)
    return built.strip()


def start(executor, words, one):
    """Gives one seed to a worker."""
    if hasattr(executor, "run_line"):
        return executor.submit(executor.run_line, json.dumps(["--one", one, *words]))
    command = [sys.executable, "-S", TOOL, "--one", one, *words]  # a worker of a cluster builds on its machine
    return executor.submit(subprocess.run, command, cwd=os.getcwd(), stdin=subprocess.DEVNULL, stdout=subprocess.PIPE, text=True)


def result_of(task):
    """Waits for the result of a seed. A signal may interrupt this, but not `start`: a lock of an executor would stay locked."""
    with interrupts.interruptible():
        ran = task.result()
        try:
            result = json.loads(ran.stdout.splitlines()[-1])
        except (IndexError, ValueError):
            raise Broken(f"a run ended with status {ran.returncode}") from None
        if "error" in result:
            raise Broken(result["error"])
    return result


def judge_all(executor, words_of, seeds, at_once):
    """Yields each seed with its result, in order. At most so many are under way or wait for their turn."""
    waiting, tasks = iter(seeds), {}
    for seed in seeds:
        for next_one in itertools.islice(waiting, max(0, at_once - len(tasks))):
            tasks[next_one] = start(executor, words_of(next_one), "judge")
        yield seed, result_of(tasks.pop(seed))


class Totals:
    """What the seeds of a row of the table so far came to."""

    def __init__(self, options, words, progress, points=None):
        self.options, self.words, self.progress, self.points = options, words, progress, points
        self.counts = dict.fromkeys(VERDICTS, 0)
        self.crashes = self.acknowledged = 0
        self.is_diagnosed = not options.diagnose
        self.never_due = set(options.fault)

    def __str__(self):
        return f"{sum(self.counts.values())} of {self.options.seeds} seeds{self.where}, {self.failed} failed"

    @property
    def where(self):
        """The profile, if there are several."""
        return f" on {self.options.profile}" if self.options.profiles else ""

    @property
    def failed(self):
        """How many failed."""
        return sum(count for verdict, count in self.counts.items() if verdict not in FINE)

    def measure(self, executor):
        """Runs without a crash."""
        options = self.options
        points = [word for name in ("stop_after", "from_call", "after_acknowledgement") if getattr(options, name) is not None
                  for word in ("--" + name.replace("_", "-"), str(getattr(options, name)))]
        self.points = Points(options, result_of(start(executor, of_seed(self.words, options.first, points), "measure")))

    def drawn(self, seed):
        """Returns the words that --swarm draws."""
        return drawn(self.options, seed) if self.options.swarm else []

    def words_of(self, seed):
        """Returns the words that run one seed."""
        return of_seed(self.words, seed, [*self.points.words(seed), *self.drawn(seed)])

    def run(self, executor, at_once):
        """Runs the seeds."""
        options = self.options
        if not self.points:
            self.measure(executor)
        seeds = range(options.first, options.first + options.seeds)
        for seed, result in judge_all(executor, self.words_of, seeds, at_once):
            self.counts[result["verdict"]] += 1
            self.crashes += result["crashes"]
            self.acknowledged += result["acknowledged"]
            self.never_due &= set(result["never_due"])
            if result["kept"] or (options.swarm and not options.json):
                self.progress.clear()
                with interrupts.interruptible():
                    (self.print_json if options.json else self.print_seed)(seed, result)
                    if result["kept"] and not self.is_diagnosed:
                        self.is_diagnosed = True
                        json_too = ["--json"] if options.json else []
                        subprocess.run([DIAGNOSE, *json_too, *self.diagnosed(seed, result)], stdin=subprocess.DEVNULL, check=False)
            self.progress.show(self.__str__)

    def again(self, seed):
        """Returns the command that runs a seed again."""
        tool = os.path.relpath(TOOL) if os.path.samefile(TOP, ".") else TOOL
        return shlex.join([tool, *self.words_of(seed)])

    def diagnosed(self, seed, result):
        """Returns the words by which `blobcrash diagnose` checks what is in STATE as on the mount."""
        check = f"MOUNT=$STATE SEED={seed}; export MOUNT SEED; {self.options.check}"
        out = os.path.join(result["kept"], "diagnosis")
        return ["--out", out, os.path.join(result["kept"], "run.script"), "--", "sh", "-c", check]

    def status(self):
        """Returns the exit status. Says so if no acknowledgement was tested, or if no seed made the call of a fault."""
        for fault in sorted(self.never_due):
            print(f"crash_run: no seed made the call of --fault {shlex.quote(fault)}{self.where}", file=sys.stderr)
        if self.counts["untested"] == self.options.seeds:
            why = "a seed" if self.points.acknowledges else "--work, which writes nothing to $ACKNOWLEDGED"
            print(f"crash_run: no acknowledgement was tested by {why}{self.where}", file=sys.stderr)
            return 2 if self.points.acknowledges else 0
        return int(self.failed > 0)

    def print_seed(self, seed, result):
        """Prints a failure, with what it lost and the commands that replay and repeat it. Of other seeds only what was drawn."""
        words = f" ({shlex.join(self.drawn(seed))})" if self.options.swarm else ""
        lines = [f"seed {seed}{self.where}: {result['verdict']}{words}{result['tail']}"]
        if result["kept"]:
            script = os.path.join(result["kept"], "run.script")
            for title, found in zip(("what the crash lost:", "the last calls before it:"), described(PROGRAM, script)):
                lines += [f"  {title}", *(f"    {line}" for line in found)] if found else []
            if os.path.exists(os.path.join(result["kept"], "tree")):
                lines.append(f"  the durable tree: {result['kept']}/tree")
            if os.path.exists(script):
                lines.append(f"  replay: (cat {shlex.quote(script)}; echo tree) | {shlex.quote(PROGRAM)} files | tail -n 1")
                if not self.options.start:
                    lines.append(f"  diagnose: {shlex.quote(PROGRAM)} diagnose {shlex.join(self.diagnosed(seed, result))}")
            lines.append(f"  again: {self.again(seed)}")
        print("\n".join(lines), flush=True)

    def print_json(self, seed, result):
        """Prints a failure as an object."""
        lost, calls = described(PROGRAM, os.path.join(result["kept"], "run.script"))
        about = {"profile": self.options.profile} if self.options.profiles else {"drawn": self.drawn(seed)} if self.options.swarm else {}
        print(json.dumps({"seed": seed, "verdict": result["verdict"], "kept": result["kept"], "again": self.again(seed), "lost": lost,
                          "calls": calls, **about}), flush=True)

    def print_row(self, is_first):
        """Prints the row of the table of all seeds, the first one with the names above it, or an object."""
        options = self.options
        profile = "swarm" if options.swarm else options.profile or "ext4"
        row = {"profile": profile, "seeds": options.seeds, "calls": options.stop_after or self.points.calls, "crashes": self.crashes,
               "acknowledged": self.acknowledged, **self.counts}
        if options.json:
            print(json.dumps(row), flush=True)
            return
        if is_first:
            print(f"| {' | '.join(row)} |\n|---|{'---|' * (len(row) - 1)}")
        print("| " + " | ".join(map(str, row.values())) + " |", flush=True)


def rows_of(options, words):
    """Returns the options and the words of each row: one, or one for each profile, whose failures are kept below --out."""
    rows = []
    for profile in options.profiles or []:
        more = ["--profile", profile, "--out", os.path.join(options.out, profile)]
        rows.append((argparse.Namespace(**{**vars(options), "profile": profile}), [*words, *more]))
    return rows or [(options, words)]


def progress_line():
    """Returns the line of a terminal that shows how far the seeds are."""
    sys.path.append(os.path.join(TOP, "bindings", "python"))
    from blobcrash.progress import Progress

    return Progress("crash_run")


def print_record(made):
    """Says where a record is. Returns the status."""
    print(f"the record: {made['record']}, {made['calls']} changing calls, {made['acknowledged']} acknowledgements", flush=True)
    return 0


def main(words, executor=None):
    """Runs all. Returns the exit status."""
    if words in (["--help"], ["-h"]):
        print(crash_options.__doc__.strip())
        return 0
    options = parse(words)
    interrupts.install()
    if options.one:
        print(run_one(options))
        return 0
    own = None
    at_once = 2 * options.jobs if executor is None else 2 * (getattr(executor, "_max_workers", None) or 64)
    progress, points, status = progress_line(), None, 0
    totals = Totals(options, words, progress)
    try:
        built = program()
        if executor is None:
            from crash_workers import Workers

            own = Workers(min(options.jobs, options.seeds), lambda line: run_one(parse(json.loads(line)), built))
        if options.record_only:
            return print_record(result_of(start(own or executor, of_seed(words, options.first, []), "record")))
        for number, (of_row, words_of_row) in enumerate(rows_of(options, words)):
            totals = Totals(of_row, words_of_row, progress, points)
            totals.run(own or executor, at_once)
            points = totals.points
            progress.clear()
            totals.print_row(number == 0)
            status = max(status, totals.status())
    except (Broken, Failed) as error:
        print(f"crash_run: {error}", file=sys.stderr)
        return 3 if "docker run" in str(error) or "fusermount3" in str(error) else 2
    except KeyboardInterrupt:
        done = sum(totals.counts.values())
        where = f" --profile {totals.options.profile}" if options.profiles else ""
        progress.tell(f"interrupted after {totals}. To go on: --first {options.first + done} --seeds {options.seeds - done}{where}")
        return 130
    finally:
        progress.clear()
        if own:
            own.end()
    return status
