"""One seed of tools/crash_run: a program is run on a mount, the power goes off, and what is left is checked."""

import contextlib
import ctypes
import os
import random
import shutil
import signal
import subprocess
import time

import crash_points
from interrupts import interruptible
from mounting import Broken, Failed, Mount, plain_folder

MOUNT_OPTIONS = ("profile", "tear", "keep", "size")
VERDICTS = ("held", "lost", "damaged", "not started", "too slow", "untested")
# Those that are no failure.
FINE = ("held", "untested")
# The status of a check that finds damage.
DAMAGED = 2


def reap_orphans():
    """From here on this process is the parent of all orphans that come from it."""
    ctypes.CDLL(None).prctl(36, 1, 0, 0, 0)  # PR_SET_CHILD_SUBREAPER


def state_and_parent(process):
    """Returns the state and the parent of a process, or None twice if it has ended."""
    with contextlib.suppress(OSError, ValueError), open(f"/proc/{process}/stat", "rb", 0) as file:
        state, parent = file.read().rpartition(b")")[2].split()[:2]
        return state, int(parent)
    return None, None


def children(process):
    """Returns the children of a process: by the kernel's lists of them, or if it keeps none by the parent of each process."""
    if not os.path.exists("/proc/thread-self/children"):
        return [int(name) for name in os.listdir("/proc") if name.isdigit() and state_and_parent(name)[1] == process]
    found = []
    with contextlib.suppress(OSError):
        for thread in os.listdir(f"/proc/{process}/task"):
            with open(f"/proc/{process}/task/{thread}/children", "rb", 0) as file:
                found += map(int, file.read().split())
    return found


def started(spared, by=None):
    """Returns the processes that come from this one, apart from one and what comes from it."""
    found = [child for child in children(by or os.getpid()) if child != spared]
    return found + [below for child in found for below in started(spared, child)]


def waits(process):
    """Whether a process that was killed has ended, or waits in a call."""
    return state_and_parent(process)[0] in (b"D", b"Z", None)


def kill_started(spared, seconds, is_off=False):
    """
    Kills what was started, and waits for its end. Returns whether all of it has ended. While the power is off, a call on the mount can't
    end, and a program may have to wait for the last pages that it mapped: then it waits only until all that is left does so. Orphans are
    children of this process, which is their reaper.
    """
    until, same, before, looks = time.monotonic() + seconds, 0, None, 0
    while True:
        left = sorted(started(spared))
        is_done = not left or (is_off and left == before and all(map(waits, left)))
        same, before = same + 1 if is_done else 0, left
        for process in left:
            with contextlib.suppress(ProcessLookupError, ChildProcessError):
                os.kill(process, signal.SIGKILL)
                os.waitpid(process, os.WNOHANG)
        if same == 2 or time.monotonic() > until:  # one whose parent has just ended may be missed once
            return not left
        looks += 1
        time.sleep(min(0.002 * looks, 0.02))


class Run:
    """One seed. This process is the reaper of all that it starts, and starts nothing else meanwhile."""

    def __init__(self, options, program, seed):
        self.options = options
        self.random = random.Random(seed)
        self.crashes = 0
        self.never_due = []  # the faults that name a call that wasn't made
        other = ["--allow-other"] if options.allow_other else []
        words = [word for name in MOUNT_OPTIONS if getattr(options, name) for word in ("--" + name, getattr(options, name))]
        self.folder = plain_folder("blobcrash-run-")
        acknowledged = os.path.join(self.folder, "acknowledged")
        open(acknowledged, "wb").close()
        try:
            self.mount = Mount(program, "--seed", str(seed), "--acknowledged", acknowledged, *other, *words)
        except Failed:
            shutil.rmtree(self.folder)
            raise
        self.log = open(os.path.join(self.folder, "log"), "wb")
        if options.allow_other:
            os.chmod(self.mount.folder, 0o711)
        self.environment = {**os.environ, "MOUNT": self.mount.at, "SEED": str(seed), "ACKNOWLEDGED": acknowledged}

    def command(self, name):
        """Runs a command, until it ends or the power goes off. Returns its status, or None: the power is off, or `too slow`."""
        text = getattr(self.options, name)
        if not text:
            return 0
        self.log.write(f"# {name}\n".encode())
        self.log.flush()
        process = subprocess.Popen(["sh", "-c", text], env=self.environment, stdin=subprocess.DEVNULL, stdout=self.log,
                                   stderr=self.log, start_new_session=True)
        began = time.monotonic()
        while True:
            took = time.monotonic() - began
            try:
                return process.wait(min(max(0.004, took / 25), 0.05))
            except subprocess.TimeoutExpired:
                if self.mount.control.is_off():
                    return None
                if took > self.options.timeout:
                    return "too slow"

    def prepare(self):
        """Makes what is durable before the program starts."""
        source = self.options.from_folder
        if source and subprocess.run(["cp", "-a", "--", os.path.join(source, "."), self.mount.at]).returncode:
            raise Broken(f"{source} can't be copied")
        status = self.command("prepare")
        if status != 0:
            raise Broken(f"--prepare: {status}{self.tail()}")
        self.mount.ask("settle")

    def end_faults(self):
        """Takes back the faults."""
        keep, tear = self.options.keep or "1/2", self.options.tear or "sectors512"
        kept = f"{keep.replace('/', ' ')} {tear.replace('sectors', 'sectors ')}"
        calm = {"config write": f"config write 0 1 {kept}", "config resize": "config resize 0 1 0 1",
                "failed_sync": "failed_sync keeps", "syncs": "syncs honest", "failed_write": "failed_write mode",
                "edits": f"profile {self.options.profile or 'ext4'}"}
        calls = [fault for fault in self.options.fault if fault.startswith("fail ")]
        if calls:
            self.never_due = [calls[int(number) - 1] for number in self.mount.ask("fail none").split()[2:]]
        for fault in self.options.fault:
            words = fault.split()
            kind = " ".join(words[:2]) if words[0] == "config" else words[0]
            if kind != "fail":
                self.mount.ask(calm.get(kind, f"{kind} 0 1"))

    def crash(self):
        """Kills what runs, and crashes."""
        self.mount.ask("off")
        time.sleep(0.005)  # mostly enough for the program to acknowledge what it has made
        kill_started(self.mount.daemon.pid, 0.2, is_off=True)
        self.mount.ask("crash")
        if not kill_started(self.mount.daemon.pid, 20):
            raise Broken("a process can't be killed")
        self.crashes += 1

    def recover(self):
        """Starts the program and checks it. Returns the verdict, or None if the power went off."""
        for name, bad in (("start", "not started"), ("check", "lost")):
            status = self.command(name)
            if status is None or status == "too slow":
                return status
            if status != 0:
                return "damaged" if name == "check" and status == DAMAGED else bad
        return "held"

    def changing_calls(self):
        """Returns how many changing calls were made."""
        return int(self.mount.control.status()["changing"])

    def run_through(self):
        """Runs without a crash, up to the check. Returns how many changing calls came before the program, and how many it made."""
        self.prepare()
        before = self.changing_calls()
        for name in ("start", "work"):
            self.succeed(name)
        return before, self.changing_calls() - before

    def measure(self):
        """Runs without a crash. Returns the counts from which the crash points are drawn (crash_points.py)."""
        before, calls = self.run_through()
        self.succeed("check")
        if not calls:
            raise Broken("--start and --work change nothing, so that there is no call after which the power could go off")
        line, place = self.options.after_acknowledgement or 1, None
        with contextlib.suppress(Failed):
            place = max(int(self.mount.ask(f"acknowledgement {line}")) - before, 0)
        return {"calls": calls, "acknowledged": self.acknowledged(), "before": place}

    def record(self):
        """Runs without a crash, recorded, into the folder of --out. Returns the counts."""
        os.makedirs(self.options.out, exist_ok=True)
        record = os.path.join(self.folder, "record")
        self.mount.ask(f"record {record}")
        calls = self.run_through()[1]
        self.mount.ask("record stop")
        self.succeed("check")
        path = os.path.join(self.options.out, "run.script")
        shutil.copyfile(record, path)
        return {"record": path, "calls": calls, "acknowledged": self.acknowledged()}

    def succeed(self, name):
        """Runs a command that has to succeed, since there was no crash."""
        status = self.command(name)
        if status != 0:
            raise Broken(f"--{name} without a crash: {status}{self.tail()}")

    def judge(self):
        """Crashes, recovers and checks. Returns the verdict."""
        if not self.options.no_record:
            self.mount.ask(f"record {self.folder}/record")
        self.prepare()
        self.mount.ask(crash_points.command(self.options, self.random))
        for fault in self.options.fault:
            self.mount.ask(fault)
        if self.command("start") == 0:
            self.command("work")
        self.crash()
        self.end_faults()
        self.keep()
        if self.random.random() < 1 / 3:
            self.mount.ask(f"crash-after {self.random.randint(1, max(self.options.stop_after // 4, 4))}")
            verdict = self.recover()
            if verdict is not None and verdict != "held":
                return verdict
            self.crash()
            self.keep()
        verdict = self.recover()
        if verdict is None:
            raise Broken("the power went off without a command")
        return verdict

    def keep(self):
        """Copies what is durable after a crash, and the record, which ends with it. Replaces what an earlier call kept."""
        tree, record = os.path.join(self.folder, "tree"), os.path.join(self.folder, "record")
        shutil.rmtree(tree, ignore_errors=True)
        if subprocess.run(["cp", "-a", "--", os.path.join(self.mount.at, "."), tree], stderr=self.log).returncode:
            self.log.write(b"# the tree isn't complete\n")
        if self.options.no_record:
            return
        shutil.copyfile(record, os.path.join(self.folder, "run.script"))
        if self.mount.control.status()["record"] != "on":
            self.log.write(b"# the record isn't complete\n")

    def acknowledged(self):
        """Returns how many operations were acknowledged."""
        with open(self.environment["ACKNOWLEDGED"], "rb") as file:
            return file.read().count(b"\n")

    def tail(self):
        """Returns the last lines of the commands."""
        self.log.flush()
        with open(self.log.name, "rb") as file:
            return "".join("\n  " + line for line in file.read().decode(errors="replace").splitlines()[-6:])

    def close(self, kept=None):
        """Ends the mount. Moves the log, the record, the acknowledgements and the tree to a folder, or removes them."""
        with contextlib.suppress(Failed):
            self.mount.ask("on")  # so that what is killed can end
        kill_started(self.mount.daemon.pid, 20)
        self.mount.close()
        self.log.close()
        if kept:
            with contextlib.suppress(FileNotFoundError):
                os.unlink(os.path.join(self.folder, "record"))
            shutil.rmtree(kept, ignore_errors=True)
            shutil.move(self.folder, kept)
        shutil.rmtree(self.folder, ignore_errors=True)


def without_a_crash(options, program):
    """Runs the first seed without a crash, to measure or to record it. Returns its counts."""
    run = Run(options, program, options.first)
    try:
        with interruptible():
            return run.record() if options.one == "record" else run.measure()
    finally:
        run.close()


def judge(options, program):
    """
    Runs the first seed. Returns its verdict, its crashes, its acknowledged operations, the end of its log, the folder that has what is
    kept of a failure, and the faults that name a call that wasn't made.
    """
    run, kept, tail = Run(options, program, options.first), None, ""
    try:
        with interruptible():
            verdict, acknowledged = run.judge(), run.acknowledged()
        if verdict == "held" and not acknowledged:
            verdict = "untested"
        if verdict not in FINE:
            os.makedirs(options.out, exist_ok=True)
            kept, tail = os.path.join(options.out, f"seed-{options.first}"), run.tail()
    finally:
        run.close(kept)
    return {"verdict": verdict, "crashes": run.crashes, "acknowledged": acknowledged, "tail": tail, "kept": kept,
            "never_due": run.never_due}
