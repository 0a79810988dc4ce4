"""Random scripts, asked of the program a line at a time: each read asks for what the handle's size allows."""

import random
import subprocess


class Asked:
    """A run of the program. `lines` has what was asked."""

    def __init__(self, program, preamble):
        self._process = subprocess.Popen([program], stdin=subprocess.PIPE, stdout=subprocess.PIPE, text=True)
        self.lines = []
        for line in preamble:
            self._send(line)

    def _send(self, line):
        self.lines.append(line)
        self._process.stdin.write(line + "\n")
        self._process.stdin.flush()

    def ask(self, line):
        self._send(line)
        return self._process.stdout.readline().split()

    def close(self):
        self._process.stdin.close()
        self._process.wait()
        self._process.stdout.close()


def random_script(program, seed, calls=60):
    """The text of a random script: faults of every kind, several handles of one blob, stale ones, crashes."""
    chance = random.Random(seed)
    run = Asked(program, [f"seed {seed}"])
    handles, started = [], 0
    modes = ["prefix", "subset", "sectors 4", "sectors 3"]

    def configure():
        writes = f"{chance.choice(['0 1', '1 4', '1 2'])} {chance.choice(['0 1', '1 2', '2 3', '1 1'])} {chance.choice(modes)}"
        return chance.choice([f"write {writes}", f"write {writes}", "sync 1 4", "sync 0 1", "resize 1 2 1 2", "resize 1 3 0 1", "clear"])

    def data():
        return bytes(chance.randrange(256) for _ in range(chance.choice([0, 1, 3, 8, 20]))).hex() or "-"

    for _ in range(calls):
        kind = chance.choices(
            ["config", "open", "loose", "write", "writes", "resize", "sync", "startsync", "finish", "read", "close", "remove", "admit", "crash", "reopen"],
            [3, 5, 2, 14, 5, 5, 3, 2, 1, 8, 1, 1, 1, 4, 2],
        )[0]
        name = chance.choice(["62", "63"])
        if kind == "config":
            run.ask("config " + configure())
        elif kind in ("open", "loose"):
            told = run.ask(f"{kind} p {name}")
            handles += [told[1]] if told[0] == "opened" else []
        elif kind == "finish":
            run.ask(f"finish {chance.randrange(started + 1)}")
        elif kind == "remove":
            run.ask(chance.choice([f"remove p {name}", "remove p"]))
        elif kind == "admit":
            run.ask(f"admit p {name}")
        elif kind in ("crash", "reopen"):
            run.ask(kind)
        elif handles:
            handle = chance.choice(handles[-3:])
            if kind in ("write", "writes"):
                run.ask(f"{kind} {handle} {chance.randrange(24)} {data()}")
            elif kind == "resize":
                run.ask(f"resize {handle} {chance.randrange(28)}")
            elif kind == "startsync":
                started += run.ask(f"startsync {handle}")[0] == "started"
            elif kind == "read":
                size = run.ask(f"size {handle}")
                if size[0] == "size":
                    run.ask(f"read {handle} 0 {size[1]}")
            else:
                run.ask(f"{kind} {handle}")
    for handle in handles:
        size = run.ask(f"size {handle}")
        if size[0] == "size":
            run.ask(f"read {handle} 0 {size[1]}")
    run.close()
    return "\n".join(run.lines) + "\n"
