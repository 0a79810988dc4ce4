#!/usr/bin/env python3
"""Three nodes that replicate a log, simulated: messages are lost, late or arrive twice, and nodes crash: docs/GUIDE.md.

A client asks a node for a record. A leader appends it to its log and sends the log to the others. Another node first stands for election
in a new term, which it leads once a majority has voted for it. A node that has synced a leader's log reports it to the client.

    replicated.py [--forget-sync]    500 seeds, then every run of two requests with at most one fault

With `--forget-sync` a node votes for another one before its vote is durable. Either search finds this; a short run is shown, with status 1.
"""

import collections
import functools
import os
import sys

sys.path.append(os.path.join(os.path.dirname(os.path.abspath(__file__)), "..", "bindings", "python"))
from blobcrash import Failed, Library, PowerLoss, Store, explore, seeds, shrink

NODES, CLIENT = (1, 2, 3), 0
# A state of a node is a frame of one sector, which a crash keeps or loses as a whole.
FRAME = 512
# What happens to a message: it arrives, is lost, arrives twice or, late, after those in flight and the next request. Or first its node or
# all nodes crash, or the power of its node is to fail at one of the next two calls.
EVENTS = ["arrives", "is lost", "twice", "late", "crash", "crash of all", "power loss"]

# A message has the log of its sender, and in which term a leader sent that. A request has the record.
Message = collections.namedtuple("Message", "kind to sender term log_term log")


class Node:
    """A node. Its blob has a frame for each of its states: its term, its vote, the term of its log, and a byte for each record."""

    def __init__(self, number, forgets_sync):
        self.number, self.others, self.forgets_sync = number, set(NODES) - {number}, forgets_sync
        self.store = Store(settings=[f"write 0 1 1 2 sectors {FRAME}"], pushed=True, by=Library)
        self.load()

    def load(self):
        """Goes on with the last durable state. It is the greatest, since states only grow, and lost frames before it are zeros."""
        self.blob, self.end = self.store.open("node", b"states")
        data = self.blob.read(0, self.end)
        state = max((data[at : at + FRAME] for at in range(0, self.end, FRAME)), default=bytes(FRAME))
        self.term, self.vote, self.log_term, self.log = *state[:3], state[3:].rstrip(b"\0")
        self.synced, self.voters, self.record = self.end, set(), b""

    def save(self, sync=True):
        self.blob.write(self.end, bytes([self.term, self.vote, self.log_term, *self.log]).ljust(FRAME, b"\0"))
        self.end += FRAME
        if sync:
            self.blob.sync()
            self.synced = self.end

    def ask(self, record):
        """Appends a record, or stands for election. Returns messages."""
        self.record = record
        if len(self.voters) >= 2:
            return self.append()
        self.term, self.vote, self.voters = self.term + 1, self.number, {self.number}
        self.save()
        return self.messages("stand", self.others)

    def append(self):
        self.log_term, self.log, self.record = self.term, self.log + self.record, b""
        self.save()
        return self.messages("log", self.others)

    def messages(self, kind, to):
        return [Message(kind, one, self.number, self.term, self.log_term, self.log) for one in sorted(to)]

    def receive(self, message):
        """Handles a message, and returns others."""
        if message.kind == "ask":
            return self.ask(message.log)
        if message.term > self.term:
            self.term, self.vote, self.voters = message.term, 0, set()
        if message.term < self.term:
            return []
        is_current = (message.log_term, len(message.log)) >= (self.log_term, len(self.log))
        if message.kind == "stand" and is_current and self.vote in (0, message.sender):
            self.vote = message.sender
            self.save(sync=not self.forgets_sync)
            return self.messages("vote", {message.sender})
        if message.kind == "vote" and len(self.voters) < 2:
            self.voters.add(message.sender)
            return self.append() if len(self.voters) == 2 else []
        if message.kind == "log":
            if is_current:
                self.log_term, self.log = message.log_term, message.log
                self.save()
            return self.messages("synced", {CLIENT})
        return []


class Simulation:
    """The nodes, the messages in flight, and what must hold. The store of the run has no data: it chooses all that happens.

    Each node has a store of its own, so that it can crash alone. The draws and power losses that `explore` tries are those of the run's
    store, so here the run chooses them, and the script of a failure has only notes: its path makes the run again. There is no clock.
    What the test doesn't choose isn't tried: no crash tears a frame, and no call fails.
    """

    def __init__(self, run, requests, forgets_sync):
        self.run, self.nodes = run, {number: Node(number, forgets_sync) for number in NODES}
        self.records, self.flight = list(range(1, requests + 1)), []
        self.votes, self.leaders, self.acknowledged = {}, [], []

    def ask(self):
        """Asks some node for the next record, if there is one."""
        if self.records:
            self.flight.append(Message("ask", NODES[self.run.choose(3)], CLIENT, 0, 0, bytes([self.records.pop(0)])))

    def deliver(self, message, event):
        self.run.note(f"{message.kind} from {message.sender} to {message.to}, term {message.term}: {event}")
        node = self.nodes[message.to]
        if event == "late":
            self.ask()
        if event in ("late", "twice"):
            self.flight.append(message)
        if event in ("late", "is lost"):
            return
        if event in ("crash", "crash of all"):
            for crashing in [node] if event == "crash" else self.nodes.values():
                self.crash(crashing)
        if event == "power loss":
            node.store.crash_after(self.run.choose(2))
        try:
            messages = node.receive(message)
        except PowerLoss:
            return self.crash(node)
        for message in messages:
            self.check(message)
        self.flight += [message for message in messages if message.to != CLIENT]

    def crash(self, node):
        """Crashes a node, and lets it recover. The run chooses which of its frames are kept that aren't synced."""
        frames = (node.end - node.synced) // FRAME
        node.store.push_words([self.run.choose(2) * (2**64 - 1) for _ in range(frames)])
        node.store.recover(node.load)
        self.run.note(f"{node.number} crashed, and is in term {node.term}")

    def check(self, message):
        """Checks what must hold whenever a message is sent."""
        if message.kind in ("stand", "vote"):
            candidate = message.to if message.kind == "vote" else message.sender
            voted = self.votes.setdefault((message.sender, message.term), candidate)
            assert voted == candidate, f"{message.sender} votes twice in term {message.term}"
        if message.kind == "log":
            self.leaders.append(message)
        if message.kind == "synced":  # By a majority, since the leader had synced it before.
            self.acknowledged.append(message)
        for synced in self.acknowledged:
            for leader in self.leaders:
                is_kept = leader.term <= synced.term or leader.log.startswith(synced.log)
                assert is_kept, f"leader {leader.term} lacks a record of term {synced.term}"


def simulate(run, requests, faults, events, forgets_sync):
    """One run, with at most this many faults."""
    simulation = Simulation(run, requests, forgets_sync)
    while simulation.records or simulation.flight:
        if not simulation.flight:
            simulation.ask()
        event = events[run.choose(len(events))] if faults else "arrives"
        faults -= event != "arrives"
        simulation.deliver(simulation.flight.pop(0), event)


def breaks(body, search, *arguments, **options):
    """Whether a search finds a run that breaks a promise. Prints the shortest that `shrink` finds."""
    try:
        print(f"{search.__name__}: {search(body, *arguments, **options).runs} runs, none breaks a promise")
    except Failed as failed:
        print(f"{search.__name__}: {shrink(body, failed)}")
        return True
    return False


def main(arguments):
    body = functools.partial(simulate, forgets_sync="--forget-sync" in arguments)
    large = functools.partial(body, requests=8, faults=20, events=EVENTS + ["arrives"] * 40)
    small = functools.partial(body, requests=2, faults=1, events=EVENTS)
    return int(breaks(large, seeds, 500, by=Library) | breaks(small, explore))


if __name__ == "__main__":
    sys.exit(main(sys.argv[1:]))
