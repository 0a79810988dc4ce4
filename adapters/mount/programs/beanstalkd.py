#!/usr/bin/env python3
"""beanstalkd with a log that it syncs at each write (-f 0): beanstalkd.py prepare|start|work|check. An operation adds a job and deletes one."""

import os
import socket

from driver import HELD, KEYS, LOST, MOUNT, SCRATCH, judge, last_acknowledged, main, serve, value, work

SOCKET = os.path.join(SCRATCH, "beanstalkd.socket")


def ask(line, body=""):
    """Returns the words of a reply, and the body after it."""
    with socket.socket(socket.AF_UNIX) as connection:
        connection.settimeout(40)
        connection.connect(SOCKET)
        connection.sendall(f"{line}\r\n{body}".encode())
        replies = connection.makefile("rb")
        words = replies.readline().decode().split() or ["none"]
        return words, replies.read(int(words[2])).decode() if words[0] == "FOUND" else ""


def start():
    """Starts the server."""
    os.makedirs(f"{MOUNT}/log", exist_ok=True)
    if os.path.exists(SOCKET):
        os.unlink(SOCKET)
    return 0 if serve(["beanstalkd", "-l", f"unix:{SOCKET}", "-b", f"{MOUNT}/log", "-f", "0", "-s", "10000"], lambda: os.path.exists(SOCKET)) else 1


def change(number):
    """Adds a job with the number of the operation, and deletes the earlier job with its key."""
    text = value(number)
    words, _ = ask(f"put 1 0 60 {len(text)}", f"{text}\r\n")
    return words == ["INSERTED", str(number)] and (number <= KEYS or ask(f"delete {number - KEYS}")[0] == ["DELETED"])


def check():
    """Checks that all acknowledged jobs exist, and no deleted one."""
    last = last_acknowledged()
    jobs = {number: ask(f"peek {number}")[1] for number in range(1, last + 2)}
    back = [number for number in range(1, last - KEYS + 1) if jobs[number]]
    if back:
        print(f"lost: the deletions of {back}")
    return judge({number % KEYS: text for number, text in jobs.items() if text}) or (LOST if back else HELD)


if __name__ == "__main__":
    main({"prepare": lambda: os.mkdir(f"{MOUNT}/log"), "start": start, "work": lambda: work(change), "check": check})
