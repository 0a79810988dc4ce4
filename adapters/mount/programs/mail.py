#!/usr/bin/env python3
"""Delivery to a Maildir: mail.py prepare|work|check procmail|maildrop|python|dovecot. A message is an operation."""

import glob
import mailbox
import os

from driver import DAMAGED, MOUNT, SCRATCH, as_user, judge_numbers, main, run, value, work

BOX, RULES, MESSAGE = f"{MOUNT}/mail", os.path.join(SCRATCH, "rules"), os.path.join(SCRATCH, "message")
DELIVER = {
    "procmail": (f"MAILDIR={MOUNT}\nDEFAULT={BOX}/\n", ["procmail", "-m", RULES]),
    "maildrop": (f'to "{BOX}/."\n', ["maildrop", RULES]),
    "dovecot": ("", ["/usr/lib/dovecot/dovecot-lda", "-c", "/dev/null", "-o", f"mail_location=maildir:{BOX}", "-o", "mail_fsync=always",
                     "-o", "log_path=/dev/stderr", "-o", "first_valid_uid=1", "-o", "ssl=no"]),
}


def prepare(kind):
    """Makes the folders."""
    for name in ("new", "cur", "tmp"):
        os.makedirs(f"{BOX}/{name}")
    if kind == "dovecot":
        run("chown", "-R", "mail:", BOX)


def deliver(kind, number):
    """Delivers a message."""
    text = f"From: a@localhost\nSubject: {number}\n\n{value(number)}\n"
    if kind == "python":
        box = mailbox.Maildir(BOX)
        box.add(text)
        box.flush()
        return True
    for path, content in ((RULES, DELIVER[kind][0]), (MESSAGE, text)):
        with open(path, "w", encoding="ascii") as file:
            file.write(content)
        os.chmod(path, 0o600)
    with open(MESSAGE, encoding="ascii") as file:
        return run(*DELIVER[kind][1], stdin=file, **(as_user("mail") if kind == "dovecot" else {})) is not None


def check(_):
    """All acknowledged messages are there, each whole."""
    numbers = []
    for path in glob.glob(f"{BOX}/new/*") + glob.glob(f"{BOX}/cur/*"):
        with open(path, encoding="ascii", errors="replace") as file:
            lines = file.read().splitlines()
        number = next((int(line.split()[1]) for line in lines if line.startswith("Subject: ")), 0)
        if lines[-1:] != [value(number)]:
            print(f"damaged: {path}, with {len(lines)} lines")
            return DAMAGED
        numbers.append(number)
    return judge_numbers(sorted(numbers))


if __name__ == "__main__":
    main({"prepare": prepare, "work": lambda kind: work(lambda number: deliver(kind, number), 50), "check": check})
