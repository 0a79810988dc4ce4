#!/usr/bin/env python3
"""Compares `blobcrash explore` with brute force over words, for random scripts.

    python3 tests/explore.py PROGRAM COUNT

Brute force knows nothing of the exploration. It runs the script with a prefix of words, and asks how many words the run took: behind the script
stand scans that fail if their word is 0, so the first one that doesn't fail shows where the one greatest word is. If the run took more words than
the prefix has, brute force continues with 0 and with the greatest word. It ends with the status 1 if a script has other outcomes, and prints it.
"""
import random
import subprocess
import sys

PROGRAM = sys.argv[1]
LIMIT = 60      # leaves of a script
ROOM = 24       # draws of a run


def run(words, script):
    text = 'words ' + ' '.join(words) + '\n' + script if words else script
    done = subprocess.run([PROGRAM], input=text.encode(), capture_output=True, check=False)
    if done.returncode != 0:
        raise SystemExit(f'a run ended with {done.returncode}: {done.stderr.decode()}\n{text}')
    return done.stdout.decode().splitlines()


def run_and_count(prefix, script):
    """The replies to a script's calls, and how many words it took."""
    words = prefix + ['0'] * (ROOM - len(prefix)) + ['max']
    probes = ['config clear', 'config scan 1 2'] + ['scan probe'] * len(words)
    replies = run(words, script + '\n'.join(probes) + '\n')
    own, probed = replies[:-len(probes)], replies[-len(words):]
    left = next(i for i, reply in enumerate(probed) if reply != 'error Injected')
    return own, ROOM - left


class TooMany(Exception):
    pass


def leaves(script, prefix, found):
    """Adds the words and the replies of each leaf below a prefix of words."""
    own, taken = run_and_count(prefix, script)
    if taken > ROOM - 2 or len(found) > LIMIT:
        raise TooMany
    if taken <= len(prefix):
        found.append((prefix, own))
        return
    leaves(script, prefix + ['0'], found)
    leaves(script, prefix + ['max'], found)


def wanted(found, last):
    """What `explore` has to print."""
    outcomes = {}
    for words, replies in found:
        outcomes.setdefault(tuple(replies[-1:] if last else replies), []).append(words)
    lines = []
    for replies, each in outcomes.items():
        first = ', first: words ' + ' '.join(each[0]) if each[0] else ', which draws no words'
        lines += [f'# {len(each)} {"leaf" if len(each) == 1 else "leaves"}{first}', *replies]
    count = f'{len(outcomes)} {"outcome" if len(outcomes) == 1 else "outcomes"}'
    return [*lines, f'# {len(found)} {"leaf" if len(found) == 1 else "leaves"}, all of them; {count}']


def rate(rng):
    return rng.choice(['0 1', '1 2', '1 1', '1 4', '3 4'])


def setting(rng):
    kind = rng.choice(['write', 'write', 'write', 'resize', 'sync', 'open', 'read', 'remove', 'scan', 'clear'])
    if kind == 'write':
        return f'config write {rng.choice(["0 1", "0 1", "1 2"])} {rate(rng)} {rng.choice(["prefix", "subset", "sectors 2"])}'
    if kind == 'resize':
        return f'config resize {rate(rng)} 0 {rng.choice("13")}'
    return 'config clear' if kind == 'clear' else f'config {kind} {rate(rng)}'


def call(rng, opened):
    handle = rng.randrange(max(opened, 1))
    data = ''.join(rng.choice(['61', '62', '63']) for _ in range(rng.randint(1, 3)))
    blob = rng.choice(['p 62', 'q 63'])
    return rng.choice([
        f'write {handle} {rng.randrange(4)} {data}', f'write {handle} {rng.randrange(4)} {data}',
        f'writes {handle} {rng.randrange(4)} {data}', f'resize {handle} {rng.randrange(6)}', f'sync {handle}',
        f'startsync {handle}', 'finish 0', f'read {handle} 0 {rng.randrange(5)}', f'size {handle}', f'close {handle}',
        f'open {blob}', f'loose {blob}', f'admit {blob}', f'remove {blob}', f'scan {blob[0]}', 'crash', 'crash\nreopen'])


def random_script(rng):
    lines = ['image q 63 43574943000000006162'] if rng.random() < 0.3 else []
    lines += [setting(rng) for _ in range(rng.randint(0, 3))] + ['open p 62', f'write 0 0 {rng.choice(["6162", "616263"])}']
    opened = 1
    for _ in range(rng.randint(1, 6)):
        lines.append(setting(rng) if rng.random() < 0.2 else call(rng, opened))
        opened += lines[-1].startswith(('open', 'loose'))
    lines += rng.choice([['crash'], ['crash', 'reopen', 'open p 62', f'read {opened} 0 2'], []])
    return '\n'.join(lines) + '\n'


def main():
    rng = random.Random(39)
    tried, most = 0, 0
    while tried < int(sys.argv[2]):
        script, last, found = random_script(rng), rng.random() < 0.3, []
        try:
            leaves(script, [], found)
        except TooMany:
            continue
        tried += 1
        most = max(most, len(found))
        done = subprocess.run([PROGRAM, 'explore'] + ['--last'] * last, input=script.encode(), capture_output=True, check=False)
        got = done.stdout.decode().splitlines()
        if done.returncode != 0 or got != wanted(found, last):
            print('other outcomes of this script:', script, 'wanted:', *wanted(found, last), 'got:', *got, done.stderr.decode(), sep='\n')
            sys.exit(1)
    print(f'{tried} scripts, {most} leaves at most')


main()
