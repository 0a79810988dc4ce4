"""
Settings that --swarm draws for each seed: a profile, how a write tears, how much a crash keeps, a rate of faults and switches. `syncs lie` and
`edits any` aren't drawn: with these programs lose what they needn't, and nothing is found.
"""

import random

PROFILES = ("ext4", "xfs", "btrfs", "posix")
_TEARS = ("prefix", "subset", "sectors512", "sectors4096")
_KEEPS = ("0/1", "1/8", "1/2", "7/8", "1/1")
_ONE_IN = (5, 20, 100, 500)


def drawn(options, seed):
    """Returns the words of a seed: what the options of the whole run say isn't drawn."""
    draw = random.Random(f"swarm {seed}")
    chosen = {"profile": draw.choice(PROFILES), "tear": draw.choice(_TEARS), "keep": draw.choice(_KEEPS)}
    words = [word for name, value in chosen.items() if not getattr(options, name) for word in ("--" + name, value)]
    keep, tear = options.keep or chosen["keep"], options.tear or chosen["tear"]
    faults = _faults(draw, keep.replace("/", " "), tear.replace("sectors", "sectors "))
    return words if options.fault else [*words, *(word for fault in faults for word in ("--fault", fault))]


def _faults(draw, keep, tear):
    """Draws faults: none in half of the seeds, else a kind or two, with what a failed call leaves."""
    if draw.random() < 0.5:
        return []
    rate = draw.choice(_ONE_IN)
    kinds = {"sync": f"config sync 1 {rate}", "write": f"config write 1 {rate} {keep} {tear}", "resize": f"config resize 1 {rate} 1 2",
             "open": f"config open 1 {rate}"}
    chosen = draw.sample(sorted(kinds), draw.choice((1, 1, 2)))
    faults = [kinds[kind] for kind in chosen]
    if "sync" in chosen:
        faults.append(f"failed_sync {draw.choice(('keeps', 'drops'))}")
    if "write" in chosen:
        faults.append(f"failed_write {draw.choice(('mode', 'prefix'))}")
    return faults
