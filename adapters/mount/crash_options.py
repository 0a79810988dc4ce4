"""
tools/crash_run --work CMD --check CMD [options]: crashes a program on a mount, once or twice for each seed, and checks what is left.

First it is run without a crash, and checked. For each seed: a new mount; CMD of --prepare, after which everything is durable; CMD of --start,
then CMD of --work, until the power goes off after a call that the seed draws. What runs is killed, the layer crashes, and the program is
started again and checked. In a third of the seeds the power goes off in that recovery too.

  --seeds N          how many seeds (20)
  --first N          the first of them (1)
  --jobs N           how many of them run at once (1)
  --prepare CMD      makes what is durable before the program starts
  --from FOLDER      copies a folder in before that
  --start CMD        starts the program, and returns when it serves; not needed if the other commands do that
  --work CMD         the workload. It acknowledges by lines in the file $ACKNOWLEDGED, which is outside the mount
  --check CMD        exits with 0 if all that was acknowledged is found, 2 if what is found is damaged, otherwise with 1
  --fault SETTING    faults from the start of the program until the first crash, such as 'config sync 1 12', one sync of 12 fails;
                     any setting of tools/mountctl. May be repeated
  --after-acknowledgement N   the power goes off after line N of $ACKNOWLEDGED, at once or some calls later
  --from-acknowledged   the same after the first line. Without an option of crash points seeds with an even number do this
  --from-call N      the power goes off after changing call N or a later one
  --stop-after N     it goes off after one of the first N changing calls, counted from the acknowledgement or from that call, if one is
                     named (as many as the run without a crash makes)
  --profiles LIST    a row for each of these profiles, with commas between them, or for `all`
  --swarm            draws for each seed a profile, --tear, --keep, faults and switches, and prints them; what is given isn't drawn
  --timeout SECONDS  how long a command may take (60)
  --out FOLDER       where failures are kept (out/crash_run)
  --no-record        doesn't record the runs
  --diagnose         names the sync that the first failing seed lacks, by `blobcrash diagnose`; not with --start
  --record-only      runs it without a crash alone, and keeps the record as run.script in --out, for tools/states
  --json             prints JSON, an object a line: one for each failure, and one at the end
  --profile, --tear, --keep, --size, --allow-other   as for tools/mount

A command is run by sh in this folder, with MOUNT, the folder of the mount, ACKNOWLEDGED and SEED in the environment. A seed is `held` if the
check succeeded and something was acknowledged before it, and `untested` if nothing was.
Exit statuses: 0 if nothing failed; 1 if a seed failed; 2 for bad options, if a command fails without a crash, if the start and the workload
change nothing, or if they acknowledge something and no seed tested it; 3 without FUSE; 130 after Ctrl-C, with the counts so far. A terminal
shows how far it is.

From Python: `main(words, executor)` of crash_seeds with the words of a command line and an executor of `concurrent.futures`, which may
be that of a cluster: each seed is a process of its own on one of its workers. The repository has the same path on each of them.
"""

import argparse
import os

from crash_runs import MOUNT_OPTIONS
from crash_swarm import PROFILES

TOP = os.path.dirname(os.path.dirname(os.path.dirname(os.path.realpath(__file__))))
# Where failures are kept: an installed tool keeps them in the current folder.
KEPT = os.path.join(TOP if os.path.isdir(os.path.join(TOP, "crates")) else os.getcwd(), "out", "crash_run")
# The options that say after which call the power goes off.
POINTS = ("--stop-after", "--from-call", "--after-acknowledgement", "--from-acknowledged")
# Those that take no word after them.
_FLAGS = ("--from-acknowledged", "--swarm", "--record-only", "--diagnose")


def parse(words):
    """Returns the options."""
    parser = argparse.ArgumentParser(prog="crash_run", usage=__doc__.strip(), add_help=False, allow_abbrev=False)
    parser.add_argument("--seeds", type=int, default=20)
    parser.add_argument("--first", type=int, default=1)
    parser.add_argument("--from", dest="from_folder")
    parser.add_argument("--jobs", type=int, default=1)
    parser.add_argument("--stop-after", type=int)
    place = parser.add_mutually_exclusive_group()
    place.add_argument("--from-call", type=int)
    place.add_argument("--after-acknowledgement", type=int)
    place.add_argument("--from-acknowledged", dest="after_acknowledgement", action="store_const", const=1)
    parser.add_argument("--timeout", type=float, default=60)
    parser.add_argument("--out", default=KEPT)
    parser.add_argument("--allow-other", action="store_true")
    parser.add_argument("--fault", action="append", default=[])
    parser.add_argument("--no-record", action="store_true")
    parser.add_argument("--record-only", action="store_true")
    parser.add_argument("--json", action="store_true")
    parser.add_argument("--diagnose", action="store_true")
    profiles = parser.add_mutually_exclusive_group()
    profiles.add_argument("--swarm", action="store_true")
    profiles.add_argument("--profiles", type=lambda text: list(PROFILES) if text == "all" else text.split(","))
    for name in ("prepare", "start", *MOUNT_OPTIONS):
        parser.add_argument("--" + name)
    for name in ("work", "check"):
        parser.add_argument("--" + name, required=True)
    parser.add_argument("--one", choices=("measure", "judge", "record"), help=argparse.SUPPRESS)  # by a worker: one seed, with a line of JSON
    options = parser.parse_args(words)
    if options.seeds < 1 or options.first < 0 or options.jobs < 1:
        parser.error("--seeds and --jobs are at least 1, and --first at least 0")
    if min(options.from_call or 1, 1 if options.after_acknowledgement is None else options.after_acknowledgement) < 1 or options.from_call == 0:
        parser.error("--from-call and --after-acknowledgement are at least 1")
    unknown = [name for name in options.profiles or () if name not in PROFILES]
    if unknown or (options.profiles and options.profile):
        parser.error(f"--profiles: no profile {unknown[0]}" if unknown else "--profile is one of --profiles")
    if options.record_only and (options.no_record or options.profiles or options.swarm):
        parser.error("--record-only makes one record")
    if options.diagnose and (options.start or options.no_record):
        parser.error("--diagnose needs a record, and a check without --start")
    if options.stop_after is not None and options.stop_after < (0 if options.after_acknowledgement else 1):
        parser.error("--stop-after is at least 1")
    return options


def of_seed(words, seed, points):
    """Returns the words of a command line for one seed, with these options: its crash point, and its drawn settings."""
    kept, skips = [], False
    for word in words:
        name = word.split("=")[0]
        if skips:
            skips = False
        elif name in ("--seeds", "--first", "--jobs", "--profiles", "--swarm", "--record-only", "--diagnose", *POINTS):
            skips = "=" not in word and name not in _FLAGS
        else:
            kept.append(word)
    return ["--first", str(seed), "--seeds", "1", *points, *kept]
