#!/usr/bin/env python3
"""
Crash runs on the workers of an executor: mount_cluster.py OPTIONS, those of tools/crash_run, at the top of the repository.

A cluster has an executor of its own, such as `Client(ADDRESS).get_executor()` of Dask. Each worker has the repository at this path.
"""

import sys
from concurrent.futures import ProcessPoolExecutor

sys.dont_write_bytecode = True
sys.path.insert(0, "adapters/mount")
from crash_seeds import main  # noqa: E402

if __name__ == "__main__":
    with ProcessPoolExecutor(2) as executor:
        sys.exit(main(sys.argv[1:], executor))
