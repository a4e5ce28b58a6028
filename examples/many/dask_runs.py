"""Runs the jobs that `make` wrote in the current folder on the workers of a Dask cluster.

usage: python3 dask_runs.py MPSIM [SCHEDULER]

MPSIM is the program. Without the address of a scheduler the workers are processes of this machine, one for
each processor. With one, all machines need the same folder under the same name.
"""

import subprocess
import sys
from pathlib import Path

from dask.distributed import Client

RUN = Path(__file__).resolve().parent / "run"


def run(folder, program, name):
    """Runs one job, and gives its exit status."""
    return subprocess.run([RUN, program, name], cwd=folder).returncode


def main(program, *scheduler):
    """Hands all jobs to the cluster, and says how many failed."""
    client = Client(*scheduler) if scheduler else Client(threads_per_worker=1)
    names = [f"runs/{path.stem}" for path in sorted(Path("runs").glob("*.par"))]
    jobs = client.map(run, [Path.cwd()] * len(names), [program] * len(names), names, pure=False)
    statuses = client.gather(jobs)
    print(f"{len(names)} jobs, {sum(status != 0 for status in statuses)} failed")


if __name__ == "__main__":
    if len(sys.argv) not in (2, 3):
        sys.exit(__doc__)
    main(*sys.argv[1:])
