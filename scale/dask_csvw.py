#!/usr/bin/env python3
"""Converts a group in parts by Dask. The graph and the report are those of one run of `csvw convert`.

usage: scale/dask_csvw.py SCHEDULER PARTS GRAPH REPORT WORDS..

SCHEDULER is the address of a Dask scheduler, as tcp://127.0.0.1:8786. WORDS are those of `csvw convert`: `--base URL
[--minimal] [--profile P] META FILE..`. The graph goes to the file GRAPH, and the report to the file REPORT. The exit status is
that of the whole run: 0 without errors, 1 with errors, else that of the first part that stopped, whose line is shown.

Each part is a future. A part whose worker is lost is run again by Dask, and one that fails is run twice more. CSVW is the
program (else crates/csvw/out/csvw). The workers need the program, these scripts, the files and the folder WORK (else the
current folder), in which the parts are written, at the same paths: on a shared file system.
"""
import os
import subprocess
import sys
import tempfile
from pathlib import Path

from distributed import Client, wait

SCALE = Path(__file__).resolve().parent


def run_part(command, folder, environment):
    """Runs one part. Fails if it does not come to its end."""
    subprocess.run(command, cwd=folder, env=dict(os.environ, **environment), check=True)


def in_parts(client, work, count, words, environment):
    """Runs each part on a worker, and waits for all of them. A part that failed left its status, which join.sh reads."""
    commands = [[str(SCALE / "part.sh"), str(work), str(part + 1), *words] for part in range(count)]
    futures = [client.submit(run_part, command, os.getcwd(), environment, pure=False, retries=2) for command in commands]
    wait(futures)


def main():
    if len(sys.argv) < 7:
        print(__doc__, file=sys.stderr)
        return 2
    scheduler, parts, graph, report, *words = sys.argv[1:]
    csvw = os.environ.get("CSVW", str(SCALE.parent / "crates/csvw/out/csvw"))
    environment = {"CSVW": csvw}
    with tempfile.TemporaryDirectory(dir=os.environ.get("WORK", os.getcwd())) as folder:
        work = Path(folder)
        # split has no word --minimal
        split = [csvw, "split", "--parts", parts, *(word for word in words if word != "--minimal")]
        with open(work / "plan.csv", "wb") as plan:
            ran = subprocess.run(split, stdout=plan, check=False)
        if ran.returncode:
            return ran.returncode
        count = int((work / "plan.csv").read_text().splitlines()[-1].split(",")[0])
        with Client(scheduler) as client:
            in_parts(client, work, count, words, environment)
        joined = subprocess.run(
            [str(SCALE / "join.sh"), str(work), graph, report, *words], env=dict(os.environ, **environment), check=False
        )
        return joined.returncode


if __name__ == "__main__":
    sys.exit(main())
