#!/usr/bin/env python3
"""timed.py NAME COMMAND..

Runs a command, and writes its row of build.tsv: NAME, its minutes by the clock, its minutes of processor time, and the
machine, kit and commit. It replaces a row of the same name. The exit status is that of the command. For example

    python3 tests/benchmarks/timed.py "make build, nothing built" make build
"""
import pathlib
import resource
import subprocess
import sys
import time

ROWS = pathlib.Path(__file__).with_name("build.tsv")


def main():
    import page  # which has what names the machine

    name, *command = sys.argv[1:]
    begun = time.monotonic()
    status = subprocess.run(command, check=False).returncode
    used = resource.getrusage(resource.RUSAGE_CHILDREN)
    clock, processor = (time.monotonic() - begun) / 60, (used.ru_utime + used.ru_stime) / 60
    commit = page.told("git", "describe", "--always", "--exclude=*")
    where = f"{page.machine()}, {page.told('rt', 'version')}, commit {commit}"
    rows = [line for line in ROWS.read_text().splitlines() if not line.startswith(name + "\t")] if ROWS.exists() else []
    rows.append("\t".join([name, f"{clock:.1f}", f"{processor:.1f}", where]))
    ROWS.write_text("\n".join(rows) + "\n")
    return status


if __name__ == "__main__":
    if len(sys.argv) < 3:
        sys.exit(__doc__)
    sys.exit(main())
