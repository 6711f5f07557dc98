"""Instructions of a call of the engine, from a run of `bench --once N` under callgrind.

  python3 bench/instructions.py N SITES COUNTS

SITES is what the run printed, COUNTS its profile. Output: `instructions CALL N COUNT`, for one site.
"""

import re
import subprocess
import sys
from pathlib import Path

# where a call has another name than its loop, run_NAME in bench/loops.h
NAMES = {"link": "down+up", "asked": "ask+link", "committed": "ask+commit", "mark_moved": "remove+set"}


def main():
    n, sites, counts = sys.argv[1:]
    count = int(Path(sites).read_text().split()[1])
    command = ["callgrind_annotate", "--inclusive=yes", "--threshold=100", counts]
    profile = subprocess.run(command, check=True, capture_output=True, text=True).stdout
    found = re.findall(r"^ *([\d,]+) .*:run_(\w+)", profile, re.MULTILINE)
    loops = {loop: int(all_sites.replace(",", "")) for all_sites, loop in found if loop != "call"}
    for loop, all_sites in loops.items():
        print(f"instructions {NAMES.get(loop, loop)} {n} {all_sites / count:.0f}")


main()
