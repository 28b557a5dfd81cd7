#!/usr/bin/env python3
"""Times tanktable as a process on the largest table against another build of it, in turn, in one run: bench/process.py OTHER/tanktable [SURVEY]
Its output goes to a file and to a pipe. Nothing is held to a time. The survey is that of `bench survey` (bench/run.sh builds it)."""
import os
import statistics
import subprocess
import sys
import tempfile
import time
from pathlib import Path

ROOT = Path(__file__).resolve().parent.parent
RUNS = 101


def timed(program, survey, to_pipe):
    """Seconds from start to end of one run, and what it wrote."""
    with open(survey, "rb") as given, tempfile.TemporaryFile() as file:
        start = time.perf_counter()
        if to_pipe:
            text = subprocess.run([program], stdin=given, stdout=subprocess.PIPE, check=True).stdout
            return time.perf_counter() - start, text
        subprocess.run([program], stdin=given, stdout=file, check=True)
        took = time.perf_counter() - start
        file.seek(0)
        return took, file.read()


def main():
    if len(sys.argv) not in (2, 3):
        sys.exit(__doc__)
    ours, other = ROOT / "target/bin/tanktable", Path(sys.argv[1]).resolve()
    survey = Path(sys.argv[2]) if len(sys.argv) == 3 else ROOT / "target/against/largest.survey"
    print(f"tanktable on {os.path.getsize(survey):,} bytes, medians of {RUNS} runs in turn")
    for name, to_pipe in (("to a file", False), ("to a pipe", True)):
        times = {ours: [], other: []}
        for _ in range(RUNS):
            texts = []
            for program, taken in times.items():
                took, text = timed(program, survey, to_pipe)
                taken.append(took)
                texts.append(text)
            if texts[0] != texts[1]:
                sys.exit("the two builds print different tables")
        lines = texts[0].count(b"\n")
        here, there = (statistics.median(times[program]) * 1000 for program in (ours, other))
        print(f"{name}: this build {here:.2f} ms, the other {there:.2f} ms, this one takes {here / there:.2f} of its time ({lines} lines)")


main()
