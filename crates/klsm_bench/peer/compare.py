"""Times `klsm replay` and `klsm live` beside two exact queues over a million rows.

    g++ -O2 -o streams streams.cpp && g++ -O2 -o buffers buffers.cpp
    python3 compare.py ./streams ./buffers ../../klsm/out/klsm

The program has to stand built: `./klsm --help` at the root of the repository builds it. Any more
programs, such as that of an earlier commit, run in turn with it. First `klsm replay` for four threads;
a number is the processor time of a run in seconds, the least and the median of nine. Then `klsm live`
for one, two and four threads, each over rows of so many; there a number is the time by the clock.
"""

import random
import resource
import statistics
import subprocess
import sys
import tempfile
import time

ROWS = 1_000_000


def uniform(draw, threads):
    """Insertions of random keys and deletions, as a coin says."""
    for number in range(ROWS):
        thread = draw.randrange(threads)
        if draw.random() < 0.5:
            yield f"{thread},i,{draw.randrange(1 << 32)},{number}"
        else:
            yield f"{thread},d,,"


def hold(draw, threads):
    """A thousand items, and then a deletion and an insertion in turn."""
    for number in range(1000):
        yield f"{number % threads},i,{draw.randrange(1 << 32)},{number}"
    for number in range((ROWS - 1000) // 2):
        thread = draw.randrange(threads)
        yield f"{thread},d,,"
        yield f"{thread},i,{draw.randrange(1 << 32)},{number}"


def ascending(draw, threads):
    """Ascending keys, and then as many deletions."""
    for number in range(ROWS // 2):
        yield f"{number % threads},i,{number},{number}"
    for number in range(ROWS // 2):
        yield f"{number % threads},d,,"


def run(command, script):
    script.seek(0)
    subprocess.run(command, stdin=script, stdout=subprocess.DEVNULL, check=True)


def processor_time(command, script):
    """How much processor time the command takes over the script, in seconds."""
    before = resource.getrusage(resource.RUSAGE_CHILDREN)
    run(command, script)
    after = resource.getrusage(resource.RUSAGE_CHILDREN)
    return after.ru_utime + after.ru_stime - before.ru_utime - before.ru_stime


def clock_time(command, script):
    """How long the command takes over the script, in seconds."""
    begun = time.monotonic()
    run(command, script)
    return time.monotonic() - begun


def compare(measure, workload, threads, contenders):
    """Runs all in turn, nine times, and prints the least and the median of each."""
    with tempfile.TemporaryFile() as script:
        for row in workload(random.Random(1), threads):
            script.write(row.encode() + b"\n")
        script.flush()
        times = {name: [] for name in contenders}
        for _ in range(9):
            for name, command in contenders.items():
                times[name].append(measure(command, script))
    shown = (f"{name} {min(all):.2f} {statistics.median(all):.2f}" for name, all in times.items())
    print(workload.__name__, threads, *shown)


def main(streams, buffers, *programs):
    exact = {"streams": [streams], "buffers": [buffers]}
    picks = {
        f"{klsm} {pick}": [klsm, "replay", "--threads", "4", "--k", "64", "--pick", pick]
        for klsm in programs
        for pick in ("first", "random")
    }
    for workload in (uniform, hold, ascending):
        compare(processor_time, workload, 4, exact | picks)
    for workload in (uniform, hold, ascending):
        for threads in (1, 2, 4):
            words = ["live", "--threads", str(threads), "--k", "64"]
            lives = {f"{klsm} live": [klsm, *words] for klsm in programs}
            compare(clock_time, workload, threads, exact | lives)


main(*sys.argv[1:])
