#!/usr/bin/env python3
"""Times `mp run` from outside, on files in a temporary folder, beside loops that do its syncs alone.

usage: threads.py [TIMES]

In turn, TIMES times (5): `mp run 42`, whose 752 commits come from four primaries, and a bare loop of 752 commits by four
threads on four files of their own, each commit two writes with a sync behind each. Then `mp run` of one primary and of four
over files in memory whose statements read a row again and again, and of scripts of growing length. The time of reads is that
of the whole run, less that of the same run without them, and less that of reading their lines, which a script with a fault in
its last line takes alone. So the replies are printed in it, on one thread."""
import os
import resource
import statistics
import subprocess
import sys
import tempfile
import threading
import time

ROOT = os.path.dirname(os.path.dirname(os.path.abspath(__file__)))
MP = f"{ROOT}/crates/mp_app/out/mp_app"


def seconds(call):
    start = time.monotonic()
    call()
    return time.monotonic() - start


def mp(folder, words, text="", status=0):
    done = subprocess.run([MP, *words], input=text, cwd=folder, capture_output=True, text=True)
    if done.returncode != status:
        sys.exit(f"{words} ends with status {done.returncode}: {done.stdout[:200]}")
    return done.stdout


def run_from(folder, text):
    mp(folder, ["init"])
    return seconds(lambda: mp(folder, ["run"], text))


def run_read(folder, text):
    """The time of a run, less that of reading its script."""
    return run_from(folder, text) - seconds(lambda: mp(folder, ["run"], text + "a fault\n", 2))


def bare(folder, commits, files=4):
    """Commits by one thread a file: each two writes of 128 bytes, with a sync behind each."""

    def write(name):
        with open(f"{folder}/{name}", "wb", buffering=0) as it:
            for _ in range(commits // files * 2):
                it.write(b"x" * 128)
                os.fsync(it.fileno())

    threads = [threading.Thread(target=write, args=(f"bare{n}",)) for n in range(files)]
    for it in threads:
        it.start()
    for it in threads:
        it.join()


def reads(primaries, each):
    """A row for each primary, which its session then reads so often in one transaction."""
    lines = [f"primaries {primaries}"] + [f"session s{p} on {p}" for p in range(1, primaries + 1)]
    for p in range(1, primaries + 1):
        lines += [f"s{p} begin", f"s{p} put {p} value", f"s{p} commit", f"s{p} begin"] + [f"s{p} get {p}"] * each
    return "\n".join(lines) + "\n"


def commits_of(primaries, count):
    lines = [f"primaries {primaries}"] + [f"session s{p} on {p}" for p in range(1, primaries + 1)]
    for n in range(count):
        p = n % primaries + 1
        lines += [f"s{p} begin", f"s{p} put {1000 * p + n % 500} value{n}", f"s{p} commit"]
    return "\n".join(lines) + "\n"


def main():
    times = int(sys.argv[1]) if sys.argv[1:] else 5
    with tempfile.TemporaryDirectory() as folder:
        empty = min(run_from(folder, "primaries 4\n") for _ in range(times))
        for _ in range(times):
            mp(folder, ["init"])
            run = seconds(lambda: mp(folder, ["run", "42"])) - empty
            loop = seconds(lambda: bare(folder, 752))
            print(f"run 42: {752 / run:.0f} commits a second; the bare loop: {752 / loop:.0f}; {loop / run:.2f} of it")
        for count in (833, 1666, 3333):
            print(f"run, {count} transactions that put and commit on four primaries: {run_from(folder, commits_of(4, count)):.2f} s")
    with tempfile.TemporaryDirectory(dir="/dev/shm") as folder:
        for primaries in (1, 2, 4):
            each = 9900 // primaries
            base = statistics.median(run_read(folder, reads(primaries, 0)) for _ in range(8 * times))
            took = sorted(run_read(folder, reads(primaries, each)) - base for _ in range(8 * times))
            best, middle = (each / max(it, 1e-6) for it in (took[0], took[4 * times]))
            print(f"run over memory, {primaries} primaries, {each} gets each: {middle:.0f} statements a second a primary, at best {best:.0f}")
        print(f"the most memory that a run took: {resource.getrusage(resource.RUSAGE_CHILDREN).ru_maxrss // 1024} MB")


main()
