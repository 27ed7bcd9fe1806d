"""What the stop-watches share: which program they run, how often they repeat, the seconds of a process, and how they tell what they
measured. Each measurement is a row: alone, a stop-watch prints it as a line; bench/all gets its columns, with tabs between them.

BENCH_RUNS says how often they repeat instead of their own number, and BENCH_ROWS, if it is set, that the columns are wanted.
"""
import os
import subprocess
import sys

TOP = os.path.dirname(os.path.dirname(os.path.abspath(__file__)))
sys.path.append(os.path.join(TOP, "tools"))

from programs import program  # the stop-watches take it from here

COLUMNS = ("what", "ours", "to half", "peer", "peer's", "to peer", "memory", "remark")
SECONDS, RATE, PLAIN = "{:.3f} s", "{:.1f} M steps/s", "{:.2f}"


def runs(usual):
    """How often a stop-watch repeats what it measures."""
    return int(os.environ.get("BENCH_RUNS") or usual)


def row(what, ours=None, to_half=None, peer="", theirs=None, memory=None, remark="", form=SECONDS):
    """Tells a measurement: our figure, its ratio to that of half, the peer and its figure, bytes of memory, and what else there is."""
    figures = ["" if it is None else form.format(it) for it in (ours, theirs)]
    half = "" if to_half is None else f"{to_half:.2f}"
    ratio = "" if None in (ours, theirs) else f"{ours / theirs:.2f}"
    memory = "" if memory is None else f"{memory / 2**20:,.1f} MiB"
    if os.environ.get("BENCH_ROWS"):
        print("\t".join((what, figures[0], half, peer, figures[1], ratio, memory, remark)), flush=True)
        return
    beside = f"{peer} {figures[1]}" if figures[1] else ""
    beside += f", ratio of ours to it {ratio}" if ratio else ""
    parts = (figures[0], half and f"ratio to half of it {half}", beside, memory and f"peak {memory}", remark)
    print(f"{what}: " + ", ".join(part for part in parts if part), flush=True)


def processor_seconds(words, **how):
    """The processor's seconds for a whole process, which must be done."""
    process = subprocess.Popen(words, **how)
    _, status, usage = os.wait4(process.pid, 0)
    process.returncode = os.waitstatus_to_exitcode(status)
    assert process.returncode == 0, words
    return usage.ru_utime + usage.ru_stime
