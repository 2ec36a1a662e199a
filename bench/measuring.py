"""How a run is measured: its time by the clock and of the processor, its memory, its write calls, the bytes that it writes."""

import os
import shutil
import subprocess
import tempfile
import time

TOP = os.path.dirname(os.path.dirname(os.path.abspath(__file__)))
PROGRAM = os.path.join(TOP, "crates", "texdvi", "out", "texdvi")


def run(words, folder, out=os.devnull, env=None):
    """One run: seconds of the clock, seconds of the processor, and status."""
    with open(out, "wb") as output, open(os.devnull, "wb") as null:
        start = time.perf_counter()
        child = subprocess.Popen(words, cwd=folder, stdout=output, stderr=null, env=env)
        _, status, usage = os.wait4(child.pid, 0)
        seconds = time.perf_counter() - start
        child.returncode = os.waitstatus_to_exitcode(status)
    return seconds, usage.ru_utime + usage.ru_stime, child.returncode


def memory(words, folder, env=None):
    """The most kilobytes of one run, or None without GNU time. (Asked here, the system would answer with the memory of Python.)"""
    if not shutil.which("time"):
        return None
    log = os.path.join(folder, "memory")
    subprocess.run(
        ["time", "-f", "%M", "-o", log, *words], cwd=folder, stdout=subprocess.DEVNULL, stderr=subprocess.DEVNULL, env=env
    )
    with open(log) as file:
        return int(file.read().split()[-1])


def write_calls(words, folder, env=None):
    """The number of calls of write, or None without strace."""
    if not shutil.which("strace"):
        return None
    log = os.path.join(folder, "calls")
    subprocess.run(
        ["strace", "-f", "-e", "trace=write,writev,pwrite64", "-o", log, *words],
        cwd=folder, stdout=subprocess.DEVNULL, stderr=subprocess.DEVNULL, env=env,
    )
    with open(log, "rb") as file:
        return sum(b"write" in line for line in file)


def measure(words, folder, output, runs, streams=False, env=None):
    """Several runs: the least times, and what one of them takes and writes. The output is a file of the folder; where the program `streams`,
    its standard output is led there."""
    path = os.path.join(folder, output)
    found = [run(words, folder, path if streams else os.devnull, env) for _ in range(runs)]
    size = os.path.getsize(path) if os.path.exists(path) else 0
    return dict(
        seconds=min(seconds for seconds, _, _ in found),
        processor=min(processor for _, processor, _ in found),
        status=found[0][2],
        kilobytes=memory(words, folder, env),
        bytes=size,
        writes=write_calls(words, folder, env),
    )


def line(name, tool, found):
    known = {key: "?" if value is None else value for key, value in found.items()}
    form = "{:8} {:9} {seconds:8.4f} s {processor:8.4f} s of the processor {kilobytes:>8} KB {bytes:9} bytes {writes:>7} writes  status {status}"
    return form.format(name, tool, **known)


def ratios(name, ours, theirs):
    return f"{name:8} ratio     {ours['seconds'] / theirs['seconds']:8.2f}   {ours['processor'] / theirs['processor']:8.2f}"


def in_scratch(write, compare):
    """Lets `write` put its documents into a scratch folder and `compare` run the programs there; the exit status. Without the built program
    nothing is done."""
    if not os.path.exists(PROGRAM):
        print(f"{PROGRAM} is not there; build it first: (cd crates/texdvi && rt run)")
        return 1
    folder = tempfile.mkdtemp(prefix="texdvi-bench-")
    try:
        write(folder)
        compare(folder)
    finally:
        shutil.rmtree(folder)
    return 0
