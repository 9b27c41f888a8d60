#!/usr/bin/env python3
"""Runs the gate, and tells how much processor time each crate took in it.

    tools/gate_times.py [rt ci's arguments]

It is started at the top of the checkout. With no arguments it runs .ci/run, which is the gate; else `rt ci`
with them, which may be a part of it.

It looks at the processes below it five times a second, and adds up what each took: by crate, and by
what was done with it (checked, an edit tried, built or run). What a process took after the last look
at it is missing, so the sums are a few per cent too small; the last line has the whole, as the system
counted it.
"""
import collections
import os
import re
import resource
import subprocess
import sys
import threading
import time

TICKS = os.sysconf("SC_CLK_TCK")
# An edit is tried in a folder whose path has this.
EDIT_FOLDER = "/rt-edit-"


def read(path):
    try:
        with open(path, "rb") as file:
            return file.read().decode("utf-8", "replace")
    except OSError:
        return ""


def processes():
    """Of each process its parent and the processor seconds that it took so far."""
    told = {}
    for name in os.listdir("/proc"):
        if name.isdigit():
            fields = read(f"/proc/{name}/stat").rpartition(") ")[2].split()
            if len(fields) > 12:
                told[int(name)] = (int(fields[1]), (int(fields[11]) + int(fields[12])) / TICKS)
    return told


def below(told, top):
    """The processes that stem from one."""
    found = {top}
    grown = True
    while grown:
        more = {pid for pid, (parent, _) in told.items() if parent in found} - found
        found |= more
        grown = bool(more)
    return found - {top}


def work_of(pid):
    """Which crate a process works at, and what it does."""
    words = read(f"/proc/{pid}/cmdline").replace("\0", " ")
    try:
        folder = os.readlink(f"/proc/{pid}/cwd")
    except OSError:
        folder = ""
    crate = re.search(r"--crate-name (\S+)", words) or re.search(r"/crates/(\w+)", folder + " " + words)
    if crate is None:
        return None
    if EDIT_FOLDER in folder:
        return crate.group(1), "edits"
    return crate.group(1), "check" if "rattle check" in words else "build and run"


def watch(child):
    """The processor seconds of each process, with its work, until the child ends."""
    spent, works = {}, {}
    while child.poll() is None:
        told = processes()
        for pid in below(told, child.pid):
            spent[pid] = told[pid][1]
            work = work_of(pid)
            if work is not None:
                works[pid] = work
        time.sleep(0.2)
    return spent, works


def edits_of(crate):
    folder = f"crates/{crate}/must-fail"
    return len([name for name in os.listdir(folder) if name.endswith(".edit")]) if os.path.isdir(folder) else 0


def pass_on(printed, tried):
    """Prints what the gate prints, and adds how many edits it says that it tries."""
    for line in printed:
        sys.stdout.write(line)
        sys.stdout.flush()
        tried.extend(int(count) for count in re.findall(r"trying its must-fail edits \((\d+)\)", line))


def watched(command):
    """Runs a command, and tells how it ended, the seconds of its processes and their work, and how many edits were tried."""
    tried = []
    child = subprocess.Popen(command, stdout=subprocess.PIPE, stderr=subprocess.STDOUT, text=True, errors="replace")
    reader = threading.Thread(target=pass_on, args=(child.stdout, tried))
    reader.start()
    spent, works = watch(child)
    reader.join()
    return child.returncode, spent, works, sum(tried)


def main():
    if not os.path.isfile("crates.txt"):
        sys.exit("tools/gate_times.py is started at the top of the checkout: here is no crates.txt")
    start = time.time()
    status, spent, works, tried = watched(["rt", "ci", *sys.argv[1:]] if sys.argv[1:] else [".ci/run"])
    wall = time.time() - start
    table = collections.defaultdict(lambda: collections.defaultdict(float))
    for pid, seconds in spent.items():
        crate, kind = works.get(pid, ("others", "build and run"))
        table[crate][kind] += seconds
    rows = sorted(table.items(), key=lambda row: -sum(row[1].values()))
    print("\n| crate | check | edits | of them | build and run | together |\n|---|---|---|---|---|---|")
    for crate, kinds in rows:
        check, edits, run = (kinds.get(kind, 0) for kind in ("check", "edits", "build and run"))
        print(f"| {crate} | {check:.0f} | {edits:.0f} | {edits_of(crate)} | {run:.0f} | {check + edits + run:.0f} |")
    if tried and not any("edits" in kinds for kinds in table.values()):
        print(f"\n{tried} edits were tried, but no process was seen in a folder {EDIT_FOLDER}..: what they took stands under check")
    usage = resource.getrusage(resource.RUSAGE_CHILDREN)
    whole = usage.ru_utime + usage.ru_stime
    print(f"\n{wall:.0f} seconds; {whole:.0f} processor seconds, {sum(spent.values()):.0f} of them seen")
    return status


if __name__ == "__main__":
    sys.exit(main())
