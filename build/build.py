#!/usr/bin/env python3
"""Proves the crates of the program csvw in lanes, links the program, and records what proved it.

usage: build/build.py [--jobs N] [--times]

    --jobs N    proves at most N crates at a time. Else it takes one lane for each processor, and at most one for each
                4 GB of free memory
    --times     prints at the end the seconds and the processor seconds of each crate, and the longest chain of crates by seconds
    --keep      keeps what later checks of each crate begin with, some 14 GB in out/incremental of the crates

It writes to standard error, one line for each crate that is done. The status is 0 if the program is proved and linked, 4 if
a crate fails, 130 if it is interrupted and 2 if its words are wrong. After an interruption it goes on with what is kept.

Two runs of rt in one working tree wait for each other if a crate is below both. So each lane is a folder of its own,
out/build/N: the sources as they are at the start, and links to the libraries that are done. What a lane makes goes to
crates/NAME/out, and rt itself checks by its sums that it fits the sources there.

The crates with the longest chain to the program come first. build/seconds.txt has the processor seconds of each. A crate takes two lanes if
its chain is longer than all the work that is left takes in all lanes. What a check keeps for a later one is removed once its
crate is proved, unless it was there before.
"""
import argparse
import contextlib
import fcntl
import hashlib
import json
import os
import re
import shutil
import signal
import subprocess
import sys
import time
from pathlib import Path

TOP = Path(__file__).resolve().parent.parent
CRATES = TOP / "crates"
LANES = TOP / "out" / "build"
SECONDS = TOP / "build" / "seconds.txt"
PROGRAM = CRATES / "csvw" / "out" / "csvw"
RECORD = CRATES / "csvw" / "out" / "csvw.record"
PARTS = ("src", "specs", "proofs")
LANE_MEMORY = 4 << 30
MOST_JOBS = 4


class Failed(Exception):
    """A crate failed: its name."""


def say(text):
    print(f"csvw: {text}", file=sys.stderr, flush=True)


# The crates of the program.


def named_crates():
    """The crates of crates.txt, each with the crates of that file that it uses."""
    lines = [line.split("#")[0] for line in (TOP / "crates.txt").read_text().splitlines()]
    rows = [line.partition(":") for line in lines if line.strip()]
    named = {head.split()[0]: tail.split() for head, _, tail in rows}
    return {name: [it for it in used if it in named] for name, used in named.items()}


def closures(used):
    """The program and each crate below it, lowest first, each with all crates below it."""
    found = {}

    def add(name):
        if name not in found:
            below = {}
            for it in used[name]:
                add(it)
                below.update(dict.fromkeys([*found[it], it]))
            found[name] = [*below]

    add("csvw")
    return found


def files_of(name):
    """The sources of a crate, in order."""
    return sorted(it for part in PARTS for it in (CRATES / name / part).rglob("*") if it.is_file())


def weights(names):
    """How long each crate takes: the seconds of build/seconds.txt. A crate that isn't there takes as long for its bytes as those there."""
    rows = [line.split() for line in SECONDS.read_text().splitlines() if line and not line.startswith("#")]
    known = {name: float(seconds) for name, seconds in rows if name in names}
    size = {name: sum(it.stat().st_size for it in files_of(name)) for name in names}
    rate = sum(known.values()) / max(1, sum(size[it] for it in known)) if known else 1
    return {name: known.get(name, size[name] * rate) for name in names}


def chains(weight, below):
    """For each crate the weight of the heaviest chain that begins with it and ends with the program."""
    most = dict(weight)
    for name in reversed([*below]):
        for it in below[name]:
            most[it] = max(most[it], weight[it] + most[name])
    return most


# What was built.


def said(*command):
    """What a command prints, without its last line break, or nothing if it fails."""
    try:
        return subprocess.run(command, cwd=TOP, capture_output=True, text=True, check=True).stdout.strip()
    except (OSError, subprocess.CalledProcessError):
        return ""


def sum_of_program():
    return hashlib.sha256(PROGRAM.read_bytes()).hexdigest() if PROGRAM.is_file() else ""


def as_it_is():
    """The commit, whether the working tree differs from it, the sum of the program's sources, and the kit."""
    sources = hashlib.sha256((TOP / "crates.txt").read_bytes())
    for name in closures(named_crates()):
        for file in files_of(name):
            sources.update(repr((str(file.relative_to(TOP)), file.read_bytes())).encode())
    return {
        "commit": said("git", "rev-parse", "--short", "HEAD"),
        "changed": bool(said("git", "status", "--porcelain", "--untracked-files=no")),
        "sources": sources.hexdigest(),
        "kit": said("rt", "version"),
    }


def recorded():
    """What the program that is there was built from, or None if no build recorded this program."""
    try:
        record = json.loads(RECORD.read_text())
    except (OSError, ValueError):
        return None
    return record if record.get("program") == sum_of_program() != "" else None


def write_record(now):
    RECORD.write_text(json.dumps({**now, "program": sum_of_program()}, indent=1) + "\n")


# The lanes.


def number_in(file, pattern):
    try:
        return int(re.search(pattern, Path(file).read_text())[1])
    except (OSError, TypeError):
        return None


def lanes_that_fit():
    free = [number_in("/proc/meminfo", r"MemAvailable:\s+(\d+)") << 10]
    most, held = number_in("/sys/fs/cgroup/memory.max", r"(\d+)"), number_in("/sys/fs/cgroup/memory.stat", r"anon (\d+)")
    if most and held is not None:
        free.append(most - held)
    return max(1, min(len(os.sched_getaffinity(0)), min(free) // LANE_MEMORY))


@contextlib.contextmanager
def alone_in(folder):
    """Waits until no rt works in the folder, and keeps others out: rt holds the same lock."""
    handle = os.open(folder, os.O_RDONLY)
    try:
        try:
            fcntl.flock(handle, fcntl.LOCK_EX | fcntl.LOCK_NB)
        except BlockingIOError:
            say(f"waiting for another build or rt to finish in {folder}")
            fcntl.flock(handle, fcntl.LOCK_EX)
        yield
    finally:
        os.close(handle)


def link_or_copy(one, other):
    try:
        os.link(one, other)
    except OSError:
        shutil.copy2(one, other)


def link_folder(one, other):
    """Gives the files of a folder second names in another, which is whole or isn't there. rt replaces such files, and changes none."""
    new = other.with_name(f"{other.name}.new")
    shutil.rmtree(new, ignore_errors=True)
    shutil.copytree(one, new, copy_function=link_or_copy)
    shutil.rmtree(other, ignore_errors=True)
    new.rename(other)


def make_lanes(number, names):
    """Makes the folders of the lanes, with the sources of the crates."""
    first = LANES / "1"
    for name in names:
        for part in PARTS:
            if (CRATES / name / part).is_dir():
                shutil.copytree(CRATES / name / part, first / "crates" / name / part)
        (first / "crates" / name / "out").mkdir()
    rows = (TOP / "crates.txt").read_text().splitlines(keepends=True)
    (first / "crates.txt").write_text("".join(it for it in rows if re.split(r"[\s:]", it)[0] in names))
    for it in range(2, number + 1):
        shutil.copytree(first, LANES / str(it), copy_function=link_or_copy)


def clear_lanes():
    """Removes the lanes. What a stopped check kept goes back to its crate."""
    for kept in LANES.glob("*/crates/*/out/incremental"):
        give_kept(kept.parents[1].name, kept)
    shutil.rmtree(LANES, ignore_errors=True)


def give_kept(name, kept):
    own = CRATES / name / "out" / "incremental"
    with alone_in(CRATES / name):
        if kept.is_dir():
            shutil.rmtree(own, ignore_errors=True)
            kept.rename(own)


def has_ended(ran):
    """Whether a process has ended. Returns its processor seconds then, with those of the processes that it waited for, or None."""
    pid, status, used = os.wait4(ran.pid, os.WNOHANG)
    if not pid:
        return None
    ran.returncode = os.waitstatus_to_exitcode(status)
    return used.ru_utime + used.ru_stime


class Build:
    """The crates that are left, those that run, and where the libraries are that are done."""

    def __init__(self, below, lanes, keeps):
        self.below, self.lanes, self.keeps = below, lanes, keeps
        self.libraries = [it for it in below if it != "csvw"]
        self.weight = weights(list(below))
        self.chain = chains(self.weight, below)
        self.left = sorted(self.libraries, key=lambda it: -self.chain[it])
        self.idle = [str(it) for it in range(lanes, 0, -1)]
        self.running, self.made_in, self.seconds, self.processor, self.had_kept = {}, {}, {}, {}, set()
        self.began = time.monotonic()

    def ready(self):
        return [it for it in self.left if all(below in self.made_in for below in self.below[it])]

    def is_critical(self, name):
        """Whether the chain of a crate takes longer than all that is left takes in all lanes."""
        return self.chain[name] * self.lanes > sum(self.weight[it] for it in [*self.left, *self.running])

    def start_ready(self):
        """Starts the crates that wait for none, those with the longest chain first. The lanes that no crate takes are jobs of those that run."""
        ready = self.ready()
        for at, name in enumerate(ready):
            free = self.lanes - sum(jobs for _, _, jobs, _ in self.running.values())
            if free < 1:
                return
            jobs = max(free // (len(ready) - at), 2 if self.is_critical(name) else 1)
            self.start(name, min(MOST_JOBS, free, jobs))

    def start(self, name, jobs):
        lane = self.idle.pop()
        out, here = LANES / lane / "crates" / name / "out", CRATES / name / "out"
        for it in self.below[name]:
            there = LANES / lane / "crates" / it / "out" / "rlib"
            if not there.is_dir():
                link_folder(LANES / self.made_in[it] / "crates" / it / "out" / "rlib", there)
        with alone_in(CRATES / name):
            if (here / "rlib" / "stamp").is_file():
                link_folder(here / "rlib", out / "rlib")
            if (here / "incremental").is_dir():
                (here / "incremental").rename(out / "incremental")
                self.had_kept.add(name)
        here.mkdir(exist_ok=True)
        with open(here / "build.log", "wb") as log:
            how = {"stdin": subprocess.DEVNULL, "stdout": log, "stderr": subprocess.STDOUT}
            ran = subprocess.Popen(["rt", "lib", "--jobs", str(jobs)], cwd=out.parent, **how)
        self.left.remove(name)
        self.running[name] = ran, lane, jobs, time.monotonic()

    def end(self, name):
        ran, lane, _, began = self.running.pop(name)
        out, here = LANES / lane / "crates" / name / "out", CRATES / name / "out"
        self.idle.append(lane)
        is_proved = not ran.returncode and (out / "rlib" / "stamp").is_file()
        if is_proved and name not in self.had_kept and not self.keeps:
            shutil.rmtree(out / "incremental", ignore_errors=True)
        else:
            give_kept(name, out / "incremental")
        if not is_proved:
            raise Failed(name)
        with alone_in(CRATES / name):
            if not (here / "rlib" / "stamp").is_file() or not (here / "rlib" / "stamp").samefile(out / "rlib" / "stamp"):
                link_folder(out / "rlib", here / "rlib")
        self.made_in[name] = lane
        self.count(name, began)

    def count(self, name, began):
        self.seconds[name] = time.monotonic() - began
        minutes = int(time.monotonic() - self.began) // 60
        say(f"{len(self.seconds)} of {len(self.below)} crates proved, {minutes} minute{'s' * (minutes != 1)}")

    def stop(self):
        """Ends what runs. What rt started ends with it."""
        runs = [ran for ran, *_ in self.running.values() if ran.returncode is None]
        for ran in runs:
            ran.kill()
        for ran in runs:
            ran.wait()

    def prove(self):
        try:
            make_lanes(self.lanes, self.libraries)
            while self.left or self.running:
                self.start_ready()
                for name, (ran, *_) in [*self.running.items()]:
                    used = has_ended(ran)
                    if used is not None:
                        self.processor[name] = used
                        self.end(name)
                time.sleep(0.05)
        finally:
            self.stop()
            clear_lanes()

    def link(self):
        """Proves the program itself, by as many jobs as there are lanes, and links it, over the libraries that are done."""
        began, folder = time.monotonic(), CRATES / "csvw"
        (folder / "out").mkdir(exist_ok=True)
        with open(folder / "out" / "build.log", "wb") as log:
            how = {"stdin": subprocess.DEVNULL, "stdout": log, "stderr": subprocess.STDOUT}
            jobs = max(1, min(MOST_JOBS, self.lanes))
            ran = subprocess.Popen(["rt", "run", "--jobs", str(jobs), "--", "--help"], cwd=folder, **how)
            self.running["csvw"] = ran, None, jobs, began
            try:
                while (used := has_ended(ran)) is None:
                    time.sleep(0.05)
                self.processor["csvw"] = used
            finally:
                self.stop()
                self.running.clear()
        if ran.returncode:
            raise Failed("csvw")
        self.count("csvw", began)

    def print_times(self):
        for name, seconds in sorted(self.seconds.items(), key=lambda it: -it[1]):
            print(f"{seconds:7.0f} {self.processor.get(name, 0):7.0f} {name}", file=sys.stderr)
        most = chains({it: self.seconds.get(it, 0) for it in self.below}, self.below)
        at = max(most, key=most.get)
        chain = [at]
        while at != "csvw":
            at = max((it for it in self.below if at in self.below[it]), key=most.get)
            chain.append(at)
        print(f"the longest chain has {most[chain[0]]:.0f} of {sum(self.seconds.values()):.0f} seconds: {' '.join(chain)}", file=sys.stderr)
        print(f"{time.monotonic() - self.began:.0f} seconds in all, {sum(self.processor.values()):.0f} processor seconds", file=sys.stderr)


def build(lanes, times, keeps):
    LANES.mkdir(parents=True, exist_ok=True)
    with alone_in(LANES.parent):
        clear_lanes()
        now, record = as_it_is(), recorded()
        if not now["kit"]:
            raise OSError("`rt version` fails: the Rattle kit isn't on the PATH")
        if record and all(record[it] == now[it] for it in ("sources", "kit")) and not times:
            say("the program is proved and built, and no source of it has changed")
        else:
            work = Build(closures(named_crates()), lanes or lanes_that_fit(), keeps)
            say(f"proving {len(work.below)} crates in {work.lanes} lane{'s' * (work.lanes != 1)} (`./csvw --try` needs no build)")
            try:
                work.prove()
                work.link()
            finally:
                if times:
                    work.print_times()
            if as_it_is()["sources"] != now["sources"]:
                say("the sources changed during the build: `./csvw --build` builds the program again")
        write_record(now)
        PROGRAM.touch()


def end_of_log(name):
    lines = (CRATES / name / "out" / "build.log").read_text(errors="replace").splitlines()
    return [f"the end of crates/{name}/out/build.log:", *lines[-20:]]


def main():
    def number(word):
        if not re.fullmatch(r"[1-9]\d{0,3}", word):
            raise argparse.ArgumentTypeError("it is a number above 0")
        return int(word)

    words = argparse.ArgumentParser(prog="csvw --build", description="Proves the crates of csvw in lanes, and links the program.")
    words.add_argument("--jobs", type=number, metavar="N", help="prove at most N crates at a time")
    words.add_argument("--times", action="store_true", help="print the seconds of each crate, and the longest chain")
    words.add_argument("--keep", action="store_true", help="keep what later checks of each crate begin with, some 14 GB")
    given = words.parse_args()

    def interrupted(*_):
        for it in (signal.SIGINT, signal.SIGTERM, signal.SIGHUP):
            signal.signal(it, signal.SIG_IGN)
        raise KeyboardInterrupt

    for it in (signal.SIGINT, signal.SIGTERM, signal.SIGHUP):
        signal.signal(it, interrupted)
    try:
        build(given.jobs, given.times, given.keep)
    except Failed as failure:
        say(f"the crate {failure} failed")
        print(*end_of_log(str(failure)), sep="\n", file=sys.stderr)
        return 4
    except OSError as failure:
        say(failure)
        return 4
    except KeyboardInterrupt:
        say("stopped: `./csvw --build` goes on")
        return 130
    return 0


if __name__ == "__main__":
    sys.exit(main())
