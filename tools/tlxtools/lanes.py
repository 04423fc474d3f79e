"""Proves and builds crates side by side, each in a lane: a folder of its own with copies of the sources.

`rt lib` locks the folder of its crate and those of the crates below it, so in one tree the crates would wait for one another. A lane
takes what is built below a crate by hard links. What it has built is moved into the tree's out/. A run that is stopped leaves no lane,
and what the tree had kept is moved back. No source of a lane changes, so `rt` sums up each crate once there (kit.py).
"""

import concurrent.futures
import contextlib
import fcntl
import os
import shutil
import signal
import subprocess
import sys
import tempfile

from tlxtools.crate_list import TOP, below, crates
from tlxtools.kit import command, kit_crate

# What a crate's check on one processor takes at most, in KiB.
MEMORY = 4 * 1024 * 1024
# More processors than this make the check of one crate hardly faster, and a second one makes that of a small crate slower: each of the
# two reads the libraries.
MOST_JOBS = 2
LARGE = 250_000
# How much there is to check of a byte in each folder of a crate, and of what stands below it.
PARTS = {"src": 8, "specs": 1, "proofs": 1}
READING = 60_000


def lane_count():
    """How many checks run at a time: one a processor, if memory allows."""
    with open("/proc/meminfo", encoding="ascii") as lines:
        free = next(int(line.split()[1]) for line in lines if line.startswith("MemAvailable"))
    return max(1, min(os.cpu_count() or 1, free // MEMORY))


def folder_of(name, top=TOP):
    """The folder of a crate in a tree."""
    return os.path.join(top, "crates", name)


def is_program(name):
    """Whether the crate is a program."""
    return os.path.exists(os.path.join(folder_of(name), "src", "main.rt"))


def weight(name):
    """How much there is to check of a crate, in bytes of a proof."""
    return READING + sum(times * size(os.path.join(folder_of(name), part)) for part, times in PARTS.items())


def size(folder):
    """The bytes of all files in a folder, or 0 if there is none."""
    return sum(os.path.getsize(os.path.join(at, file)) for at, _, files in os.walk(folder) for file in files)


def most_jobs(name):
    """How many processors make the check of a crate faster."""
    return MOST_JOBS if weight(name) >= LARGE else 1


def chains(names, all_crates):
    """For each of these crates how much is to be checked one after the other, from it up to the last that stands on it."""
    weights, found = {name: weight(name) for name in names}, {}

    def chain(name):
        if name not in found:
            found[name] = weights[name] + max((chain(other) for other in names if name in all_crates[other]), default=0)
        return found[name]

    return {name: chain(name) for name in names}


def copy_sources(name, to):
    """Copies the sources of a crate into a folder."""
    for part in PARTS:
        if os.path.isdir(os.path.join(folder_of(name), part)):
            shutil.copytree(os.path.join(folder_of(name), part), os.path.join(to, part))


class Lane:
    """A folder with the sources of all crates, in which one crate is built at a time."""

    def __init__(self, folder, all_crates):
        self.folder = folder
        self.all_crates = all_crates
        os.mkdir(folder)
        for file in ("crates.txt", "HANDLES"):
            shutil.copy(os.path.join(TOP, file), folder)
        for name in all_crates:
            copy_sources(name, folder_of(name, folder))

    def take_below(self, name):
        """Brings what is built of the crates below this one."""
        for other in below(name, self.all_crates):
            built = os.path.join(folder_of(other, self.folder), "out", "rlib")
            if not os.path.isdir(built):
                shutil.copytree(os.path.join(folder_of(other), "out", "rlib"), built, copy_function=os.link)

    @contextlib.contextmanager
    def kept(self, name):
        """The tree's out/ of the crate is the lane's, until this ends."""
        ours, theirs = (os.path.join(folder_of(name, top), "out") for top in (TOP, self.folder))
        shutil.rmtree(theirs, ignore_errors=True)
        if os.path.isdir(ours):
            shutil.move(ours, theirs)
        try:
            yield
        finally:
            if os.path.isdir(theirs):
                shutil.move(theirs, ours)


class Lanes:
    """Some lanes, and the processes that work in them."""

    def __init__(self, say=lambda text: None):
        self.all_crates = crates()
        self.count = lane_count()
        self.say = say
        self.room = None
        self.running = set()
        self.is_stopped = False

    def __enter__(self):
        for number in (signal.SIGTERM, signal.SIGHUP):
            signal.signal(number, lambda number, _: sys.exit(128 + number))
        self.room = tempfile.mkdtemp(prefix="tlx-lanes-")
        self.free = [Lane(os.path.join(self.room, str(number)), self.all_crates) for number in range(self.count)]
        return self

    def __exit__(self, *_):
        shutil.rmtree(self.room, ignore_errors=True)

    def stop(self):
        """Ends what runs in the lanes."""
        self.is_stopped = True
        for process in list(self.running):
            process.terminate()

    def run(self, words, **how):
        """Runs a command that ends if the lanes are stopped, and answers its status."""
        if self.is_stopped:
            return 1
        with subprocess.Popen(words, stdin=subprocess.DEVNULL, **how) as process:
            self.running.add(process)
            try:
                return process.wait()
            finally:
                self.running.discard(process)

    @contextlib.contextmanager
    def pool(self):
        """Threads that start commands in the lanes. If this is left early, the commands are ended."""
        with concurrent.futures.ThreadPoolExecutor(self.count) as pool:
            try:
                yield pool
            except BaseException:
                self.stop()
                pool.shutdown(wait=True, cancel_futures=True)
                raise

    def build_one(self, lane, name, jobs):
        """Builds a crate, and answers whether that went well. A program is asked for its version, so that it has run once."""
        lane.take_below(name)
        last = ["--", "--version"] if is_program(name) else []
        words = [*command(), "run" if is_program(name) else "lib", "--jobs", str(jobs), *last]
        log = os.path.join(folder_of(name), "build.log")
        with lane.kept(name), open(log, "wb") as to:
            return self.run(words, cwd=folder_of(name, lane.folder), stdout=to, stderr=to) == 0

    def build(self, names):
        """Builds these crates and all below them, those with the longest chain above them first. Answers the first that could not be."""
        wanted = set(names).union(*(below(name, self.all_crates) for name in names))
        with locked(wanted):
            left = {name for name in wanted if is_program(name) or not kit_crate(name).is_built()}
            long = chains(left, self.all_crates)
            return self.schedule(long, wanted - left)

    def schedule(self, long, done):
        """Builds these crates, each after those below it, and answers the first that could not be built."""
        waiting = sorted(long, key=lambda name: -long[name])
        number, running, failed = len(waiting), {}, None
        with self.pool() as pool:
            while running or (waiting and not failed):
                if not failed:
                    idle = self.count - sum(jobs for _, _, jobs in running.values())
                    last = max((long[name] for name, _, _ in running.values()), default=0)
                    ready = [name for name in waiting if below(name, self.all_crates) <= done]
                    for name, jobs in self.next_ones(ready, idle, last, long):
                        waiting.remove(name)
                        self.say(f"crate {number - len(waiting)} of {number}: {name}")
                        lane = self.free.pop()
                        running[pool.submit(self.build_one, lane, name, jobs)] = name, lane, jobs
                ended, _ = concurrent.futures.wait(running, return_when=concurrent.futures.FIRST_COMPLETED)
                for future in ended:
                    name, lane, _ = running.pop(future)
                    self.free.append(lane)
                    failed = failed if future.result() else name
                    done.add(name)
        return failed

    def next_ones(self, ready, idle, last, long):
        """The crates of those that are ready to start now, each with its number of processors. One with a chain as long as any that runs
        gets as many as help it, and so does each that no other crate is ready beside."""
        for at, name in enumerate(ready):
            if idle > 0:
                jobs = max(1, min(most_jobs(name), idle if long[name] >= last else idle // (len(ready) - at)))
                idle, last = idle - jobs, max(last, long[name])
                yield name, jobs


@contextlib.contextmanager
def locked(names):
    """Keeps every other `rt` and every other build out of these crates' folders, as `rt` does."""
    with contextlib.ExitStack() as stack:
        for name in sorted(names):
            held = os.open(folder_of(name), os.O_RDONLY)
            stack.callback(os.close, held)
            fcntl.flock(held, fcntl.LOCK_EX)
        yield
