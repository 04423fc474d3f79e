"""A design in Verilator before tlcheck, which judges it straight from its dumps, part by part: each part has a system file, a view and an order.

`main` is the check of a folder with bench.f, bugs.vh, bugs.txt and the system files; this folder's and examples/rocket's call it. TLCHECK and
TLVCD name other programs than the launchers at the top. bench.f has the words of Verilator, and the bench takes +seed=, +requests=, +bug=,
+dump= and +images=.
"""

import concurrent.futures
import os
import re
import shutil
import subprocess
import sys
import tempfile
import time
import tomllib
import typing

HERE = os.path.dirname(os.path.abspath(__file__))
sys.dont_write_bytecode = True
sys.path.insert(0, os.path.join(os.path.dirname(HERE), "soc32"))
import planted  # noqa: E402

rtl = planted.rtl
SEEDS, BUG_SEEDS = range(1, 21), range(1, 5)
# How many rows the long run has at least.
LONG_ROWS = 2_000_000


class Part(typing.NamedTuple):
    """What tlcheck judges: the name of the column in bugs.txt, the system file, the view and the order."""
    name: str
    file: str
    links: str
    order: str = "accept"


class Judge:
    """A part of the design of a folder, and what its links are called."""

    def __init__(self, folder, part):
        self.part, self.system = part, os.path.join(folder, part.file)
        with open(self.system, "rb") as file:
            system = tomllib.load(file)
        self.hosts = [master["name"] for master in system["master"]]
        self.ports = [port["name"] for port in system["port"]]

    def words(self, order=None):
        """The words of tlcheck, requests without replies included."""
        return "--complete", "--links", self.part.links, "--order", order or self.part.order

    def verdict(self, dump, order=None):
        """What tlcheck says of a dump, or of rows."""
        return rtl.judge_of(self.system, dump, *self.words(order))

    def rows(self, dump):
        """The file of the rows that tlvcd writes of a dump."""
        path = f"{dump}.{self.part.name}.csv"
        with open(path, "wb") as file:
            done = subprocess.run([rtl.TLVCD, self.system, dump], stdout=file, stderr=subprocess.PIPE, text=True)
        rtl.tell(f"{path}: {done.stderr.rstrip()}", done.returncode == 0)
        return path

    link_of, pattern_of = planted.Folder.link_of, planted.Folder.pattern_of


class Design:
    """The design of a folder: its bench, and its parts."""

    def __init__(self, folder, parts, directory):
        self.folder, self.directory = folder, directory
        self.judges = [Judge(folder, part) for part in parts]
        self.bench = os.path.join(directory, "bench", "bench")

    def build(self):
        """Builds the bench, in which each bug is planted by a word of the command line."""
        os.makedirs(os.path.dirname(self.bench), exist_ok=True)
        words = ["-F", os.path.join(self.folder, "bench.f"), "--Mdir", os.path.dirname(self.bench), "-j", str(os.cpu_count())]
        done = subprocess.run(["verilator", *words], stdout=subprocess.PIPE, stderr=subprocess.STDOUT, text=True)
        if done.returncode != 0:
            raise SystemExit(f"{self.folder}: verilator refused the design\n{done.stdout}")

    def words(self, dump, *arguments):
        return [self.bench, f"+images={self.folder}", f"+dump={dump}", *arguments]

    def run(self, name, *arguments):
        """Runs the bench; its dump."""
        dump = os.path.join(self.directory, name + ".vcd")
        subprocess.run(self.words(dump, *arguments), check=True, stdout=subprocess.DEVNULL)
        return dump


def judge_seed(design, seed):
    """One run without a bug: what each part says of it, in its own order and in any."""
    dump = design.run(f"seed_{seed}", f"+seed={seed}")
    return dump, {(judge.part.name, order): judge.verdict(dump, order) for judge in design.judges for order in {judge.part.order, "any"}}


def check_lawful(design, pool):
    """Without a bug each part is lawful under each seed, and each request is answered. The rows that tlvcd writes have the same verdict."""
    for seed, (dump, verdicts) in zip(SEEDS, pool.map(lambda seed: judge_seed(design, seed), SEEDS)):
        for (part, order), verdict in verdicts.items():
            rtl.tell(f"seed {seed}, {part}, order {order}: {verdict.rstrip()}", rtl.is_whole(verdict))
        if seed == SEEDS[0]:
            for judge in design.judges:
                same = judge.verdict(judge.rows(dump)) == verdicts[judge.part.name, judge.part.order]
                rtl.tell(f"{judge.part.name}: another verdict over the rows", same)
                rtl.check_draft(judge.part.name, judge.system, dump)
                print(f"{judge.part.name}: {verdicts[judge.part.name, judge.part.order].rstrip()}")
        else:
            os.remove(dump)


def judge_bug(design, number, bug):
    """The runs of a bug: for each seed the dump, and the verdict of each part."""
    dumps = [design.run(f"{bug}_{seed}", f"+seed={seed}", f"+bug={number}") for seed in BUG_SEEDS]
    return [(dump, [judge.verdict(dump) for judge in design.judges]) for dump in dumps]


def check_cell(bug, judge, cell, runs):
    """In a part some run shows the bug, unless none need by the table. One that does says what the table has, and names the first row."""
    told = [planted.told_of(verdict) for _, verdict in runs]
    for (dump, verdict), word in zip(runs, told):
        fits = re.fullmatch(judge.pattern_of(cell + "|lawful"), word)
        rtl.tell(f"{bug}, {judge.part.name}: {verdict.rstrip()}, not {cell}", fits)
        if planted.UNLAWFUL.fullmatch(verdict):
            first = planted.front_is_lawful(judge, judge.rows(dump), verdict, judge.part.links, "--order", judge.part.order)
            rtl.tell(f"{bug}, {judge.part.name}: not the first row", first)
    is_seen = planted.seen_of(cell) in ("no", "by luck") or any(word != "lawful" for word in told)
    rtl.tell(f"{bug}, {judge.part.name}: not seen", is_seen)


def row_of(design, runs):
    """Where a README says that a bug shows first: of the first seed that shows it the part, and the row; of parts that show it, that with the
    fewest lines before."""
    for dump, verdicts in runs:
        named = [(int(told[1]), judge, told) for judge, verdict in zip(design.judges, verdicts) if (told := planted.UNLAWFUL.fullmatch(verdict))]
        if named:
            line, judge, told = min(named, key=lambda found: found[0])
            return f"`{judge.part.name}`", f"line {line}, time {told[2]}, {told[3]} {told[4].split(': expected')[0]}"
    is_left = any(verdict.startswith("incomplete: ") for _, verdicts in runs for verdict in verdicts)
    return "", "none: `--complete`" if is_left else "none"


def check_bugs(design, pool, table):
    """Each bug shows as the table says, in each part, and the README has the first row of each."""
    readme = rtl.read(os.path.join(design.folder, "README.md"))
    found = pool.map(lambda bug: judge_bug(design, *bug), enumerate(table, 1))
    for (bug, cells), runs in zip(table.items(), found):
        part, row = row_of(design, runs)
        print(f"{bug}: {part} {row}")
        has_row = re.search(rf"^\| `{bug}` \|[^|]*{re.escape(part)} *\| {re.escape(row)} \|$", readme, re.M)
        rtl.tell(f"README.md: {bug}: not {part}, {row}", has_row)
        for n, judge in enumerate(design.judges):
            check_cell(bug, judge, cells[judge.part.name], [(dump, verdicts[n]) for dump, verdicts in runs])
        for dump, _ in runs:
            os.remove(dump)


def check_long(design, part, requests):
    """One long run, whose dump goes through a pipe: tlcheck reads it while it is made, and none of it is kept. Standard output has the last
    words of the simulation, so the dump is written to standard error."""
    judge = next(judge for judge in design.judges if judge.part.name == part)
    begin = time.monotonic()
    words = design.words("/dev/stderr", f"+requests={requests}")
    with subprocess.Popen(words, stdout=subprocess.DEVNULL, stderr=subprocess.PIPE) as bench:
        judged = [rtl.TLCHECK, *judge.words(), judge.system, "-"]
        done = subprocess.run(judged, stdin=bench.stderr, stdout=subprocess.PIPE, stderr=subprocess.STDOUT, text=True)
    told = rtl.LAWFUL.fullmatch(done.stdout)
    rtl.tell(f"long run, {part}: {done.stdout.rstrip()}", rtl.is_whole(done.stdout) and int(told[1]) >= LONG_ROWS)
    print(f"long run, {part}: {done.stdout.rstrip()}, {time.monotonic() - begin:.0f} s")


def main(where, parts, long_part, long_requests, more=None, needs=("verilator",)):
    """The check of a folder: its status. The long run is of one part, with so many requests of each host. `more` are checks of this folder
    alone, and `needs` the programs that have to be there."""
    arguments = [word for word in sys.argv[1:] if word != "--long"]
    for program in needs:
        if shutil.which(program) is None:
            print(f"{program} is missing; on Debian and Ubuntu: apt-get install {program}", file=sys.stderr)
            return 69
    with tempfile.TemporaryDirectory() as scratch, concurrent.futures.ThreadPoolExecutor(max_workers=os.cpu_count()) as pool:
        directory = os.path.abspath(arguments[0]) if arguments else scratch
        design = Design(where, parts, directory)
        empty = subprocess.run([rtl.TLCHECK, design.judges[0].system], input=rtl.stimulus.HEADER, text=True, stdout=subprocess.DEVNULL)
        if empty.returncode != 0:
            return 70
        table = planted.table_of(os.path.join(where, "bugs.txt"), [part.name for part in parts])
        rtl.tell("bugs.txt: other bugs than bugs.vh", [*table] == planted.names_of(where))
        design.build()
        check_lawful(design, pool)
        check_bugs(design, pool, table)
        if "--long" in sys.argv[1:]:
            check_long(design, long_part, long_requests)
        if more is not None:
            more(design)
        planted.check_readme(design, table)
    print(f"{rtl.passed} passed, {len(rtl.failed)} failed")
    return 1 if rtl.failed else 0
