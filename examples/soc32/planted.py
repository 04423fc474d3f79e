"""A design in Verilog before tlcheck: without a bug it is lawful, and of each planted bug tlcheck says what a table expects, and tools/explain
names the same row and its request.

`main` is the check of a folder with bugs.vh, bugs.txt, mix.toml and system.toml; this folder's and examples/soc128's call it. TLCHECK and TLVCD
name other programs than the launchers at the top. The bench takes +seed=, +operations=, +capture=, +dump= and +images=.
"""

import concurrent.futures
import importlib.machinery
import importlib.util
import os
import re
import shutil
import subprocess
import sys
import tempfile
import tomllib

HERE = os.path.dirname(os.path.abspath(__file__))
EXAMPLES = os.path.dirname(HERE)
TOP = os.path.dirname(EXAMPLES)
RTL = os.path.join(EXAMPLES, "rtl")
sys.dont_write_bytecode = True
sys.path.insert(0, RTL)

# the programs and the comparison of dumps of examples/rtl
loader = importlib.machinery.SourceFileLoader("rtl_check", os.path.join(RTL, "check"))
rtl = importlib.util.module_from_spec(importlib.util.spec_from_loader(loader.name, loader))
loader.exec_module(rtl)

VIEWS = ("both", "masters", "ports", "each")
ORDERS = ("accept", "reply", "any")
# No queue, arbiter or register makes a design unlawful if the order of requests is left open.
WHATEVER_THE_ORDER = [(view, "any") for view in VIEWS]
SEEDS, BUG_SEEDS, DUMPED_SEEDS = range(1, 21), range(1, 5), (1, 2)
# How many operations a script of tools/stimulate has.
OPERATIONS = 400
UNLAWFUL = re.compile(r"unlawful: line (\d+), time (\d+), (\S+) ([AD]: .*)\n")


class Folder:
    """The design of a folder: how its bench is built, and what its links are called."""

    def __init__(self, folder, sources, directory):
        self.folder, self.directory = folder, directory
        self.system = os.path.join(folder, "system.toml")
        self.sources = [os.path.join(folder, name) for name in sources]
        self.sources += [os.path.join(RTL, "tl_queue.v"), rtl.MONITOR]
        with open(self.system, "rb") as file:
            system = tomllib.load(file)
        self.hosts = [master["name"] for master in system["master"]]
        self.ports = [port["name"] for port in system["port"]]
        self.ranges = [pair for port in system["port"] for pair in port.get("ranges", [(port.get("base"), port.get("length"))])]
        self.bus = rtl.stimulus.Bus(system["bus"])

    def build(self, name, *defines):
        """Builds the bench in a directory of its own."""
        directory = os.path.join(self.directory, name)
        os.makedirs(directory, exist_ok=True)
        bench = os.path.join(directory, "bench")
        options = ["-g2005-sv", "-Wall", "-Wno-timescale", "-I", self.folder, *defines]
        subprocess.run(["iverilog", *options, "-o", bench, *self.sources], check=True)
        return bench

    def is_taken_by_verilator(self):
        """Verilator takes the design and the bench as well."""
        options = ["--lint-only", "--timing", "-Wno-fatal", "-Wno-WIDTH", "--top-module", "tb", f"-I{self.folder}"]
        return subprocess.run(["verilator", *options, *self.sources], stderr=subprocess.DEVNULL).returncode == 0

    def run(self, bench, seed, dumped=False, operations=None):
        """Runs a bench under a seed; its capture, beside which the dump lies if there is one. Operations are a folder with those of a script."""
        name = f"script_{seed}" if operations else f"seed_{seed}"
        arguments = [f"+seed={seed}", f"+capture={name}.csv", f"+images={self.folder}"] + [f"+dump={name}.vcd"] * dumped
        arguments += [f"+operations={operations}"] if operations else []
        subprocess.run(["vvp", "-n", bench, *arguments], cwd=os.path.dirname(bench), check=True, stdout=subprocess.DEVNULL)
        return os.path.join(os.path.dirname(bench), name + ".csv")

    def can_send(self, line):
        """Whether a host can send an operation: addresses have 32 bits, and its bytes lie in one range, or in none."""
        if line == "wait":
            return True
        first, size = int(line.split()[2], 16), 1 << int(line.split()[3])
        held = [base <= first and first + size <= base + length for base, length in self.ranges]
        met = [base < first + size and first < base + length for base, length in self.ranges]
        return first + size <= 1 << 32 and held == met

    def stimulate(self, seed):
        """Writes the operations of a script of tools/stimulate into a folder of its own: the folder, and how many they are. Those that no host can
        send are left out."""
        words = [self.system, "--seed", str(seed), "--ops", str(OPERATIONS), "--limits", "judge", "--mix", os.path.join(self.folder, "mix.toml")]
        script = subprocess.run([os.path.join(TOP, "tools", "stimulate"), *words], stdout=subprocess.PIPE, text=True, check=True).stdout
        asked = [master["ops"] for master in tomllib.loads(script)["master"]]
        sent = [[line for line in lines if self.can_send(line)] for lines in asked]
        directory = os.path.join(self.directory, f"operations_{seed}")
        os.makedirs(directory, exist_ok=True)
        rtl.stimulus.write_operations(sent, self.bus, directory)
        return directory, sum(line != "wait" for lines in sent for line in lines)

    def judge(self, capture, view, order="accept"):
        """What tlcheck says of a capture, requests without replies included."""
        return rtl.judge_of(self.system, capture, "--complete", "--links", view, "--order", order)

    def link_of(self, name):
        """The link that verdicts call by a name, as captures have it."""
        return f"m{self.hosts.index(name)}" if name in self.hosts else f"p{self.ports.index(name)}"

    def pattern_of(self, cell):
        """A cell of the table as a regular expression for what is told of a verdict."""
        hosts, ports = "|".join(self.hosts), "|".join(self.ports)
        return cell.replace("HOST", f"({hosts})").replace("PORT", f"({ports})")


def is_lawful(verdict):
    """A capture is lawful that has requests. With --complete all are answered then, but for those that a reset has cut short."""
    told = rtl.LAWFUL.fullmatch(verdict)
    return told is not None and int(told[2]) > 0


def told_of(verdict):
    """A verdict as the table has it: the link, the channel and the fault; `incomplete`; or `lawful`."""
    named = UNLAWFUL.fullmatch(verdict)
    if named:
        return f"{named[3]} {named[4]}"
    if verdict.startswith("incomplete: "):
        return "incomplete"
    return "lawful" if is_lawful(verdict) else verdict


def table_of(path, columns=VIEWS):
    """The rows of a table of bugs: the name, and a cell for each view, or for each of other columns."""
    rows = {}
    with open(path, encoding="utf-8") as file:
        for line in file:
            if line.strip() and not line.startswith("#"):
                name, *cells = line.rstrip("\n").split(" | ")
                rows[name] = dict(zip(columns, cells, strict=True))
    return rows


def names_of(folder):
    """The bugs that bugs.vh declares."""
    return re.findall(r"^  ([A-Z0-9_]+) = [1-9]", rtl.read(os.path.join(folder, "bugs.vh")), re.M)


def judge_design(folder, bench, seed):
    """One run of a design without a bug: its capture, and what each view and order says of it."""
    capture = folder.run(bench, seed, seed in DUMPED_SEEDS)
    return capture, {(view, order): folder.judge(capture, view, order) for view in VIEWS for order in ORDERS}


def check_design(folder, pool, name, defines, lawful):
    """A design without a bug: lawful under all seeds in these views and orders, and for some seed in none else."""
    bench = folder.build(name, *defines)
    runs = [*pool.map(lambda seed: (seed, *judge_design(folder, bench, seed)), SEEDS)]
    for seed, capture, verdicts in runs:
        for view, order in lawful:
            rtl.tell(f"{name}, seed {seed}, links {view}, order {order}: {verdicts[view, order]}", is_lawful(verdicts[view, order]))
        if seed in DUMPED_SEEDS:
            rtl.compare_dump(f"{name}, seed {seed}", folder.system, rtl.dump_of(capture), capture)
        if seed == SEEDS[0]:
            rtl.check_draft(name, folder.system, rtl.dump_of(capture))
    for key in {(view, order) for view in VIEWS for order in ORDERS} - set(lawful):
        seen = any(" D: wrong reply: " in verdicts[key] for _, _, verdicts in runs)
        rtl.tell(f"{name}: lawful with links {key[0]} and order {key[1]} as well", seen)
    print(f"{name}: {runs[0][2]['both', 'accept'].rstrip()}")


def run_script(folder, bench, seed):
    """One run of a script: how many operations it has, what each view says of it in any order, and the file of what it covers."""
    directory, count = folder.stimulate(seed)
    capture = folder.run(bench, seed, operations=directory)
    coverage = os.path.join(directory, "coverage")
    rtl.judge_of(folder.system, capture, "--coverage", coverage)
    return count, {view: folder.judge(capture, view, "any") for view in VIEWS}, coverage


def check_scripts(folder, pool, name, defines):
    """A design without a bug is lawful under scripts of tools/stimulate, and each of their operations is asked and answered."""
    bench = folder.build(name, *defines)
    runs = [*pool.map(lambda seed: (seed, *run_script(folder, bench, seed)), SEEDS)]
    for seed, count, verdicts, _ in runs:
        for view, verdict in verdicts.items():
            # what an error responder answers comes to no port
            ends = "answered\n" if view == "ports" else f" {count} requests, {count} answered\n"
            rtl.tell(f"{name}, script {seed}, links {view}: {verdict}", rtl.is_whole(verdict) and verdict.endswith(ends))
    tool = os.path.join(TOP, "tools", "coverage")
    merged = os.path.join(folder.directory, "coverage")
    with open(merged, "w", encoding="ascii") as file:
        done = subprocess.run([tool, "merge", *(coverage for *_, coverage in runs)], stdout=file, check=False)
    report = subprocess.run([tool, "report", folder.system, merged], stdout=subprocess.PIPE, text=True, check=False)
    total = re.search(r"^all: .*", report.stdout, re.M)
    rtl.tell(f"{name}: no report of what the scripts cover", done.returncode == 0 and total)
    print(f"{name}: {sum(count for _, count, *_ in runs)} operations of {len(runs)} scripts; {total and total[0]}")


def front_is_lawful(folder, capture, verdict, view, *options):
    """The row that a verdict names is of that time and link, and all rows of earlier times are lawful."""
    line, time, name, fault = UNLAWFUL.fullmatch(verdict).groups()
    with open(capture, encoding="ascii") as file:
        rows = file.readlines()
    cut = f"{capture}.{view}"
    with open(cut, "w", encoding="ascii") as file:
        file.writelines(rows[:1] + [row for row in rows[1:] if int(row.split(",")[0]) < int(time)])
    before = rtl.judge_of(folder.system, cut, "--links", view, *options)
    return rows[int(line) - 1].split(",")[:3] == [time, folder.link_of(name), fault[0]] and rtl.LAWFUL.fullmatch(before) is not None


def judge_bug(folder, bug):
    """The runs of a bug: for each seed its capture, and the verdict of each view."""
    bench = folder.build(bug, f"-DBUG={bug}")
    captures = [folder.run(bench, seed, seed == 1) for seed in BUG_SEEDS]
    return [(capture, {view: folder.judge(capture, view) for view in VIEWS}) for capture in captures]


def check_bug(folder, bug, cells, runs):
    """In each view some run shows the bug, unless none need by the table. One that does says what the table has, and names the first row."""
    print(f"{bug}: {next((v['both'] for _, v in runs if told_of(v['both']) != 'lawful'), runs[0][1]['both'])[:150].rstrip()}")
    rtl.compare_dump(bug, folder.system, rtl.dump_of(runs[0][0]), runs[0][0])
    for view, cell in cells.items():
        told = [told_of(verdicts[view]) for _, verdicts in runs]
        for capture, verdicts in runs:
            verdict = verdicts[view]
            fits = re.fullmatch(folder.pattern_of(cell + "|lawful"), told_of(verdict))
            rtl.tell(f"{bug}, links {view}: {verdict.rstrip()}, not {cell}", fits)
            if UNLAWFUL.fullmatch(verdict):
                rtl.tell(f"{bug}, links {view}: not the first row", front_is_lawful(folder, capture, verdict, view))
            if view == VIEWS[0]:
                rtl.check_explanation(bug, verdict, folder.system, capture, "--complete", "--links", view, "--order", "accept")
        rtl.tell(f"{bug}, links {view}: not seen", seen_of(cell) in ("no", "by luck") or any(word != "lawful" for word in told))


def seen_of(cell):
    """How a cell of the table stands in a README: whether the view sees the bug."""
    ways = re.split(r"\|(?![^(]*\))", cell)
    return "no" if ways == ["lawful"] else "by luck" if "lawful" in ways else "`--complete`" if ways == ["incomplete"] else "yes"


def check_readme(folder, table):
    """The README has a row for each bug that says which view sees it. Its commands lead from a dump to the verdicts that it shows."""
    path = os.path.join(folder.folder, "README.md")
    text = rtl.read(path)
    for bug, cells in table.items():
        ends = " | ".join(seen_of(cell) for cell in cells.values())
        rtl.tell(f"{path}: {bug}: not {ends}", re.search(rf"^\| `{bug}` \| [^|]+ \| {re.escape(ends)} \|$", text, re.M))
    commands, prints = re.search(r"```sh\n(.*?)```\n\nprints\n\n    (.*?)\n", text, re.S).groups()
    without = re.search(r"^    (lawful: .*)$", text, re.M)[1]
    rtl.tell(f"{path}: more than ten lines", len(commands.splitlines()) <= 10)
    commands = commands.replace("/tmp/", folder.directory + "/").replace("./tlcheck ", rtl.TLCHECK + " ")
    for words, expected in ((commands, prints), (re.sub(r"(-D|\+)(?i:bug)=\w+ ", "", commands), without)):
        done = subprocess.run(["bash", "-c", words], cwd=TOP, stdout=subprocess.PIPE, text=True)
        rtl.tell(f"{path}: {done.stdout}", done.stdout.splitlines()[-1:] == [expected])


def main(where, sources, designs, more=None):
    """The check of a folder: its status. `more` are checks of this folder alone."""
    for program in ("iverilog", "verilator"):
        if shutil.which(program) is None:
            print(f"{program} is missing; on Debian and Ubuntu: apt-get install {program}", file=sys.stderr)
            return 69
    empty = subprocess.run([rtl.TLCHECK, os.path.join(where, "system.toml")], input=rtl.stimulus.HEADER, text=True, stdout=subprocess.DEVNULL)
    if empty.returncode != 0:
        return 70
    table = table_of(os.path.join(where, "bugs.txt"))
    with tempfile.TemporaryDirectory() as scratch, concurrent.futures.ThreadPoolExecutor(max_workers=os.cpu_count()) as pool:
        folder = Folder(where, sources, os.path.abspath(sys.argv[1]) if len(sys.argv) > 1 else scratch)
        rtl.tell("bugs.txt: other bugs than bugs.vh", [*table] == names_of(where))
        rtl.tell("not taken by verilator", folder.is_taken_by_verilator())
        for design in designs:
            check_design(folder, pool, *design)
        for name, defines, _ in designs:
            check_scripts(folder, pool, name, defines)
        for bug, runs in zip(table, pool.map(lambda bug: judge_bug(folder, bug), table)):
            check_bug(folder, bug, table[bug], runs)
        check_readme(folder, table)
        if more is not None:
            more(folder)
    print(f"{rtl.passed} passed, {len(rtl.failed)} failed")
    return 1 if rtl.failed else 0
