"""Writes a testbench in SystemVerilog around a crossbar, from its system file.

    tools/testbench SYSTEM --top MODULE [--style vectors|structs|chisel] >tb.sv
    tools/testbench SYSTEM --top MODULE --make FOLDER
    tools/testbench SCRIPT --operations FOLDER

A master stands at each master's link and a slave at each port's (hdl/tl_master.sv, hdl/tl_slave.sv), with the judge of all links, or a monitor
on each. With --make the testbench goes to FOLDER/tb.sv, and beside it a Makefile for Verilator and Icarus Verilog is written. With --operations
the operations of a script's masters go to FOLDER/operations_N.hex, which the masters of a testbench read, if all fit their widths.
docs/reference/captures.md leads through it ("From a crossbar's Verilog"); hdl/README.md has the rules by which ports of the crossbar are named.

Status 1: SYSTEM is no system, or no testbench can be made of it; or a file can't be written. Status 2: the command line.
"""

import argparse
import os
import re
import sys
import tomllib

from tlxtools.bus import Bus, bus_of
from tlxtools.common import MAX_SIZE
from tlxtools.operation_lines import operation_of, write_operations
from tlxtools.testbench_links import EXTRAS, NAME, STYLES, WIDTHS, Mistake, greatest_size, links_of, measured, vectors_of
from tlxtools.testbench_make import make_text
from tlxtools.testbench_text import testbench_text
from tlxtools.wide_sources import has_lists, has_paths

# The folder of the command.
HERE = os.path.dirname(os.path.dirname(os.path.dirname(os.path.realpath(__file__))))
# The parts stand beside this folder, or, where tools/install puts them, in it.
HDL = next((path for path in (os.path.join(os.path.dirname(HERE), "hdl"), os.path.join(HERE, "hdl")) if os.path.isdir(path)), "hdl")
# So does tlcheck: above it, or in the folder of programs.
PROGRAMS = (os.path.dirname(HERE), os.path.join(os.path.dirname(os.path.dirname(HERE)), "bin"))
TYPES = "tl_h2d_t,tl_d2h_t"
# What the testbench itself is called, and how many units of time its clock has.
BENCH, PERIOD = "tb", 10


def read_system(path):
    """The system of a file. What a testbench does not need is left to tlcheck to name."""
    try:
        with open(path, "rb") as file:
            system = tomllib.load(file)
    except OSError as error:
        raise Mistake(f"{path}: {error.strerror}") from None
    except (tomllib.TOMLDecodeError, UnicodeDecodeError):
        raise Mistake(f"{path} is no system file: ./tlcheck --lint {path} says why") from None
    system.setdefault("port", [])
    for role in ("master", "port"):
        tables = system.get(role, [])
        if not isinstance(tables, list) or not all(isinstance(table, dict) for table in tables):
            raise Mistake(f"{path} is no system file: ./tlcheck --lint {path} says why")
    if not system.get("master"):
        raise Mistake(f"{path}: it has no master")
    if system.get("edge", "rising") != "rising":
        raise Mistake(f"{path}: beats cross at falling edges, and a testbench has rising ones")
    if not has_paths(system):
        raise Mistake(f"{path}: reach names a port that is not there")
    if not has_lists(system):
        raise Mistake(f"{path}: hosts or sources of a port are wrong: ./tlcheck --lint {path} says why")
    return system


def images_of(system, path):
    """How many bytes the image of each port has that names one."""
    sizes = {}
    for number, port in enumerate(system["port"]):
        if "image" in port:
            if not isinstance(port["image"], str) or '"' in port["image"] or "\\" in port["image"] or os.path.isabs(port["image"]):
                raise Mistake(f"port {number}: the image has to be named from the folder of {path}")
            try:
                sizes[number] = os.path.getsize(os.path.join(os.path.dirname(path), port["image"]))
            except OSError as error:
                raise Mistake(f"port {number}: {port['image']}: {error.strerror}") from None
    return sizes


def bits(most):
    """A number of bits of the command line."""
    def read(word):
        if not word.isascii() or not word.isdigit() or not 1 <= int(word) <= most:
            raise argparse.ArgumentTypeError(f"{word!r} is no number from 1 to {most}")
        return int(word)
    return read


def module(word):
    if not NAME.fullmatch(word) or word == BENCH:
        raise argparse.ArgumentTypeError(f"{word!r} is no name of a module" + ", since the testbench has it" * (word == BENCH))
    return word


def types(word):
    if not re.fullmatch(r"[\w:]+,[\w:]+", word):
        raise argparse.ArgumentTypeError(f"{word!r} is no two types with a comma between them")
    return word.split(",")


def extras(word):
    if not set(word.split(",")) <= set(EXTRAS):
        raise argparse.ArgumentTypeError(f"{word!r} has to be of {', '.join(EXTRAS)}")
    return word.split(",")


def words_of_line():
    parser = argparse.ArgumentParser(prog="tools/testbench", description="Writes a testbench around a crossbar.", allow_abbrev=False)
    parser.add_argument("system", metavar="SYSTEM")
    wanted = parser.add_mutually_exclusive_group(required=True)
    wanted.add_argument("--top", metavar="MODULE", type=module, help="the crossbar's module")
    wanted.add_argument("--operations", metavar="FOLDER", help="where the operations of a script go")
    parser.add_argument("--style", choices=STYLES, default="vectors", help="how its ports are named where SYSTEM does not say it")
    parser.add_argument("--make", metavar="FOLDER", help="where tb.sv and a Makefile go; without it the testbench goes to standard output")
    parser.add_argument("--types", type=types, default=TYPES, help=f"of structs: that of requests and that of replies ({TYPES})")
    parser.add_argument("--also", type=extras, default=[], help=f"signals that the crossbar has too, of {', '.join(EXTRAS)}")
    for kind, most in WIDTHS.items():
        parser.add_argument(f"--{kind.replace('_', '-')}-bits", type=bits(most), metavar="N", help=f"how wide {kind} is at each link")
    return parser.parse_args()


def widths_given(words):
    """The widths of the command line."""
    return {kind: getattr(words, f"{kind}_bits") for kind in WIDTHS}


def tlcheck_from(folder):
    """How tlcheck is called from a folder: by its place, if it is known."""
    place = next((path for path in PROGRAMS if os.path.isfile(os.path.join(path, "tlcheck"))), None)
    return os.path.join(os.path.relpath(place, folder), "tlcheck") if place else "tlcheck"


def made(words):
    """The testbench, and the Makefile if one is asked for."""
    system = read_system(words.system)
    links = links_of(system, words.style, widths_given(words), words.also)
    most = min(greatest_size(system["port"]), min((1 << link.widths["size"]) - 1 for link in links))
    folder = words.make or "."
    about = {"path": os.path.relpath(words.system, folder) if words.make else words.system, "top": words.top, "style": words.style,
             "types": words.types if isinstance(words.types, list) else words.types.split(","), "images": images_of(system, words.system),
             "most": most}
    bench = testbench_text(links, system, about)
    make = make_text(about["path"], words.top, os.path.relpath(HDL, folder), tlcheck_from(folder), vectors_of(links)) if words.make else None
    return bench, make


def write_made(words):
    """Writes the testbench, and the Makefile if one is asked for."""
    bench, make = made(words)
    if make is None:
        sys.stdout.write(bench)
        return
    os.makedirs(words.make, exist_ok=True)
    for name, text in (("tb.sv", bench), ("Makefile", make)):
        with open(os.path.join(words.make, name), "w", encoding="utf-8") as file:
            file.write(text)
    if read_system(words.system).get("period") != PERIOD:
        print(f"A period of the testbench's clock has {PERIOD} units of time: with `period = {PERIOD}` in {words.system} --coverage counts clocks.")


def check_fit(operation, link, front):
    """Looks whether an operation is one that a master of these widths can send."""
    if operation.strip() == "wait":
        return
    source, _, address, size, *_ = operation.split()
    if int(size) > MAX_SIZE:
        raise ValueError
    if int(source) >= link.table["sources"]:
        raise Mistake(f"{front}: source {source}, and the master has {link.table['sources']}")
    for kind, value in (("address", int(address, 0)), ("size", int(size))):
        if value >> link.widths[kind]:
            said = f"{value:#x}" if kind == "address" else value
            raise Mistake(f"{front}: {kind} {said} does not fit a_{kind}, which has {link.widths[kind]} bits (--{kind}-bits)")


def write_script(path, folder, given):
    """Writes the operations of a script's masters, if all fit."""
    system = read_system(path)
    links = measured(system, given)
    lines, buses = [master.get("ops", []) for master in system["master"]], [bus_of(system, master) for master in system["master"]]
    for number, (operations, width) in enumerate(zip(lines, buses)):
        for place, line in enumerate(operations):
            try:
                check_fit(line, links[number], f"{path}: master {number} operation {place}")
                operation_of(line, Bus(width))
            except (AttributeError, IndexError, KeyError, TypeError, ValueError):
                raise Mistake(f"{path}: master {number} operation {place}: bad operation") from None
    os.makedirs(folder, exist_ok=True)
    write_operations(lines, buses, folder)


def main():
    words = words_of_line()
    try:
        if words.operations:
            write_script(words.system, words.operations, widths_given(words))
        else:
            write_made(words)
    except BrokenPipeError:
        raise
    except OSError as error:
        print(f"tools/testbench: {error.filename}: {error.strerror}", file=sys.stderr)
        return 1
    except Mistake as mistake:
        print(f"tools/testbench: {mistake}", file=sys.stderr)
        return mistake.status
    return 0
