"""What the tests in Python share. A check is told by its name and by whether it holds; the last line is 'N passed, M failed', and the status is 1
if one failed. A test runs without pytest. If TLX_TOLD names a file, each check is a line of JSON in it too, which conftest.py reads.
"""

import concurrent.futures
import json
import os
import sys
import threading

TOP = os.path.dirname(os.path.dirname(os.path.abspath(__file__)))
# The name by which the test is run.
TEST = os.path.relpath(os.path.abspath(sys.argv[0]), TOP).removesuffix(".py")
# The path of modules is this process's own: what a test runs has to find its modules by itself.
os.environ.pop("PYTHONPATH", None)

_lock = threading.Lock()
_counts = {True: 0, False: 0}


def tell(name, holds, why=""):
    """A check, and whether it holds. If it does not, its name and why go to standard error."""
    line = json.dumps({"test": TEST, "name": name, "holds": bool(holds), "why": "" if holds else why})
    with _lock:
        _counts[bool(holds)] += 1
        if "TLX_TOLD" in os.environ:
            with open(os.environ["TLX_TOLD"], "a", encoding="utf-8") as told:
                told.write(line + "\n")
        if not holds:
            print(f"{TEST}: {name}" + (f": {why}" if why else ""), file=sys.stderr)


def tell_faults(name, faults):
    """Checks of one name, each by what is wrong with it: an empty text if it holds."""
    for number, why in enumerate(faults, 1):
        tell(f"{name}, {number}", not why, why)


def side_by_side(call, cases):
    """What a call answers of each case, in their order. The calls run side by side."""
    with concurrent.futures.ThreadPoolExecutor(os.cpu_count()) as pool:
        yield from pool.map(lambda case: call(*case), cases)


def tell_cases(cases):
    """The checks that are calls, which run side by side: a function that answers whether it holds, and its words."""
    for (check, words), holds in zip(cases, side_by_side(lambda check, words: check(*words), cases)):
        tell(f"{check.__name__} {words}", holds)


def need(*programs):
    """Ends the test if one of these programs is not built."""
    for program in programs:
        if not os.access(program, os.X_OK):
            sys.exit(f"{program} is not built: ./{os.path.basename(program)} builds it")


def run_test(main):
    """Runs a test, prints the last line, and ends with its status."""
    main()
    print(f"{_counts[True]} passed, {_counts[False]} failed")
    sys.exit(1 if _counts[False] else 0)
