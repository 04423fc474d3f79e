"""Compares the words and the numbers of faults in each place where they stand with their sources (tests/tools/fault_places.py has the
sources), and then tests that comparison on a copy: one letter or number is changed in each place in turn, and it has to name that place. The last
line is 'N passed, M failed'. It needs no program.
"""

import os
import shutil
import tempfile

import fault_numbers
from fault_places import PAGES, Places
from fault_words import OtherForm
from harness import run_test, tell, tell_faults
from tlxtools.crate_list import TOP

# How many words have to be compared at least: far fewer are a reader that reads nothing.
LEAST = 1000
# A text of each place, and the same with one letter or number changed: the file, what stands there once, and what is put for it.
CHANGES = (
    ("crates/check_lines/src/verdict.rt", 'Mask => "wrong mask"', 'Mask => "wrong masc"'),
    ("crates/check_lines/src/verdict.rt", '"source in flight"', '"source in fligth"'),
    ("crates/check_lines/src/verdict.rt", '"wrong reply: expected "', '"wrong reply: expectet "'),
    ("crates/check_lines/src/verdict.rt", 'b"unlawful: line "', 'b"unlawful: lime "'),
    ("crates/check_lines/src/verdict.rt", '"late reply"', '"late repli"'),
    ("crates/check_lines/src/verdict.rt", '"no reply in time"', '"no reply in thyme"'),
    ("crates/check_lines/src/left.rt", '"incomplete: "', '"incomplet: "'),
    ("crates/check_lines/src/verdict.rt", '"empty: no request', '"empty: no requests'),
    ("crates/check_lines/specs/Verdict.antt", 'form.Size = codes "size out', 'form.Size = codes "sise out'),
    ("crates/check_lines/specs/Verdict.antt", 'NotSent = codes "no master', 'NotSent = codes "no mister'),
    ("crates/check_lines/specs/Verdict.antt", 'codes ", captured "', 'codes ", capture "'),
    ("crates/check_lines/specs/Verdict.antt", 'codes ", time " ++ decimal row.time', 'codes ", thyme " ++ decimal row.time'),
    ("crates/check_lines/specs/Verdict.antt", 'codes "late reply"', 'codes "lace reply"'),
    ("crates/check_lines/specs/Verdict.antt", 'codes "no reply in time"', 'codes "no reply in tune"'),
    ("crates/check_lines/src/breach.rt", "    NoReply,", "    NoAnswer,"),
    ("crates/check_lines/specs/Verdict.antt", 'codes " answered"', 'codes " answer"'),
    ("crates/check_lines/specs/Verdict.antt", "requests without reply, the first: line \"", "requests without reply, the last: line \""),
    ("crates/check_lines/specs/Verdict.antt", 'codes " D: "', 'codes " B: "'),
    ("crates/check_beats/src/fault.rt", "    Opcode,\n    Param,", "    Param,\n    Opcode,"),
    ("crates/check_watch/src/fault.rt", "    NotSent,\n    NotGiven,\n    /// What", "    NotGiven,\n    NotSent,\n    /// What"),
    ("crates/check_rows/src/fault.rt", "time falls", "time fails"),
    ("crates/check_text/src/fault.rt", "wrong header", "wrong leader"),
    ("crates/check_records/src/fault.rt", "row too long", "row to long"),
    ("crates/check_keys/src/fault.rt", "image can't be read", "image cant be read"),
    ("crates/check_keys/src/fault.rt", '=> "stride"', '=> "strike"'),
    ("crates/check_keys/specs/Key.antt", 'codes "stride"', 'codes "strike"'),
    ("crates/tl_map/src/address_map.rt", "} overlap", "} overlaps"),
    ("crates/tl_map/src/owners.rt", "share source", "share sources"),
    ("crates/tl_map/src/owners.rt", "memory refused", "memory refuses"),
    ("crates/check_program/src/fault.rt", "read failed", "read fails"),
    ("crates/tl_script/src/fault.rt", "bad operation", "bat operation"),
    ("crates/tl_script/specs/Key.antt", 'codes "slots"', 'codes "slot"'),
    ("crates/tl_script/src/map.rt", "empty range", "empty rang"),
    ("crates/tl_script/src/sources.rt", ': no source"', ': no sources"'),
    ("crates/tl_program/src/fault.rt", "thread refused", "thread refuses"),
    ("crates/tl_workers/src/fault.rt", "stray book", "stray look"),
    ("crates/tl_audit/src/fault.rt", "traced twice", "traced thrice"),
    ("crates/tl_streams/src/input.rt", "read failed", "read fails"),
    ("crates/tl_streams/src/streams.rt", '#[error("write failed")]', '#[error("write fails")]'),
    ("crates/check_model/src/fault.rt", "no such master", "no such mister"),
    ("crates/tl_c/src/draft.rt", "no image", "no images"),
    ("crates/tl_c/src/fault.rt", '"wrong corrupt flag"', '"wrong corrupt flak"'),
    ("crates/tl_c/src/fault.rt", '"longer than 1048576 bytes"', '"longer than 1048575 bytes"'),
    ("crates/tl_c/src/fault.rt", "NotSent => 47", "NotSent => 48"),
    ("crates/tl_c/src/fault.rt", "const LONG_IMAGE: u32 = 62", "const LONG_IMAGE: u32 = 61"),
    ("crates/tl_c/specs/Numbers.antt", "beat.NotSent = 47", "beat.NotSent = 48"),
    ("include/tlx.h", "TLX_WRONG_MASK = 36", "TLX_WRONG_MASK = 37"),
    ("include/tlx.h", "TLX_WRONG_MASK = 36", "TLX_WRONG_MASC = 36"),
    ("include/tlx.h", "TLX_NULL, TLX_NO_BYTE, TLX_DEVICE.", "TLX_NULL, TLX_NO_BYTE, TLX_DEVISE."),
    ("include/tlx.h", "handed in), TLX_BAD_PORTS, TLX_BAD_SOURCES. After", "handed in), TLX_BAD_SOURCES, TLX_BAD_PORTS. After"),
    ("include/tlx.h", "TLX_TWO_CALLED, TLX_IMAGE_UNREADABLE (of", "TLX_IMAGE_UNREADABLE, TLX_TWO_CALLED (of"),
    ("python/tlx/faults.py", "WRONG_MASK = 36", "WRONG_MASC = 36"),
    ("python/tlx/faults.py", "INCOMPLETE = 50", "INCOMPLETE = 51"),
    ("python/tlx/faults.py", "p0 D: wrong reply: expected", "p0 D: wrong repli: expected"),
    ("tests/c/check.c", 'TLX_WRONG_MASK: return "wrong mask"', 'TLX_WRONG_MASK: return "wrong masc"'),
    ("tests/c/models.c", "system: port 0: image can't be read", "system: port 0: image cant be read"),
    ("tests/c/judges.c", 'TLX_TWO_CALLED, "system: two', 'TLX_BAD_PORTS, "system: two'),
    ("tests/c/judges.c", "system: port 1: no image", "system: port 1: no images"),
    ("tests/python/calls.py", '"system: wrong type of port"', '"system: wrong tipe of port"'),
    ("docs/reference/faults.md", "| `wrong mask` | the mask", "| `wrong masc` | the mask"),
    ("docs/reference/faults.md", "| `late reply` | a reply", "| `lace reply` | a reply"),
    ("docs/reference/faults.md", "| `bad number` |", "| `bat number` |"),
    ("docs/guide/unlawful.md", "| `source in flight`, `reply without", "| `source in fight`, `reply without"),
    ("docs/reference/faults.md", "p0 D: size of another request`", "p0 D: size of other request`"),
    ("docs/reference/faults.md", "| `script: master 0: no source`", "| `script: master 0: no sources`"),
    ("docs/reference/faults.md", "| `system: missing first`", "| `system: missing fist`"),
    ("docs/reference/faults.md", "entry 2: out of order`", "entry 2: out of ordor`"),
    ("docs/reference/faults.md", "| `thread refused` | 4", "| `thread refused` | 5"),
    ("docs/guide/embedding.md", "# prints: unlawful: line 3, time 12, m0 D: wrong reply", "# prints: unlawful: line 3, time 12, m0 D: wrong repli"),
    ("docs/guide/embedding.md", "is `TLX_IMAGE_UNREADABLE`", "is `TLX_IMAGE_UNREADABEL`"),
    ("docs/reference/causes.md", "| `wrong corrupt flag` | d_corrupt", "| `wrong corrupt flak` | d_corrupt"),
    ("docs/reference/causes.md", "| `no reply in time` | a request or", "| `no reply in tune` | a request or"),
    ("docs/guide/unlawful.md", "p0 D: wrong reply: expected", "p0 D: wrong reply: expectet"),
    ("docs/tlcheck.1", "\nlawful: 4 rows", "\nlawful: 4 rovs"),
    ("docs/tlcheck.1", "p0 D: wrong reply", "p0 D: wrong repli"),
    ("docs/tlx.1", "A read or a write failed", "A read or a write fails"),
    ("README.md", "p0 D: wrong reply: expected", "p0 D: wrong reply: expectet"),
    ("tools/tlxtools/causes.py", '"unknown opcode"', '"unknown opcodes"'),
    ("tools/tlxtools/causes.py", '"no reply in time"', '"no reply in tune"'),
    ("tools/tlxtools/explanation.py", 'fault == "wrong mask"', 'fault == "wrong masc"'),
    ("tools/tlxtools/explanation.py", 'fault == "late reply"', 'fault == "lace reply"'),
    ("tools/tlxtools/explanation.py", "compile(r\"wrong reply: expected", "compile(r\"wrong reply: expectet"),
    ("tests/hostile/random_orders.py", "D: wrong reply: ", "D: wrong repli: "),
    ("tools/tlxtools/judge_model.py", 'Unlawful("wrong mask")', 'Unlawful("wrong masc")'),
    ("tools/tlxtools/judge_model.py", 'Unlawful("late reply")', 'Unlawful("lace reply")'),
    ("tools/tlxtools/judge_model.py", 'NoRow("time falls")', 'NoRow("time fails")'),
    ("tests/hostile/random_captures.py", '"unknown data D"', '"unknown data B"'),
    ("tests/hostile/random_captures.py", '"no reply in time"', '"no reply in tune"'),
    ("tests/hostile/random_captures.py", '"two beats at one time"', '"two beats at a time"'),
    ("tests/hostile/hostile.py", "past the end", "past the ent"),
    ("tests/hostile/hostile_systems.py", "no such channel", "no such chanel"),
    ("tests/hostile/hostile_systems.py", r"share source \d+|", r"share sources \d+|"),
    ("tests/hostile/hostile_systems.py", r"share source \d+)", r"share sources \d+)"),
    ("tests/tools/system_faults.py", '"name = 1": "wrong type of name"', '"name = 1": "wrong tipe of name"'),
    ("tools/tlxtools/commands/lint.py", '"too many ports"', '"to many ports"'),
    ("tests/tools/socket_faults.py", '"port 0: masters 1 and 0', '"port 0: master 1 and 0'),
    ("tools/tlxtools/commands/lint_system.py", "image is longer than its range", "image is longer then its range"),
    ("tools/tlxtools/lint_sockets.py", "}: too many masters", "}: to many masters"),
    ("tools/tlxtools/toml_lines.py", 'f"missing {key}"', 'f"mising {key}"'),
)
# What is missing of a place is named by the line on which the place begins.
LEFT_OUT = (
    ("tests/hostile/hostile_systems.py", "incomplete: ", "incomplet: "),
    ("tests/hostile/hostile_systems.py", "empty: no request", "empty: no bequest"),
    ("tools/tlxtools/causes.py", '    "wrong mask":', '    # "wrong mask":'),
    ("tests/hostile/random_captures.py", '"time falls", ', ""),
    ("tools/tlxtools/judge_model.py", '            raise NoRow("time falls")', "            return"),
    ("include/tlx.h", "  TLX_WRONG_MASK = 36,\n", ""),
    ("python/tlx/faults.py", "    WRONG_MASK = 36\n", ""),
    ("tests/c/check.c", '    case TLX_WRONG_MASK: return "wrong mask";\n', ""),
    ("docs/reference/faults.md", "| `time falls` | time 9 after time 10 |\n", ""),
    ("docs/reference/faults.md", "| `system: two are called uart0` | two ports of this name |\n", ""),
    ("docs/reference/faults.md", "| `Sources(NoSource(m))` | `script: master 0: no source` | `sources = 0` |\n", ""),
    ("tests/hostile/hostile.py", r"port \d+: past the end", ""),
    ("crates/tl_c/specs/Numbers.antt", "form_number form.Mask = 36\n", ""),
    ("crates/check_lines/specs/Verdict.antt", 'form_text form.Mask = codes "wrong mask"\n', ""),
)


def compared(top):
    """The places of a tree after all comparisons. A file of another form is one more failure."""
    places = Places(top)
    checks = [places.of_beats, places.of_beats_in_tools, places.of_captures, places.of_scripts, places.of_systems]
    checks += [lambda check=check: check(places) for check in fault_numbers.CHECKS]
    for check in checks:
        try:
            check()
        except OtherForm as fault:
            places.tell(False, str(fault))
    return places


class Copy:
    """A copy of the files that were read. In it one file at a time has another text."""

    def __init__(self, top, paths):
        self.top = top
        for path in paths:
            os.makedirs(os.path.dirname(os.path.join(top, path)), exist_ok=True)
            shutil.copy(os.path.join(TOP, path), os.path.join(top, path))

    def failures(self, path, change):
        """What is said of the copy while this file is changed."""
        place = os.path.join(self.top, path)
        with open(place, encoding="utf-8") as file:
            text = file.read()
        with open(place, "w", encoding="utf-8") as file:
            file.write(change(text))
        said = compared(self.top).failures()
        with open(place, "w", encoding="utf-8") as file:
            file.write(text)
        return said


def one_letter(copy, path, old, new, is_same_line):
    """Why a changed text is not named; nothing if it is."""
    with open(os.path.join(TOP, path), encoding="utf-8") as file:
        text = file.read()
    if old not in text:
        return f"{path}:1: the test of the test finds no {old!r}"
    # the line of what differs, since the text may begin with a line end
    line = 1 + text.count("\n", 0, text.index(old) + len(old) - len(old.lstrip("\n")))
    named = f"{path}:{line}" if is_same_line else f"{path}:"
    said = copy.failures(path, lambda text: text.replace(old, new, 1))
    return "" if any(named in one for one in said) else f"{named}: {new!r} in place of {old!r} is not named, but {said[:3]}"


def of_itself(paths):
    """What the test does not see: a changed letter, an entry that is left out, an empty file. One text for each try, empty if it was seen."""
    with tempfile.TemporaryDirectory() as top:
        copy = Copy(top, paths)
        for path, old, new in CHANGES:
            yield one_letter(copy, path, old, new, True)
        for path, old, new in LEFT_OUT:
            yield one_letter(copy, path, old, new, False)
        for path in sorted(paths):
            said = copy.failures(path, lambda _: "")
            yield "" if any(one.startswith(f"{path}:") for one in said) else f"{path}:1: nothing is said of an empty file"
        untried = paths - {path for path, _, _ in CHANGES} - set(PAGES)
        yield f"no letter is changed in {', '.join(sorted(untried))}" if untried else ""
        yield "the copy is not as it was" if compared(top).failures() else ""


def main():
    places = compared(TOP)
    for name, why in places.told:
        tell(name, not why, why)
    is_read = len(places.told) >= LEAST
    if not is_read:
        tell("words are compared", False, f"only {len(places.told)}, and {LEAST} are the least")
    # a tree that fails says nothing about the test
    if is_read and not places.failures():
        tell_faults("a change is told", of_itself(places.files.read))


if __name__ == "__main__":
    run_test(main)
