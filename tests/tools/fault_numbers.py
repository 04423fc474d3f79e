"""Compares the numbers of faults, and the faults of runs, in each place where they stand with their sources (tests/tools/fault_places.py)."""

import re

from fault_places import FUNCTIONS, HEADER, NUMBER_SPEC, NUMBERS
from fault_words import OtherForm, Template, templates

# The calls that read a system file and make something of it, with those of an image, which answer the numbers of a file.
FILE_CALLS, MODEL_CALLS = ("tlx_system_read", "tlx_judge_make", "tlx_system_image"), ("tlx_system_read", "tlx_model_make", "tlx_system_image")
# The least number of a fault that is none of any call.
OWN = 10


def of_numbers(places):
    """The numbers of variants in the crate and its specification, and those of the header and of Python."""
    files = places.files
    for function in FUNCTIONS:
        spec = files.words(NUMBER_SPEC, rf"^{function} \(?\w+\.(?P<key>\w+)[^=\n]*= (?P<text>\d+)$", f"\nabbrev pub {function} :", "\n\n",
                           rf"^{function} .*= \d")
        places.keyed(places.numbers(function), spec)
    python = files.words("python/tlx/faults.py", r"^    (?P<key>[A-Z_]+) = (?P<text>\d+)$", "\nclass Fault(enum.IntEnum):\n", "    @property", " = ")
    places.keyed(places.header, python)
    places.ordered(places.header, python)
    rising = sorted(places.header, key=lambda said: int(said.text))
    places.ordered(rising, places.header)
    words = [said._replace(text=said.key, key="") for said in places.call_words]
    places.said([Template(said, (said.text,), said.text) for said in words], places.header)
    names = {said.key: said for said in places.header}
    for said in places.constants:
        # the library's own name of a number is the header's, or a variant's
        other = names.get(said.key)
        places.tell(other is not None and other.text == said.text, f"{said.at}: {said.key} is {said.text}, and {other.at if other else HEADER} has it not")


def of_words(places):
    """The words of each number: in the example of C, and those that are the words of a fault."""
    numbers = {said.key: said.text for said in places.header}
    example = places.files.words("tests/c/check.c", r'case TLX_(?P<key>\w+): return "(?P<text>[^"]+)"',
                                 "\nconst char *words_of(enum tlx_fault fault) {\n", "\n}\n", "case ")
    unnamed = [said for said in example if said.key not in numbers]
    for said in unnamed:
        places.tell(False, f"{said.at}: TLX_{said.key} is no name of {HEADER}")
    places.keyed(places.call_words, [said._replace(key=numbers[said.key]) for said in example if said.key in numbers])
    known = {said.key: said for said in places.call_words}
    beats = {said.key: said for said in places.beats}
    serve = {said.key: said for said in places.files.errors("crates/check_model/src/fault.rt", "ServeFault")}
    for function, source, front in (("form_number", beats, "Form."), ("beat_number", beats, ""), ("serve_number", serve, "")):
        for said in places.numbers(function):
            ours, theirs = source.get(front + said.key), known.get(said.text)
            is_well = ours is not None and theirs is not None and ours.text == theirs.text
            told = theirs or said
            places.tell(is_well, f"{told.at}: {told.text!r} of {said.key} is {ours and ours.text!r} at {ours.at if ours else 'no place'}")
    numbered = [said._replace(key="Form." + said.key) for said in places.numbers("form_number")] + places.numbers("beat_number")
    for said in places.beats:
        places.tell(said.key in {other.key for other in numbered}, f"{numbered[0].at}: {said.text!r} of {said.key} ({said.at}) has no number")
    places.ordered(sorted(numbered, key=lambda said: int(said.text)), numbered)


def of_lines(places):
    """Words of a number that are the end of a system file's line, or a part of it; a byte has no line, and its numbers have words alone."""
    known = {said.key: said for said in places.call_words}
    for said in places.numbers("file_number") + places.numbers("byte_number"):
        words = known.get(said.text)
        if said.key in ("Map", "Sources", "PortSources", "Missing", "TwoCalled", "Nowhere", "Device") or words is None:
            places.tell(words is not None, f"{said.at}: {said.text!r} of {said.key} has no words")
            continue
        wanted = places.memory.text if said.key == "Memory" else next((one.said.text for one in places.systems if one.key == (said.key,)), "")
        places.tell(words.text in wanted, f"{words.at}: {words.text!r} of {said.key} is not in {wanted!r}")


def of_examples(places):
    """The numbers that the examples of C want of lines."""
    numbers = {said.key: said.text for said in places.header}
    of_key = {said.key: said.text for said in places.numbers("file_number")}
    for said in places.files.words("tests/c/judges.c", r'TLX_(?P<key>\w+),\s*"(?P<text>[^"]*)"', "FILES[] = {\n", "\n};", "TLX_"):
        wanted = {of_key.get(one.key[0]) for one in places.systems if re.fullmatch(one.pattern, said.text)}
        places.tell(wanted == {numbers.get(said.key)},
                    f"{said.at}: TLX_{said.key} of {said.text!r} is not the number {sorted(map(str, wanted))} of {NUMBERS}")


def faults_of(places, call):
    """The names that stand in the comment of a call, in their order."""
    text = places.files.text(HEADER)
    found = re.search(rf"Faults: ((?:(?!\*/).)*)\*/\n(?:static inline )?\w+ {call}\(", text, re.S)
    if not found:
        raise OtherForm(f"{HEADER}:1: no faults of {call}")
    line = 1 + text.count("\n", 0, found.start())
    sentence = re.split(r"\.\s+(?:\* )?After\s", found[1])[0]
    made = [(line + sentence.count("\n", 0, name.start()), name[1]) for name in re.finditer(r"TLX_(\w+)", sentence)]
    if not made:
        raise OtherForm(f"{HEADER}:{line}: no faults of {call}")
    return made


# The faults that objects of C++ and Python answer, and no call of C.
OF_OBJECTS = {"EMPTY", "FULL"}


def of_orders(places):
    """The lists of the header: each name is there, each number of a reader is in its list, and two lists of one file agree."""
    numbers = {said.key: said.text for said in places.header}
    lists = {call: faults_of(places, call) for call in (*FILE_CALLS, "tlx_judge_read", "tlx_model_make", "tlx_model_serve", "tlx_model_peek",
                                                        "tlx_model_poke", "tlx_model_reset", "tlx_judge_step", "tlx_judge_reset", "tlx_judge_end")}
    for call, names in lists.items():
        for line, name in names:
            places.tell(name in numbers, f"{HEADER}:{line}: TLX_{name} of {call} is no fault")
    of_file = ("file_number", "image_number")
    for calls, functions, leave in ((FILE_CALLS, of_file, {"4"}), (MODEL_CALLS, of_file, {"4"}), (("tlx_judge_read",), ("file_number",), {"4", "62"}),
                                    (("tlx_model_serve",), ("serve_number",), set()), (("tlx_model_peek",), ("byte_number",), {"4"}),
                                    (("tlx_model_poke",), ("byte_number",), set())):
        there = {numbers.get(name) for call in calls for _, name in lists[call]}
        for said in (said for function in functions for said in places.numbers(function) if said.text not in leave):
            places.tell(said.text in there, f"{HEADER}:{lists[calls[0]][0][0]}: {said.text!r} of {said.key} ({said.at}) is not in the list of {calls[0]}")
    own = {call: [(line, name) for line, name in names if int(numbers.get(name, 0)) >= OWN] for call, names in lists.items()}
    of_judge, of_two = own["tlx_judge_read"], own["tlx_system_read"] + own["tlx_judge_make"]
    for one, other, word in ((of_judge, of_two, "two calls have"), (own["tlx_model_make"], own["tlx_judge_make"], "tlx_judge_make has")):
        places.tell(len(one) == len(other), f"{HEADER}:{one[0][0]}: {len(one)} faults, and {word} {len(other)}")
        for (line, name), (_, wanted) in zip(one, other):
            places.tell(name == wanted, f"{HEADER}:{line}: TLX_{name} stands where {word} TLX_{wanted}")
    used = {name for names in lists.values() for _, name in names}
    beats = {said.text for function in ("form_number", "beat_number") for said in places.numbers(function)}
    for said in places.header:
        places.tell(said.key in used or said.key in OF_OBJECTS or said.key == "OK" or said.text in beats, f"{said.at}: TLX_{said.key} is in no list of faults")
    names = places.files.words("docs/guide/embedding.md", r"\bTLX_(?P<text>[A-Z_]+)\b", every=r"\bTLX_")
    enums = re.findall(r"\bTLX_([A-Z_]+)\b", places.files.text(HEADER))
    for said in names:
        places.tell(said.text in enums, f"{said.at}: TLX_{said.text} is no name of {HEADER}")


def statuses(places):
    """The status of each fault of a run."""
    text, line = places.files.part("crates/tl_program/src/fault.rt", "pub fn status(&self) -> u8\n", "\n    }\n")
    made = {name: arm[2] for arm in re.finditer(r"((?:\|?\s*RunFault::\w+(?:\(_\))?\s*)+)=> (\d)", text) for name in re.findall(r"::(\w+)", arm[1])}
    if set(made) != {said.key for said in places.run_faults}:
        raise OtherForm(f"crates/tl_program/src/fault.rt:{line}: a fault has no status")
    return made


def of_runs(places):
    """The faults of runs in the layers below, on the page of formats and in the manual, with their statuses."""
    files, status = places.files, statuses(places)
    audit = templates(files.errors("crates/tl_audit/src/fault.rt", "AuditFault"))
    runs = [one for said in places.run_faults if said.key not in ("Script", "Audit", "Memory") for one in templates([said])]
    memory = Template(places.memory, ("Memory",), places.memory.text)
    keys = {said.key: said.text for said in places.run_faults}
    threads = files.errors("crates/tl_workers/src/fault.rt", "ThreadFault")
    reads = files.errors("crates/tl_streams/src/streams.rt", "ReadFault")
    inputs = [said for said in files.errors("crates/tl_streams/src/input.rt", "InputFault") if said.key != "Script"]
    checks = [said for said in files.errors("crates/check_program/src/fault.rt", "CheckFault") if said.key in ("Read", "Write", "Memory")]
    for said in (*threads, *reads, *inputs, *checks):
        places.tell(keys.get(said.key) == said.text, f"{said.at}: {said.text!r} of {said.key} is {keys.get(said.key)!r} ({places.run_faults[0].path})")
    places.said(runs, files.words("crates/tl_streams/src/streams.rt", r'#\[error\("(?P<text>[^"]+)"\)\]\npub struct WriteFault;'), is_whole=False)
    table = [said for said in files.table("docs/reference/faults.md", "| Fault | Line | Status |\n|---|---|---|\n", 1, 2) if said.key != "2"]
    places.said([*audit, *runs, memory], table)
    for said in table:
        wanted = "3" if any(re.fullmatch(one.pattern, said.text) for one in audit) else next(
            (status[one.key[0]] for one in [*runs, memory] if re.fullmatch(one.pattern, said.text)), "")
        places.tell(said.key == wanted, f"{said.at}: the status of {said.text!r} is {said.key}, and {wanted} at {places.run_faults[0].path}")
    of_manual(places, status)


def of_manual(places, status):
    """The statuses of docs/tlx.1, with the words of each fault that has no values."""
    manual = places.files.words("docs/tlx.1", r"^\.B (?P<key>\d)\n(?P<text>[^.].*)$", "\n.SH EXIT STATUS\n", ".SH", r"^\.B \d$")
    said_of = {said.key: said for said in manual}
    for said in places.run_faults:
        there = said_of.get(status[said.key])
        words = [] if "{" in said.text else said.text.split()
        missing = [word for word in words if not there or not re.search(rf"\b{word}\b", there.text, re.I)]
        places.tell(there is not None and not missing, f"{(there or manual[0]).at}: {said.text!r} ({said.at}) is not under status {status[said.key]}")


def of_memory(places):
    """Want of memory has the same words in each layer. This comes last: it is of all enums that were read."""
    for said in places.files.memories.values():
        places.tell(said.text == places.memory.text, f"{said.at}: {said.text!r} is {places.memory.text!r} at {places.memory.at}")


CHECKS = (of_numbers, of_words, of_lines, of_examples, of_orders, of_runs, of_memory)
