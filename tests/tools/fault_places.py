"""Compares the words and the numbers of faults in each place where they stand with their sources: check_lines for beats and for times, check_rows
for rows, check_keys for system files, tl_script for scripts, tl_program for runs, tl_c for numbers. Every failure names a file, a line and a
word."""

import functools
import re

from fault_words import NAME, REPLY, Files, OtherForm, Template, filled, templates

VERDICT, BEAT_SPEC = "crates/check_lines/src/verdict.rt", "crates/check_lines/specs/Verdict.antt"
# Where a row stands that is unlawful, and the words of the times that replies take, which have no number: calls have no limit.
PLACE, TIMED = "\nfn push_place(", "\npub fn push_breach("
NUMBERS, NUMBER_SPEC, HEADER = "crates/tl_c/src/fault.rt", "crates/tl_c/specs/Numbers.antt", "include/tlx.h"
FUNCTIONS = ("file_number", "image_number", "serve_number", "byte_number", "form_number", "beat_number")
LINES = r"(?:unlawful: line \d|incomplete: \d|empty: no|lawful: \d+ (?!rows`)|capture: line \d)"
C_STRING = r'"(?P<text>(?:script|system|unlawful|incomplete|empty|lawful): (?:[^"\\]|\\.)*)'
# Where lines of verdicts and of rows stand as examples.
PAGES = ("README.md", "docs/reference/faults.md", "docs/guide/first_run.md", "docs/guide/your_rtl.md", "docs/guide/embedding.md",
         "docs/guide/unlawful.md", "docs/guide/regression.md", "docs/release.md", "docs/tlcheck.1", "python/tlx/faults.py")
# What a line begins with: a place, and the word that stands there.
WORD = re.compile(r"\S+(?: (?:'[^']*'|\"[^\"]*\"))?")


class Places:
    """The places of a tree. `told` has each comparison: where it is and of which word, and a line if they do not agree."""

    def __init__(self, top):
        self.files, self.told = Files(top), []

    def tell(self, is_well, line):
        self.told.append((WORD.match(line)[0], "" if is_well else line))

    def failures(self):
        """The lines of what does not agree."""
        return [line for _, line in self.told if line]

    # ---- comparisons

    def keyed(self, source, place):
        """Each key of a source has the same words in a place, and there is no other."""
        theirs = {said.key: said for said in place}
        for said in source:
            other = theirs.pop(said.key, None)
            self.tell(other is not None, f"{place[0].at}: {said.text!r} of {said.key} ({said.at}) is missing")
            if other:
                self.tell(other.text == said.text, f"{other.at}: {other.text!r} of {said.key} is {said.text!r} at {said.at}")
        for said in theirs.values():
            self.tell(False, f"{said.at}: {said.text!r} of {said.key} is in no source ({source[0].path})")

    def ordered(self, source, place):
        """The words of a place stand in the order of a source."""
        ours, theirs = [said.text for said in source], [said.text for said in place]
        differ = next((at for at, (one, other) in enumerate(zip(ours, theirs)) if one != other), min(len(ours), len(theirs)))
        end = place[min(differ, len(place) - 1)]
        begin = source[min(differ, len(source) - 1)]
        self.tell(ours == theirs, f"{end.at}: {end.text!r} stands where {begin.at} has {begin.text!r}")

    def said(self, source, place, leave=(), is_whole=True):
        """Each text of a place is one of a source's; and each of these is there, but for keys that are left out."""
        left = {one.key: one for one in source if one.key not in leave}
        for said in place:
            found = [one for one in source if re.fullmatch(one.pattern, said.text)]
            self.tell(bool(found), f"{said.at}: {said.text!r} is in no source ({', '.join(sorted({one.said.path for one in source}))})")
            for one in found:
                left.pop(one.key, None)
        for one in left.values() if is_whole else ():
            self.tell(False, f"{place[0].at}: {one.said.text!r} ({one.said.at}) is missing")

    def parts(self, source, path, head, tail):
        """Each of some words stands in a part of a file that is a pattern."""
        text, line = self.files.part(path, head, tail)
        # a text that is cut into several stands there whole
        text = re.sub(r'"\n *rf?"', "", text)
        for said in source:
            self.tell(said.text in text, f"{path}:{line}: {said.text!r} ({said.at}) is missing")

    # ---- sources

    @functools.cached_property
    def form(self):
        return self.files.words(VERDICT, r'FormFault::(?P<key>\w+) => "(?P<text>[^"]+)"', "\nfn form_words(", every="=>", prefix="Form.")

    @functools.cached_property
    def wrong(self):
        """The words of a wrong reply, before each of its two replies."""
        return self.files.words(VERDICT, r'push_words_and_reply\(text, "(?P<text>[^"]+)"', "\nfn push_wrong_reply(", every=r"_reply\(text")

    @functools.cached_property
    def beats(self):
        """The faults of beats, in the order in which they are tried; of a wrong reply the first words."""
        made = self.files.words(VERDICT, r'Fault::(?P<key>\w+) => push_words\(text, "(?P<text>[^"]+)"\)', "\nfn push_fault(", every=r"Fault::\w+ =>")
        return [*self.form, *made, self.wrong[0]._replace(key="WrongReply", text=self.wrong[0].text.split(":")[0])]

    @functools.cached_property
    def times(self):
        """The faults of the times that replies take, in the order in which they are tried: after all those of beats."""
        return self.files.words(VERDICT, r'Breach::(?P<key>\w+) => push_timed\(text, names, row, "(?P<text>[^"]+)"\)', TIMED, every=r"Breach::(?!Beat\b)\w+")

    @functools.cached_property
    def fault_templates(self):
        """What the beat of a row may have, of a wrong reply the first words."""
        return templates([said._replace(types="") for said in [*self.beats, *self.times]])

    @functools.cached_property
    def whole_templates(self):
        """The same as lines have it, with the replies of a wrong one."""
        pattern = f"{re.escape(self.wrong[0].text)}{REPLY}{re.escape(self.wrong[1].text)}{REPLY}"
        return [one._replace(pattern=pattern) if one.key == ("WrongReply",) else one for one in self.fault_templates]

    def literals(self, function, path=VERDICT, tail="\n}\n"):
        """The words that a function appends."""
        return [said._replace(text=said.text.replace("\\n", "")) for said in self.files.words(path, r'b"(?P<text>[^"]+)"', function, tail, 'b"')]

    @functools.cached_property
    def line_templates(self):
        """The lines of verdicts, and of records that are no rows."""
        lawful, empty, unlawful = (self.literals(head) for head in ("\npub fn push_lawful(", "\npub fn push_empty(", PLACE))
        began = self.literals("", "crates/check_lines/src/left.rt")
        fault = "|".join(one.pattern for one in self.whole_templates)
        numbers = r"\d+".join(re.escape(said.text) for said in lawful)
        place = r"\d+".join(re.escape(said.text) for said in unlawful)
        left = r"\d+".join(re.escape(said.text) for said in [began[-1], *began[:-1]])
        channels = "|".join(re.escape(said.text) for said in self.channels)
        return [Template(lawful[0], ("lawful",), numbers), Template(unlawful[0], ("unlawful",), rf"{place}{NAME}(?:{channels})(?:{fault})"),
                Template(began[-1], ("incomplete",), rf"{left}\d+ [a-z]+ 0x[0-9a-f]+ \d"),
                Template(empty[0], ("empty",), re.escape(empty[0].text)), *self.rows]

    @functools.cached_property
    def channels(self):
        return self.files.words(VERDICT, r'Beat::(?P<key>\w)\(_\) => "(?P<text>[^"]+)"', "\nfn channel_words(", every="=>")

    @functools.cached_property
    def row_faults(self):
        return self.files.errors("crates/check_rows/src/fault.rt", "RowFault")

    @functools.cached_property
    def rows(self):
        """The lines of records that are no rows."""
        made = self.files.errors("crates/check_text/src/fault.rt", "CaptureFault")
        return [one for one in templates(made, RowFault=templates(self.row_faults)) if one.key not in (("Read",), ("Write",))]

    @functools.cached_property
    def row_words(self):
        """The words of those lines, without the line's number."""
        front = re.escape("capture: line ") + r"\d+" + re.escape(": ")
        if not all(one.pattern.startswith(front) for one in self.rows):
            raise OtherForm(f"crates/check_text/src/fault.rt:1: a line does not begin with {front!r}")
        return [one._replace(pattern=one.pattern[len(front):]) for one in self.rows]

    @functools.cached_property
    def memory(self):
        """The words of want of memory, which are those of a run."""
        return next(said for said in self.run_faults if said.key == "Memory")

    @functools.cached_property
    def run_faults(self):
        return self.files.errors("crates/tl_program/src/fault.rt", "RunFault")

    def keys(self, crate):
        return self.files.words(f"crates/{crate}/src/fault.rt", r'Key::(?P<key>\w+) => "(?P<text>\w+)"', "pub fn name(self)", "\n    }\n", "=>")

    def layers(self, crate, enum, key, *maps):
        """The lines of a fault that carries a key, or one of these faults of a map or of sources, each with its file."""
        carried = {name: templates(self.files.errors(f"crates/{file}.rt", name)) for name, file in maps}
        carried[key] = f"(?:{'|'.join(said.text for said in self.keys(crate))})"
        return templates(self.files.errors(f"crates/{crate}/src/fault.rt", enum), **carried)

    @functools.cached_property
    def scripts(self):
        return self.layers("tl_script", "ScriptFault", "ScriptKey", ("MapFault", "tl_script/src/map"), ("SourceFault", "tl_script/src/sources"))

    @functools.cached_property
    def systems(self):
        files = self.layers("check_keys", "SystemFault", "Key", ("AddressMapFault", "tl_map/src/address_map"),
                            ("SourceOwnerFault", "tl_map/src/owners"))
        images = self.files.errors("crates/tl_c/src/draft.rt", "ImageFault")
        return files + [one for said in images if said.key != "System" for one in filled(said, {"usize": r"\d+"})]

    @functools.cached_property
    def call_words(self):
        """The words of each number. A number may stand there by its name."""
        named = {said.key: said.text for said in self.constants}
        return [said._replace(key=named.get(said.key, said.key)) for head in ("\nfn call_words(", "\npub(crate) fn words(")
                for said in self.files.words(NUMBERS, r'^ {8}(?P<key>[A-Z]\w*|\d+) => "(?P<text>[^"]+)"', head, every=r"^ {8}[A-Z\d]\w* =>")]

    def variants(self, path, enum, prefix=""):
        """The variants of an enum, in their order."""
        return self.files.words(path, r"^ {4}(?P<text>(?P<key>[A-Z]\w*))", f"\npub enum {enum} {{\n", "\n}\n", prefix=prefix)

    @functools.cached_property
    def constants(self):
        """The numbers that have a name, of the faults of calls."""
        return self.files.words(NUMBERS, r"^(?:pub\(crate\) )?const (?P<key>\w+): u32 = (?P<text>\d+);", every="const ")

    def numbers(self, function):
        return self.files.words(NUMBERS, r"\w+::(?P<key>\w+)(?:\([^)]*\))? => (?P<text>\d+),", f"fn {function}(", every=r"=> \d")

    @functools.cached_property
    def header(self):
        return self.files.words(HEADER, r"^  TLX_(?P<key>\w+) = (?P<text>\d+)", "enum tlx_fault {", "};", r"^  TLX_")

    # ---- places

    def of_beats(self):
        spec = functools.partial(self.files.words, BEAT_SPEC)
        form = spec(r'form_text form\.(?P<key>\w+) = codes "(?P<text>[^"]+)"', every=r"form_text form\.", prefix="Form.")
        fault = spec(r'fault_text (?P<key>[A-Z]\w+) = codes "(?P<text>[^"]+)"', every="fault_text [A-Z]")
        self.keyed(self.beats[:-1], form + fault)
        self.ordered(self.wrong, spec(r'codes "(?P<text>[^"]+)"', "\nwrong_text expected captured =", "\n\n", "codes"))
        for function, head, tail in (("\npub fn push_lawful(", "\nlawful_line counts =", "10 ∷ []"), ("\npub fn push_empty(", "\nempty_line =", "10 ∷ []"),
                                     (PLACE, "\nunlawful_text names row =", "\n\n")):
            self.ordered(self.literals(function), spec(r'codes "(?P<text>[^"]+)"', head, tail, "codes"))
        self.ordered(self.literals("", "crates/check_lines/src/left.rt"), spec(r'codes "(?P<text>[^"]+)"', "\n-- where and when a request began\n",
                                                                               "10 ∷ []", "codes"))
        self.keyed(self.channels, spec(r'channel_text \((?P<key>\w) \w+\) = codes "(?P<text>[^"]+)"', every=r"channel_text \("))
        form = self.variants("crates/check_beats/src/fault.rt", "FormFault", "Form.")
        fault = [said for said in self.variants("crates/check_watch/src/fault.rt", "Fault") if said.key != "Form"]
        self.ordered([said._replace(text=said.key) for said in self.beats], [said._replace(text=said.key) for said in form + fault])
        times = [said for said in self.variants("crates/check_lines/src/breach.rt", "Breach") if said.key != "Beat"]
        self.ordered([said._replace(text=said.key) for said in self.times], times)
        self.keyed(self.times, spec(r'breach_line names row breach\.(?P<key>\w+) = timed_line names row \(codes "(?P<text>[^"]+)"\)',
                                    every=r"breach_line names row breach\."))

    def of_beats_in_tools(self):
        words, faults = self.files.words, self.fault_templates
        model = "tools/tlxtools/judge_model.py"
        self.said(faults, words(model, r'raise Unlawful\(f?"(?!unlawful: )(?P<text>[^":]+)', every=r'raise Unlawful\((?!f"unlawful: )'), [("UnknownData",)])
        self.said(self.row_words, words(model, r'raise NoRow\("(?P<text>[^"]+)"\)', every=r"raise NoRow\("))
        verdicts = [Template(one.said, one.key, f"{one.key[0]}") for one in self.line_templates[:4] if one.key != ("unlawful",)]
        letters = [one._replace(pattern=one.pattern + (r"\ [AD]" if one.key in (("Form.UnknownData",), ("UnknownData",)) else "")) for one in faults]
        self.said(letters + self.row_words + verdicts, words("tests/hostile/random_captures.py", r'"(?P<text>[^"]+)"', "\nKINDS = {\n", "}\n", '"[^"]+"'))
        causes = words("tools/tlxtools/causes.py", r'^    "(?P<text>[^"]+)": \[', "CAUSES = {\n", "\n}\n", r'": \[')
        self.said(faults, causes)
        self.said(faults, words("tools/tlxtools/explanation.py", r'fault == "(?P<text>[^"]+)"', every="fault == "), is_whole=False)
        self.ordered(causes, self.files.table("docs/reference/causes.md", "| Fault | Look at |\n|---|---|\n", 0))
        self.parts(self.wrong, "tools/tlxtools/explanation.py", "\nWRONG = re.compile(", "\n")
        line = self.literals(PLACE)
        self.parts([*line[:2], self.wrong[0]._replace(text=self.wrong[0].text.split(": ")[0])], "tests/hostile/random_orders.py", "\nWRONG = re.compile(", "\n")
        lawful, empty = (self.literals(f"\npub fn push_{kind}(") for kind in ("lawful", "empty"))
        ends = [*line, *self.wrong, *lawful, *empty, *self.literals("", "crates/check_lines/src/left.rt")]
        self.parts(ends, "tests/hostile/hostile_systems.py", "\nENDS = {\n", "\n}\n")

    def of_captures(self):
        """The tables of docs/reference/faults.md, in the order in which faults are tried."""
        table = functools.partial(self.files.table, "docs/reference/faults.md")
        found = table("| Text | When | Capture |\n|---|---|---|\n", 0)
        self.said(self.whole_templates, found)
        self.ordered([*self.beats, *self.times], [said._replace(text=said.text.split(": ")[0]) for said in found])
        kinds = table("| Kind | Such a row |\n|---|---|\n", 0)
        self.said(self.row_words, kinds)
        self.ordered([one.said for one in self.rows][-len(self.row_faults):], kinds[2:])
        explained = self.files.table("docs/guide/unlawful.md", "| Fault | What is printed |\n|---|---|\n", 0)
        denied = [Template(explained[0], (word,), word) for word in ("denied", "incomplete")]
        self.said(self.fault_templates + denied, explained, is_whole=False)
        self.said(self.row_words, self.files.errors("crates/check_records/src/fault.rt", "RecordFault")[:1], is_whole=False)
        self.said(self.rows, self.files.alternatives("tests/hostile/hostile_systems.py", "CAPTURE_FAULT"))
        for path in PAGES:
            self.said(self.line_templates, self.files.mentions(path, LINES), is_whole=False)
        man = self.files.words("docs/tlcheck.1", r"^(?P<text>.+)$", "\n.SH OUTPUT\n.nf\n", ".fi\n")
        self.said(self.line_templates[:4], man)

    def of_scripts(self):
        words, page = self.files.words, "docs/reference/faults.md"
        end = ("Map", "PastEnd")
        self.keyed(self.keys("tl_script"), words(
            "crates/tl_script/specs/Key.antt", r'script_key_name (?P<key>\w+) = codes "(?P<text>\w+)"', every="script_key_name [A-Z]"))
        table = self.files.table(page, "| Fault | Line | Such a script |\n|---|---|---|\n", 1, 0)
        memory = table.pop()
        self.tell(memory.text == self.memory.text, f"{memory.at}: {memory.text!r} is {self.memory.text!r} at {self.memory.at}")
        self.said(self.scripts, table)
        for said in table:
            key = tuple(re.findall(r"[A-Z]\w+", said.key))
            self.tell(any(one.key == key and re.fullmatch(one.pattern, said.text) for one in self.scripts), f"{said.at}: {said.text!r} is none of {said.key}")
        self.said(self.scripts + self.systems, self.files.mentions(page, r"(?:script|system): (?!\.)"), is_whole=False)
        self.said(self.scripts, self.files.alternatives("tests/hostile/hostile.py", "FAULT"))
        lint = self.files.calls("tools/tlxtools/commands/lint.py", "Fault", 1, "script: ")
        self.said(self.scripts, lint + self.files.calls("tools/tlxtools/toml_lines.py", "Fault", 1, "script: "), [end])

    def of_systems(self):
        words = self.files.words
        self.keyed(self.keys("check_keys"), words("crates/check_keys/specs/Key.antt", r'key_name (?P<key>\w+) = codes "(?P<text>\w+)"', every="key_name [A-Z]"))
        images, long = [("NoPort",), ("NoImage",)], ("TooLong",)
        table = self.files.table("docs/reference/faults.md", "| Line | Such a file |\n|---|---|\n", 0)
        self.said(self.systems, table)
        self.said(self.systems, self.files.alternatives("tests/hostile/hostile_systems.py", "SYSTEM_FAULT"), images)
        rows = [said for name in ("system_faults", "socket_faults") for said in self.files.values(f"tests/tools/{name}.py", "system: ")]
        self.said(self.systems, rows, [*images, long])
        places = ("commands/lint_system.py", "lint_sockets.py", "toml_lines.py")
        lint = [said for name in places for said in self.files.calls(f"tools/tlxtools/{name}", "Fault", 1, "system: ")]
        self.said(self.systems, lint, images)
        self.said(self.systems, words("tests/c/judges.c", C_STRING, "FILES[] = {\n", "\n};", "TLX_"), is_whole=False)
        known = self.systems + self.line_templates
        for path in ("tests/c/models.c", "tests/c/judges.c"):
            # a format of printf is no line
            texts = [said._replace(text=said.text.removesuffix("\\n")) for said in words(path, C_STRING) if "%" not in said.text]
            self.said(known, texts, is_whole=False)
        lines = self.files.strings("tests/python/calls.py", r"(?:script|system|unlawful|incomplete): \w+ ")
        self.said(known, [said._replace(text=said.text.rstrip("\n")) for said in lines], is_whole=False)
