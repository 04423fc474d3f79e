"""Says within half a minute what `rt ci` would refuse before it proves anything: a file that is not formatted, one that no check reads, a
link, a word that would stand for another than a reader takes it for. Names crates, or takes all: tools/quick [CRATE..].

It proves nothing. The last line is 'N passed, M failed', by crates.
"""

import contextlib
import sys
import tempfile

from tlxtools.crate_list import crates
from tlxtools.kit import kit_crate, rt


def refusal(name):
    """Why `rt ci` would refuse a crate unproved; nothing if it would not."""
    crate, lib = kit_crate(name), rt().rtlib
    with tempfile.TemporaryFile("w+", encoding="utf-8") as said:
        with contextlib.redirect_stdout(said), contextlib.redirect_stderr(said), contextlib.suppress(SystemExit):
            lib.stop_on_links(crate.folder)
            lib.stop_on_unread(crate.folder, [kit_crate(other) for other in crates()])
            lib.stop_on_text(crate, "verdict")
            rt().stop_on_words(crate)
            if not lib.fmt(crate.folder, "--check", said):
                return ""
        said.seek(0)
        return said.read().strip()[-600:] or "it is refused"


def main():
    names = sys.argv[1:] or list(crates())
    refusals = {name: why for name in names if (why := refusal(name))}
    for name, why in refusals.items():
        print(f"{name}: {why}", file=sys.stderr)
    print(f"{len(names) - len(refusals)} passed, {len(refusals)} failed")
    return 1 if refusals else 0
