"""Proves and builds a program or the library of C: tools/build [CRATE], by default tlx, and all crates that it stands on, side by side.

Says on standard error what it builds and how far it is. A crate that can't be built ends it with status 70, and its
build.log says why.
"""

import sys
import time

from tlxtools.lanes import Lanes

FAILED = 70


def main():
    crate = sys.argv[1] if sys.argv[1:] else "tlx"
    began = time.monotonic()

    def say(text):
        print(f"{crate} (launcher): {text}", file=sys.stderr, flush=True)

    say("only what is proved is built: this proves each crate below it once, which takes some minutes")
    with Lanes(say) as lanes:
        failed = lanes.build([crate])
    if failed:
        say(f"{failed} could not be built: see crates/{failed}/build.log")
        return FAILED
    say(f"built in {time.monotonic() - began:.0f} seconds")
    return 0
