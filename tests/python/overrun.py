#!/usr/bin/env python3
"""Writes past the end of memory, as no call of the package does: overrun.py loop|copy. The check wants AddressSanitizer to see both.

`loop` is a store by library/tlx.c, `copy` one by the library, which copies the words of a fault.
"""

import ctypes
import sys

from tlx import _library

# of a size that ctypes takes from malloc
room = ctypes.create_string_buffer(100)
if sys.argv[1] == "loop":
    _library.judge_steps(None, None, 0, ctypes.addressof(room) + 98)
else:
    _library._fault_text(61, ctypes.addressof(room) + 80, 1000, None)
