#!/usr/bin/env python3
"""Runs tlxtools/kit.py, which says what it does and how it is used."""

import sys

sys.dont_write_bytecode = True
from tlxtools.kit import main  # noqa: E402

sys.exit(main())
