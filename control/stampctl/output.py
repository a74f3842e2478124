# SPDX-License-Identifier: Apache-2.0
"""The standard output: lines and tables. A write that fails is a fault of its own, told apart from those of the network."""

import os
import sys

from stampctl.faults import Unwritable, cause_of


def tell(text, end="\n"):
    """Writes a text and an end of line."""
    if sys.stdout is None:
        raise Unwritable("the standard output is closed")
    try:
        sys.stdout.write(text + end)
        sys.stdout.flush()
    except OSError as fault:
        # Else the interpreter tries the rest again at its end, and tells that fault as well.
        os.dup2(os.open(os.devnull, os.O_WRONLY), sys.stdout.fileno())
        raise Unwritable("" if isinstance(fault, BrokenPipeError) else f"the standard output: {cause_of(fault)}") from None


def hint(text):
    """Writes a remark to the standard error: nothing is refused for it."""
    print(f"stampctl: hint: {text}", file=sys.stderr)


def table(rows):
    """Rows of cells as lines whose columns stand below one another."""
    cells = [[str(cell) for cell in row] for row in rows]
    widths = [max(map(len, column)) for column in zip(*cells)]
    return ["  ".join(map(str.ljust, row, widths)).rstrip() for row in cells]


def tell_table(rows):
    tell("\n".join(table(rows)))
