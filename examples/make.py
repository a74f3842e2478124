# SPDX-License-Identifier: Apache-2.0
"""Makes the octets of each .hex file beside it, as NAME.replay."""

import pathlib
import sys

here = pathlib.Path(__file__).parent
sys.path.insert(0, str(here.parent / "tests"))
from hex_text import octets

for source in sorted(here.glob("*.hex")):
    source.with_suffix(".replay").write_bytes(octets(source.read_text()))
