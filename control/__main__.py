# SPDX-License-Identifier: Apache-2.0
"""The program `stampctl`, run from this folder or from the archive that is made of it."""

import sys

if sys.version_info < (3, 11):
    print("stampctl: Python 3.11 or later is wanted, and this is %d.%d" % sys.version_info[:2], file=sys.stderr)
    sys.exit(7)

from stampctl.command_line import main

sys.exit(main())
