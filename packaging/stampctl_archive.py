#!/usr/bin/env python3
# SPDX-License-Identifier: Apache-2.0
"""Makes one program of stampctl, which runs wherever Python 3.11 or later is:  packaging/stampctl_archive.py FILE"""

import io
import pathlib
import sys
import zipapp

SOURCE = pathlib.Path(__file__).resolve().parent.parent / "control"


def archive():
    """The octets of the program."""
    made = io.BytesIO()
    zipapp.create_archive(SOURCE, made, "/usr/bin/env python3", filter=lambda file: file.suffix == ".py", compressed=True)
    return made.getvalue()


def main():
    if len(sys.argv) != 2:
        print("usage: packaging/stampctl_archive.py FILE", file=sys.stderr)
        return 2
    try:
        target = pathlib.Path(sys.argv[1])
        target.write_bytes(archive())
        target.chmod(0o755)
    except OSError as fault:
        print(f"stampctl_archive.py: {sys.argv[1]}: {fault.strerror}", file=sys.stderr)
        return 1
    return 0


if __name__ == "__main__":
    sys.exit(main())
