# SPDX-License-Identifier: Apache-2.0
# For scripts to source: tells in one line what they need and isn't here, and fails then.

wanted_python() {
    if ! python3 -c 'import sys; sys.exit(sys.version_info < (3, 11))' 2>/dev/null; then
        echo "Python 3.11 or later isn't here as python3: put one first in PATH." >&2
        return 1
    fi
}

wanted_toolchain() {
    if ! command -v rt >/dev/null; then
        echo "The toolchain isn't here: no command is called rt. The README says which toolchain is meant." >&2
        return 1
    fi
}
