# SPDX-License-Identifier: Apache-2.0
"""Operates a running stampd over its operator's port, and tells what is wrong with a file or an address.

`command_line` has the commands and `faults` the exit statuses. `operator_port` is the connection, `conf_file` the
configuration file, and `system` what Linux tells of sockets and processes.
"""

VERSION = "0.1.0"
