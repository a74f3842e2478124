# SPDX-License-Identifier: Apache-2.0
"""stampctl's commands of one line, its servers and its output."""

import contextlib
import os
import pathlib
import re
import socket
import subprocess

from stampctl_calls import *


# ---- one line of an operator


@check
def it_does_what_its_page_says(program, folder):
    with serving(program, folder) as (daemon, server, _), sender() as made:
        plain, auth = f"0 {ends_of(made)} plain 7", "0 192.0.2.1:5000 auth 0"

        def does(*rows):
            for words, wanted, status in rows:
                found = controls(server, *words.split())
                assert found == (wanted, status), f"{words}: {found}"

        refused = f"stampctl: {server}: refused: "
        does(
            ("list", listing(), 0),
            (f"open {plain} edge", "", 0),
            (f"open {plain} edge", f"{refused}duplicate\n", 1),
            ("open 0 192.0.2.7:5000 plain 1 edge 60", "", 0),
            (f"open {auth} edge", f"{refused}no key\n", 1),
            ("config keyed --key 00ff --format ptp --offset 37 --synced --scale 16 --multiplier 2 --tlvs 3,9", "", 0),
            ("config keyed", f"{refused}exists\n", 1),
            (f"open {auth} keyed", "", 0),
            (f"open 1 {ends_of(made)} plain 8 edge", f"{refused}local\n", 1),
            (f"set {plain} none", f"{refused}no config\n", 1),
        )
        made.sendto(plain_request(1, 7), (HOST, daemon.port))
        made.recv(1000)
        rows = [("0", ends_of(made), "plain", "7", "1"), ("0", "192.0.2.7:5000", "plain", "1", "0")]
        rows.append(("0", "192.0.2.1:5000", "auth", "0", "0"))
        does(
            (f"set {plain} keyed", "", 0),
            (f"count {plain}", "1\n", 0),
            ("list", listing(*rows), 0),
            (f"close {auth}", "0\n", 0),
            (f"close {auth}", f"{refused}no such\n", 1),
        )
        made.sendto(plain_request(2, 7), (HOST, daemon.port))
        reply = made.recv(1000)
        assert reply[:4] + reply[12:14] == bytes.fromhex("00000001 D002"), reply.hex()
        does(("quit", "", 0))
        report = daemon.ended()
        assert (report.end, report.live, report.closed, report.sum("sent")) == ("quit", 2, 1, 2), report


@check
def a_faulty_word_is_told_in_one_line_and_sends_nothing(program, folder):
    here = "0 192.0.2.1:5000"
    with socket.create_server((HOST, 0)) as nobody:
        server = at(nobody.getsockname()[1])
        for words, told in (
            ([], "COMMAND"), (["frob"], "frob"), (["count", "0", "192.0.2.1", "plain", "7"], "192.0.2.1"),
            (f"count {here} other 7".split(), "other"), ("count x 192.0.2.1:5000 plain 7".split(), "'x'"),
            (f"count {here} twamp 3".split(), "SSID 0"), (f"open {here} plain 7 edge 31536001".split(), "31536001"),
            (f"set {here} plain 7 BAD".split(), "'BAD' is no name"), (["config", "BAD"], "'BAD' is no name"),
            (["config", "x 00\nquit\n"], "is no name"), (["config", "a" * 17], "is no name"), (["config", ""], "is no name"),
            ("config a --multiplier 0".split(), "'0'"), ("config a --key 0".split(), "'0'"),
            ("config a --info 00".split(), "1 octets"), ("config a --tlvs 4".split(), "'4'"), (["wait"], "seconds"),
            ("quit --wait 0".split(), "'0'"), (["apply"], "file"), (["help", "frob"], "'frob'"),
        ):
            found, status = controls(server, *words)
            assert status == 2 and found.count("\n") == 1 and told in found, f"{words}: {status}, {found!r}"
        nobody.settimeout(0)
        with contextlib.suppress(BlockingIOError):
            nobody.accept()
            raise AssertionError("a faulty command line has made a connection")
    for server in (HOST, "127.0.0.1:0", "127.0.0.1:65536", "a b:8620", "300.0.0.1:8620", "[fe80::1%lo]:8620"):
        found, status = controls(server, "list")
        assert status == 2 and found.count("\n") == 1 and server in found, f"{server}: {status}, {found!r}"


@check
def a_name_with_a_line_end_ends_no_daemon(program, folder):
    with serving(program, folder) as (daemon, server, _):
        assert controls(server, "config", "x 00\nquit\n")[1] == 2
        assert controls(server, "open", "0", "192.0.2.1:5000", "plain", "7", "edge\nquit")[1] == 2
        assert daemon.operator.ask("list") == "ok 0"


@check
def help_and_version_are_told(program, folder):
    told, status = output(STAMPCTL, "--version")
    version = re.search(r"^## (\d+\.\d+\.\d+)", (TOP / "NEWS.md").read_text(), re.M)[1]
    assert (told, status) == (f"stampctl {version}\n", 0), told
    for words, wanted in ((["help"], "explain"), (["--help"], "explain"), (["help", "quit"], "--wait")):
        told, status = output(STAMPCTL, *words)
        assert status == 0 and wanted in told, (words, status, told)


# ---- servers


@check
def a_server_may_be_named_and_may_be_of_the_environment(program, folder):
    with serving(program, folder) as (_, server, _):
        name = server.replace(HOST, "localhost")
        assert controls(name, "list") == (listing(), 0)
        told = output(STAMPCTL, "list", env=os.environ | {"STAMPCTL_SERVER": name})
        assert told == (listing(), 0), told
        both = os.environ | {"STAMPCTL_SERVER": f"{name} {server}"}
        assert output(STAMPCTL, "list", env=both)[0].count("SERVER") == 1
        told = output(STAMPCTL, "quit", env=both)
        assert told[1] == 2 and output(STAMPCTL, "help", env=both)[1] == 0, told
    found, status = output(STAMPCTL, "list", env=os.environ | {"STAMPCTL_SERVER": "nowhere"})
    assert status == 2 and found.count("\n") == 1 and "STAMPCTL_SERVER: 'nowhere'" in found, (status, found)


@check
def a_fault_names_its_server(program, folder):
    server = at(free_ports(1)[0])
    assert controls(server, "list") == (f"stampctl: {server}: Connection refused\n", 3)
    told, status = controls("no-such-host.invalid:8620", "list")
    assert status == 3 and told.startswith("stampctl: no-such-host.invalid:8620: ") and told.count("\n") == 1, told


def told_of_stranger(answer):
    """What stampctl says to a server that answers so and leaves."""
    with socket.create_server((HOST, 0)) as stranger:
        server = at(stranger.getsockname()[1])
        streams = dict(stdout=subprocess.PIPE, stderr=subprocess.STDOUT)
        with running(STAMPCTL, "-s", server, "list", **streams, text=True) as client:
            taken, _ = stranger.accept()
            taken.recv(100)
            taken.sendall(answer)
            taken.close()
            told = client.communicate(timeout=SECONDS)[0]
    return told.replace(server, "SERVER"), client.returncode


@check
def a_stranger_is_no_daemon(program, folder):
    closed = "the connection was closed before any answer: no stampd, or one whose 32 connections are all taken"
    for answer, wanted in (
        (b"", f"stampctl: SERVER: {closed}"),
        (b"HTTP/1.1 400 Bad Request\r\n", "stampctl: SERVER: what answers there is no stampd: 'HTTP/1.1 400 Bad Request'"),
        (b"\xff\xfe\n", "stampctl: SERVER: what answers there is no stampd"),
        (b"0 192.0.2.1:5000 plain 7 3\n", "stampctl: SERVER: the daemon closed the connection"),
        (b"ok 1\n", "stampctl: SERVER: what answers there is no stampd: '1'"),
    ):
        found = told_of_stranger(answer)
        assert found == (f"{wanted}\n", 3), (answer, found)


@check
def a_daemon_whose_connections_are_taken_is_told_as_such(program, folder):
    with serving(program, folder) as (daemon, server, _), contextlib.ExitStack() as stack:
        for _ in range(31):
            held = Operator(stack.enter_context(daemon.connection()))
            assert held.ask("list") == "ok 0"
        told, status = controls(server, "list")
        assert status == 3 and told.startswith(f"stampctl: {server}: ") and "32 connections are all taken" in told, told


@check
def several_servers_are_listed_and_counted_together(program, folder):
    second = pathlib.Path(folder, "second")
    second.mkdir()
    gone = at(free_ports(1)[0])
    file = session("192.0.2.1:5000", 7)
    with serving(program, folder, file) as (one, first, _), serving(program, second, file) as (_, other, _):
        one.operator.ask("open 0 192.0.2.2:5000 plain 7 edge 0")
        heads, row = "SERVER LOCAL PEER MODE SSID DRAWS", ("0", "192.0.2.1:5000", "plain", "7", "0")
        rows = [(first, *row), (first, "0", "192.0.2.2:5000", "plain", "7", "0"), (other, *row)]
        told = controls(first, "-s", other, "list")
        assert told == (table_of(heads, *rows), 0), told
        told = controls(first, "-s", gone, "-s", other, "list", stderr=subprocess.DEVNULL)
        assert told == (table_of(heads, *rows), 3), told
        both = [(first, "0"), (other, "0"), ("SUM", "0")]
        told = controls(first, "-s", other, *"count 0 192.0.2.1:5000 plain 7".split())
        assert told == (table_of("SERVER DRAWS", *both), 0), told
        told, status = controls(first, "-s", other, *"count 0 192.0.2.2:5000 plain 7".split())
        assert status == 1 and f"stampctl: {other}: refused: no such\n" in told and f"{first}  0\n" in told, told
        told, status = controls(first, "-s", other, "quit")
        assert status == 2 and told.count("\n") == 1, (status, told)
        assert one.operator.ask("list").startswith("0 192.0.2.1:5000")


@check
def counts_of_several_servers_add_up(program, folder):
    second = pathlib.Path(folder, "second")
    second.mkdir()
    with sender() as made:
        file = session(ends_of(made), 7)
        with serving(program, folder, file) as (one, first, _), serving(program, second, file) as (two, other, _):
            for daemon, times in ((one, 3), (two, 2)):
                for number in range(times):
                    made.sendto(plain_request(number, 7), (HOST, daemon.port))
                    made.recv(1000)
            told = controls(first, "-s", other, "count", "0", ends_of(made), "plain", "7")
            rows = [(first, "3"), (other, "2"), ("SUM", "5")]
            assert told == (table_of("SERVER DRAWS", *rows), 0), told


@check
def a_session_of_another_family_than_its_local_is_hinted_at(program, folder):
    with serving(program, folder, session("192.0.2.1:5000")) as (_, server, _):
        told, status = controls(server, *"open 0 [::1]:4000 plain 7 edge".split())
        assert status == 0 and told.startswith("stampctl: hint: ") and "local 0" in told and "IPv6" in told, told
        assert controls(server, *"open 0 192.0.2.2:5000 plain 7 edge".split()) == ("", 0)


# ---- output


@check
def an_output_that_is_closed_or_full_has_its_own_status(program, folder):
    with serving(program, folder) as (_, server, _):
        words = [STAMPCTL, "-s", server]
        with open("/dev/full", "w") as full:
            ended = subprocess.run([*words, "list"], stdout=full, stderr=subprocess.PIPE, text=True)
        assert (ended.returncode, ended.stderr) == (8, "stampctl: the standard output: No space left on device\n"), ended
        ended = subprocess.run(["sh", "-c", '"$0" "$@" >&-', *words, "list"], stderr=subprocess.PIPE, text=True)
        assert (ended.returncode, ended.stderr) == (8, "stampctl: the standard output is closed\n"), ended
        with running(*words, "watch", stdout=subprocess.PIPE, stderr=subprocess.PIPE) as watch:
            watch.stdout.readline()
            watch.stdout.close()
            assert (watch.wait(SECONDS), watch.stderr.read()) == (8, b""), watch.returncode
