# SPDX-License-Identifier: Apache-2.0
"""What stampctl tells of a configuration file, and how it brings a daemon to one."""

import os
import pathlib
import random
import re
import resource
import socket
import subprocess
import sys

import file_model
import random_files
from stampctl import conf_file, faults
from stampctl_calls import *


# ---- explain


def explained(folder, text, *before, **options):
    """What is told of a file of this text, its name being FILE, and the status."""
    file = written(folder, text)
    told, status = output(*before, STAMPCTL, "explain", file, **options)
    return told.replace(str(file), "FILE"), status


@check
def explain_tells_line_and_column_of_what_is_no_toml(program, folder):
    for text, place in (
        ('locals = ["127.0.0.1:862"]\nworkers == 2\n', "FILE:2:10: not TOML 1.0: "),
        ("a = 1\na = 2\n", "FILE:2:6: not TOML"),
        ("[configs.edge", "FILE:1: not TOML"), (f"limit = {2**63}\n", f"FILE: not TOML: {2**63} fits no signed 64 bits"),
        (f"x = {'[' * 200}{']' * 200}\n", "FILE: not TOML: it nests more than 80 deep"),
    ):
        told, status = explained(folder, text)
        assert status == 6 and told.startswith(f"stampctl: {place}") and told.count("\n") == 1, (text, status, told)
        file = pathlib.Path(folder, "stampd.toml")
        assert output(program, "check", file) == ("stampd: configuration: not toml\n", 3), text
    file.write_bytes(b"a = 1\nb = '\xff'\n")
    told, status = output(STAMPCTL, "explain", file)
    assert status == 6 and told.endswith("stampd.toml:2:6: not TOML: octet 0xff isn't UTF-8\n"), told


@check
def explain_tells_a_file_that_is_not_there_or_too_long(program, folder):
    missing = pathlib.Path(folder, "none")
    assert output(STAMPCTL, "explain", missing) == (f"stampctl: {missing}: No such file or directory\n", 5)
    told = explained(folder, "#" * 1_048_577)
    assert told == ("stampctl: FILE: has 1048577 octets, and a file has at most 1048576\n", 5), told


@check
def explain_tells_each_fault_with_its_place(program, folder):
    text = """locals = ["[::1]:862", "localhost:862"]
wokers = 2
slots = 0
[configs.edge]
key = "0"
[[sessions]]
peer = "192.0.2.1:5000"
config = "edge"
local = 2
[[sessions]]
config = "core"
mode = "twamp"
"""
    told, status = explained(folder, text)
    lines = (
        f'FILE:1: locals.0: "[::1]:862" is to be spelled "{SIX}:862"',
        'FILE:1: locals.1: "localhost:862" is the name of a host; its address is wanted',
        "FILE:2: wokers: isn't known; is workers meant?", "FILE:3: slots: 0 isn't a number from 1 to 16384",
        "FILE:5: configs.edge.key: wants octets, each in two hexadecimal digits, as a text",
        "FILE:9: sessions.0.local: 2 isn't a number from 0 to 1, the places of locals",
        "FILE:10: sessions.1.peer: is missing", 'FILE:11: sessions.1.config: "core" isn\'t one of the configurations',
        "stampctl: FILE: 8 faults",
    )
    missing = [line for line in lines if line not in told.splitlines()]
    assert status == 6 and not missing and told.count("\n") == len(lines), (missing, told)


@check
def explain_tells_what_does_not_go_together(program, folder):
    sessions = (
        session("192.0.2.1:5000", 3, mode="twamp") + session("192.0.2.2:5000", reflect=4)
        + session("192.0.2.3:5000", mode="auth") + session("192.0.2.4:5000") + session("192.0.2.4:5000", 1, mode="twamp")
        + session("192.0.2.4:5000")
    )
    told, status = explained(folder, toml(locals=[at(862)]) + "[configs.edge]\n" + sessions)
    lines = (
        "FILE:3: sessions.0: is of mode twamp, and so its ssid is 0",
        "FILE:8: sessions.1: is of mode plain, and reflect and symmetrical are of mode twamp alone",
        "FILE:13: sessions.2: is of mode auth, and its configuration edge has no key",
        "FILE:22: sessions.4: has local and peer of sessions.3, whose mode is plain",
        "FILE:27: sessions.5: is the same session as sessions.3",
    )
    missing = [line for line in lines if line not in told.splitlines()]
    assert status == 6 and not missing, (missing, told)


def paths_of(octets):
    """The paths of the faults that explain finds in a file, or none where it isn't TOML."""
    try:
        return {found.path for found in conf_file.Conf(conf_file.root_of("FILE", octets)).faults()}
    except faults.FaultyFile:
        return None


def agrees(octets, told):
    """Whether explain finds the fault that a check tells, and none where it tells none."""
    paths = paths_of(octets)
    if told.startswith("ok "):
        return paths == set()
    fault = told.removeprefix("stampd: configuration: ")
    return paths is None if fault == "not toml" else bool(paths) and fault.partition(" ")[2] in paths


@check
def explain_finds_what_a_check_finds_and_nothing_else(program, folder):
    files = sorted((TOP / "tests" / "cases").glob("*.toml"))
    assert len(files) > 90, len(files)
    for file in files:
        told, _ = output(program, "check", file)
        assert agrees(file.read_bytes(), told.removesuffix("\n")), (file.name, told, paths_of(file.read_bytes()))
    for seed in range(1_000):
        octets = "".join(random_files.lines(random.Random(seed))).encode()
        told, _ = file_model.check(octets)
        assert agrees(octets, told.removesuffix("\n")), (seed, told, paths_of(octets))


@check
def explain_tells_which_address_cannot_be_bound_and_why(program, folder):
    local, other, operator = free_ports(3)
    edge = "[configs.edge]\n"
    words = dict(locals=[at(local)], operator=at(operator))
    told, status = explained(folder, toml(**words) + edge)
    assert (told, status) == ("FILE: nothing is wrong here, and each address can be bound\n", 0), told
    with socket.socket(type=socket.SOCK_DGRAM) as held, socket.create_server((HOST, operator)):
        held.bind((HOST, local))
        mine = f"it is in use by process {os.getpid()} (python3"
        for keys, path, why in (
            (words, "locals.0", f"{at(local)} can't be bound: {mine}"),
            (words, "operator", f"{at(operator)} can't be bound: {mine}"),
            (words | {"locals": [f"0.0.0.0:{local}"]}, "locals.0", mine),
            (words | {"locals": [f"192.0.2.77:{other}"]}, "locals.0", "no interface has 192.0.2.77 now; net.ipv4.ip_nonlo"),
            (words | {"locals": [at(other), f"0.0.0.0:{other}"]}, "locals.1", f"locals.0, {at(other)}, takes it in"),
        ):
            told, status = explained(folder, toml(**keys) + edge)
            line = next((line for line in told.splitlines() if f": {path}: " in line and "can't be bound" in line), "")
            assert status == 6 and why in line, (keys, told)
            assert output(program, "run", pathlib.Path(folder, "stampd.toml"))[1] in (9, 10), keys
    keys = words | dict(control=at(operator), twamp="edge")
    told, status = explained(folder, toml(**keys) + edge)
    assert status == 6 and f"operator: {at(operator)} can't be bound: control has it already" in told, told
    assert output(program, "run", pathlib.Path(folder, "stampd.toml"))[1] == 10


@check
def explain_tells_a_port_that_wants_a_right(program, folder):
    if int(pathlib.Path("/proc/sys/net/ipv4/ip_unprivileged_port_start").read_text()) <= 1:
        raise Skipped("each port is free here")
    words = wanted_setpriv("--bounding-set=-net_bind_service") if os.geteuid() == 0 else []
    told, status = explained(folder, toml(locals=[f"{HOST}:1"], operator=at(free_ports(1)[0])) + "[configs.edge]\n", *words)
    assert status == 6 and "CAP_NET_BIND_SERVICE" in told and "FILE:1: locals.0: " in told, told
    assert output(*words, program, "run", pathlib.Path(folder, "stampd.toml"))[1] == 9


@check
def explain_tells_a_link_local_address(program, folder):
    wanted_ipv6()
    local = f"[fe80:0000:0000:0000:0000:0000:0000:0001]:{free_ports(1)[0]}"
    told, status = explained(folder, toml(locals=[local]) + "[configs.edge]\n")
    assert status == 6 and "it is a link-local address, and a file gives no scope" in told, told


@check
def explain_tells_a_want_of_open_files(program, folder):
    """As the daemon has it: it doesn't serve under a limit that is told, and does under one with room for a connection."""
    *ports, control, operator = free_ports(5)
    keys = dict(locals=[at(port) for port in ports], control=at(control), operator=at(operator), twamp="edge")
    text = toml(**keys) + "[configs.edge]\n"
    limited = lambda limit: dict(preexec_fn=lambda: resource.setrlimit(resource.RLIMIT_NOFILE, (limit, limit)))
    told, status = explained(folder, text, sys.executable, **limited(9))
    assert status == 6 and "5 addresses want more open files than the limit here, 9 (ulimit -n)" in told, told
    file = pathlib.Path(folder, "stampd.toml")
    told, status = output(program, "run", file, **limited(9))
    assert status in (9, 10), (status, told)
    told = explained(folder, text, sys.executable, **limited(11))
    wanted = "FILE:1: locals: hint: the limit of open files here, 11 (ulimit -n), leaves 1 for connections\n"
    assert told == (wanted, 0), told
    streams = dict(stdin=subprocess.DEVNULL, stdout=subprocess.DEVNULL)
    with running(program, "run", file, **streams, **limited(11)):
        told = controls(at(operator), "wait", SECONDS)
        assert told == ("", 0), told


@check
def explain_hints_at_what_is_hardly_meant(program, folder):
    wanted_ipv6()
    any_six = SIX.replace("1]", "0]")
    mapped = "[0000:0000:0000:0000:0000:ffff:c000:0201]"
    ports = free_ports(5)
    keys = dict(locals=[f"0.0.0.0:{ports[0]}", f"{SIX}:{ports[1]}", at(ports[2]), f"{any_six}:{ports[3]}"])
    keys["operator"] = f"0.0.0.0:{ports[4]}"
    sessions = session("192.0.2.1:5000", local=1) + session(f"{SIX}:5000", local=2)
    sessions += session(f"{mapped}:5000", local=1) + session("192.0.2.1:5000", local=3)
    told, status = explained(folder, toml(**keys) + "[configs.edge]\n" + sessions)
    for line in (
        f"FILE:1: locals.0: hint: 0.0.0.0:{ports[0]} answers from an address that the system chooses; name each",
        f"FILE:5: sessions.0.peer: hint: is of IPv4, and local 1, {SIX}:{ports[1]}, of IPv6: no datagram matches",
        f"FILE:10: sessions.1.peer: hint: is of IPv6, and local 2, {at(ports[2])}, of IPv4: no datagram matches",
        "FILE:15: sessions.2.peer: hint: is an IPv4-mapped address, from which no datagram comes to an address of IPv6",
        f"FILE:20: sessions.3.peer: hint: is of IPv4, and local 3, {any_six}:{ports[3]}, of IPv6: no datagram matches, "
        f'since a sender of IPv4 is "{mapped}" there',
        f"FILE:1: locals.3: hint: {any_six}:{ports[3]} answers from an address that the system chooses; name each",
        "FILE:2: operator: hint: asks for no password, and is reached from other machines unless a firewall keeps it",
    ):
        assert line in told.splitlines(), (line, told)
    assert status == 0 and told.count("\n") == 7, told
    told, status = explained(folder, toml(locals=[at(ports[0])]) + "[configs.edge]\n")
    assert status == 0 and "operator: hint: is missing" in told, told


# ---- apply


def applied(server, file, *words):
    return controls(server, "apply", file, *words)


def derived(program, server, file):
    """The name of the only configuration that a dry run tells."""
    told, status = applied(server, file, "--dry-run")
    assert status == 0, told
    (name,) = re.findall(r"^config ([0-9a-f]{16}) ", told, re.M)
    return name


@check
def apply_brings_a_daemon_to_its_file(program, folder):
    with sender() as made, sender() as other:
        file = session(ends_of(made), 7) + session("192.0.2.1:5000")
        with serving(program, folder, file) as (daemon, server, file):
            made.sendto(plain_request(1, 7), (HOST, daemon.port))
            assert made.recv(1000)[12] & 0x40 == 0
            text = file.read_text().replace("[configs.edge]", '[configs.edge]\nformat = "ptp"')
            file.write_text(text.replace("192.0.2.1:5000", ends_of(other)))
            name = derived(program, server, file)
            told, status = applied(server, file, "--dry-run")
            wanted = [
                f"config {name} (edge)", "close 0 192.0.2.1:5000 plain 0", f"set 0 {ends_of(made)} plain 7 {name}",
                f"open 0 {ends_of(other)} plain 0 {name} 0",
            ]
            assert (told.splitlines(), status) == (wanted, 0), told
            before = listing(("0", ends_of(made), "plain", "7", "1"), ("0", "192.0.2.1:5000", "plain", "0", "0"))
            assert controls(server, "list") == (before, 0), "a dry run has changed something"
            assert applied(server, file) == ("configs 1 closed 1 set 1 opened 1 left 0\n", 0)
            after = listing(("0", ends_of(made), "plain", "7", "1"), ("0", ends_of(other), "plain", "0", "0"))
            assert controls(server, "list") == (after, 0)
            for one, number, ssid in ((made, 1, 7), (other, 0, 0)):
                one.sendto(plain_request(9, ssid), (HOST, daemon.port))
                reply = one.recv(1000)
                assert int.from_bytes(reply[:4], "big") == number and reply[12] & 0x40, reply.hex()
            assert applied(server, file) == ("configs 1 closed 0 set 2 opened 0 left 0\n", 0)
            assert controls(server, "count", "0", ends_of(made), "plain", "7") == ("2\n", 0)


@check
def apply_while_datagrams_come_loses_none(program, folder):
    """The Multiplier of the Error Estimate, octet 13, tells under which of two configurations a reply was made."""
    with sender() as made, serving(program, folder, session(ends_of(made), 7), workers=2) as (daemon, server, file):
        texts = [file.read_text(), file.read_text().replace("[configs.edge]", "[configs.edge]\nmultiplier = 2")]
        sent = 0
        for turn in range(4):
            file.write_text(texts[turn % 2])
            with running(STAMPCTL, "-s", server, "apply", file, stdout=subprocess.DEVNULL) as applying:
                while applying.poll() is None:
                    made.sendto(plain_request(sent, 7), (HOST, daemon.port))
                    assert int.from_bytes(made.recv(1000)[:4], "big") == sent
                    sent += 1
            assert applying.returncode == 0
            made.sendto(plain_request(sent, 7), (HOST, daemon.port))
            assert made.recv(1000)[13] == 1 + turn % 2, turn
            sent += 1
        report = daemon.quit()
        assert (report.sum("taken"), report.sum("sent")) == (sent, sent), report


@check
def apply_changes_nothing_by_a_file_that_has_a_fault(program, folder):
    with serving(program, folder, session("192.0.2.1:5000")) as (daemon, server, file):
        for text, told in (
            ("locals = 3\n[configs.edge]\n", "locals: wants a list"), ("x", "not TOML"),
            (file.read_text() + session("192.0.2.2:5000", mode="twamp", reflect=4), "reflect or symmetrical"),
            (file.read_text() + session("192.0.2.1:5000"), "is the same session as sessions.0"),
        ):
            changed = pathlib.Path(folder, "changed")
            changed.write_text(text)
            found, status = applied(server, changed)
            assert status == 6 and told in found and found.startswith(f"stampctl: {changed}:"), (status, found)
        assert daemon.operator.ask("list") == "0 192.0.2.1:5000 plain 0 0"
        found, status = applied(server, pathlib.Path(folder, "none"))
        assert status == 5, found


@check
def apply_leaves_the_sessions_of_clients(program, folder):
    control = free_ports(1)[0]
    with serving(program, folder, session("192.0.2.1:5000"), control=at(control), twamp="edge") as (daemon, server, file):
        assert daemon.operator.ask("open 0 192.0.2.3:5000 twamp 0 edge 0") == "ok"
        assert daemon.operator.ask("open 0 192.0.2.4:5000 plain 0 edge 0") == "ok"
        assert applied(server, file) == ("configs 1 closed 1 set 1 opened 0 left 1\n", 0)
        rows = [("0", "192.0.2.1:5000", "plain", "0", "0"), ("0", "192.0.2.3:5000", "twamp", "0", "0")]
        assert controls(server, "list") == (listing(*rows), 0)
        assert applied(server, file) == ("configs 1 closed 0 set 1 opened 0 left 1\n", 0)


@check
def apply_tells_what_is_refused_and_does_the_rest(program, folder):
    with serving(program, folder, slots=1) as (daemon, server, file):
        text = file.read_text().replace("slots = 1", "slots = 2")
        file.write_text(text + session("192.0.2.1:5000") + session("192.0.2.2:5000"))
        told, status = applied(server, file)
        assert status == 1 and "configs 1 closed 0 set 0 opened 2 left 0 refused 1\n" in told, (status, told)
        assert f"stampctl: {server}: refused: full live 1 " in told and ": open 0 192.0.2.2:5000 plain 0 " in told, told
        assert daemon.operator.ask("list") == "0 192.0.2.1:5000 plain 0 0"


@check
def apply_stops_where_a_configuration_is_refused(program, folder):
    with serving(program, folder, session("192.0.2.1:5000")) as (daemon, server, file):
        for number in range(255):
            assert daemon.operator.ask(f"config n{number} 00000001{'00' * 72}") == "ok"
        file.write_text(file.read_text().replace("192.0.2.1", "192.0.2.2"))
        told, status = applied(server, file)
        assert status == 1 and "refused: names full: config " in told and told.count("\n") == 1, (status, told)
        assert daemon.operator.ask("list") == "0 192.0.2.1:5000 plain 0 0"


@check
def apply_prints_no_key_and_takes_the_operator_of_the_file(program, folder):
    with serving(program, folder) as (daemon, server, file):
        key = "00112233445566778899aabbccddeeff"
        file.write_text(file.read_text() + toml(key=key) + session("192.0.2.1:5000", mode="auth"))
        own = {name: value for name, value in os.environ.items() if name != "STAMPCTL_SERVER"}
        told, status = output(STAMPCTL, "apply", file, "--dry-run", env=own)
        assert status == 0 and "config " in told and key[:8] not in told, told
        assert output(STAMPCTL, "apply", file, env=own) == ("configs 1 closed 0 set 0 opened 1 left 0\n", 0)
        assert daemon.operator.ask("list") == "0 192.0.2.1:5000 auth 0 0"
