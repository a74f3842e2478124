# SPDX-License-Identifier: Apache-2.0
"""tools/why: what it tells of a capture is what the daemon counts."""

import collections
import pathlib
import re
import socket

import captures
from tools_calls import *

KEY = bytes(range(1, 17))
NO_REPLY = bytes.fromhex("800A0008 80010004 00000000")  # a Return Path whose Control Code is 0 (RFC 9503, section 4.1.1)


def why(program, *words):
    return output(TOP / "tools" / "why", "--program", program, *words)


def rows_of(told):
    """The rows of a table of why: the count and the rest, with single blanks."""
    return [tuple(re.split(" {2,}", line.strip())) for line in told.splitlines()[2:]]


class Sent:
    """Datagrams to a daemon on the loopback interface, and a capture of them."""

    def __init__(self, folder, local):
        self.file = pathlib.Path(folder, "capture")
        self.local = (HOST, local)
        self.datagrams = []

    def note(self, source, destination, octets):
        ends = (captures.Endpoint(socket.inet_aton(host), port) for host, port in (source, destination))
        self.datagrams.append(captures.Datagram(MOMENT + len(self.datagrams), *ends, 64, octets))

    def send(self, made, *all_octets):
        for octets in all_octets:
            made.sendto(octets, self.local)
            self.note(made.getsockname(), self.local, octets)

    def answered(self, made, *all_octets):
        """Sends some, of which each is answered."""
        for octets in all_octets:
            self.send(made, octets)
            self.note(self.local, made.getsockname(), made.recv(70_000))

    def written(self):
        self.file.write_bytes(captures.write(self.datagrams))
        return self.file


@check
def what_a_daemon_counts_is_what_why_tells(program, folder):
    local, operator = free_ports(2)
    with sender() as plain, sender() as auth, sender() as stranger:
        file = written(folder, toml(locals=[f"{HOST}:{local}"], operator=f"{HOST}:{operator}") + f"""
[configs.edge]
tlvs = [3, 5, 10]
[configs.keyed]
key = "{KEY.hex()}"
[[sessions]]
peer = "{ends_of(plain)}"
ssid = 7
config = "edge"
[[sessions]]
peer = "{ends_of(auth)}"
mode = "auth"
config = "keyed"
""")
        sent = Sent(folder, local)
        with Daemon(program, file, operator) as daemon:
            sent.send(plain, plain_request(1, 8), plain_request(2, 9), plain_request(3, 7)[:20])
            sent.send(plain, plain_request(4, 7, NO_REPLY))
            sent.send(auth, authenticated_request(1, 0, bytes(16)), bytes(111))
            sent.send(stranger, plain_request(1, 7))
            sent.note(stranger.getsockname(), ("127.0.0.9", local), plain_request(1, 7))
            sent.note(stranger.getsockname(), (HOST, operator), b"none of the daemon's")
            sent.answered(plain, *(plain_request(number, 7) for number in range(5, 9)))
            sent.answered(auth, authenticated_request(2, 0, KEY), authenticated_request(3, 0, KEY))
            report = daemon.quit()
        told, status = why(program, file, sent.written())
        ends = [f"{HOST}:{made.getsockname()[1]}" for made in (plain, auth, stranger)]
        here = f"{HOST}:{local}"
    first = told.split("\n")[0]
    counted = {cause: int(count) for count, cause in re.findall(r"(\d+) ([a-zA-Z ]+)", first.partition(": ")[2])}
    daemons = collections.Counter()
    daemons |= {"answered": report.sum("sent"), "no session": report.sum("nosession"), "short": report.sum("short")}
    daemons |= {"bad HMAC": report.sum("badhmac"), "no reply is asked for": report.sum("noreply")}
    assert status == 0 and first.startswith("14 datagrams: 6 answered, 3 no session, "), told
    assert counted == daemons | {"not to a local address": 1}, (counted, report)
    assert sorted(rows_of(told)) == sorted([
        ("4", "answered", ends[0], here), ("2", "answered", ends[1], here),
        ("1", "no session", ends[0], here, "its SSID is 8, and the file has 7"),
        ("1", "no session", ends[0], here, "its SSID is 9, and the file has 7"),
        ("1", "no session", ends[2], here, f"the file has its address with port {ports_of(ends[:2])}"),
        ("1", "short", ends[0], here), ("1", "short", ends[1], here), ("1", "bad HMAC", ends[1], here),
        ("1", "no reply is asked for", ends[0], here), ("1", "not to a local address", ends[2], f"127.0.0.9:{local}"),
    ]), told


def ports_of(ends):
    return ", ".join(sorted((end.rpartition(":")[2] for end in ends), key=int))


@check
def why_tells_of_each_datagram_in_order(program, folder):
    file = written(folder, toml(locals=["0.0.0.0:862", f"[{':'.join(8 * ['0001'])}]:862"]) + """
[configs.edge]
[[sessions]]
peer = "192.0.2.20:5000"
config = "edge"
[[sessions]]
peer = "192.0.2.21:5000"
config = "edge"
local = 0
""")
    here, other = "192.0.2.10:862", "[1:1:1:1:1:1:1:1]:862"
    capture = capture_of(
        folder, ("192.0.2.20:5000", here, plain_request(1, 0)), ("192.0.2.20:5000", here, plain_request(2, 0)),
        ("[2001:db8::1]:5000", other, plain_request(1, 0)), ("192.0.2.21:5000", here, bytes(10)),
        ("192.0.2.20:5000", "192.0.2.10:53", b"none of ours"), ("192.0.2.23:862", here, plain_request(1, 0)),
        (other, "[2001:db8::1]:862", b"a reply, to a port that is ours as well"),
    )
    told, status = why(program, "--each", file, capture)
    day = "2025-12-02T16:00:00.00000"
    assert (told, status) == (f"""{day}0000Z 192.0.2.20:5000 to {here}, 44 octets: answered 0
{day}1000Z 192.0.2.20:5000 to {here}, 44 octets: answered 1
{day}2000Z [2001:db8::1]:5000 to {other}, 44 octets: no session: the file has no session of its address
{day}3000Z 192.0.2.21:5000 to {here}, 10 octets: no session: it is too short to have an SSID
{day}5000Z 192.0.2.23:862 to {here}, 44 octets: no session: the file has no session of its address
""", 0), (told, status)


@check
def why_finds_a_few_senders_in_a_file_of_more_sessions_than_a_replay_holds(program, folder):
    text = toml(locals=[f"{HOST}:862"], slots=16_384) + "[configs.edge]\n"
    peers = [f"10.0.{at >> 8}.{at & 255}:5000" for at in range(1, 3001)]
    text += "".join(f'[[sessions]]\npeer = "{peer}"\nconfig = "edge"\n' for peer in peers)
    file = written(folder, text)
    few = capture_of(folder, *((peer, f"{HOST}:862", plain_request(1, 0)) for peer in peers[-5:]))
    told, status = why(program, file, few)
    assert status == 0 and told.startswith("5 datagrams: 5 answered\n"), told
    told, status = why(program, file, capture_of(folder, *((peer, f"{HOST}:862", plain_request(1, 0)) for peer in peers)))
    assert (told, status) == ("why: the capture has senders of 3,000 sessions, and a replay holds 1,024: cut it\n", 3), told


@check
def what_why_cannot_read_is_told_in_one_line(program, folder):
    capture = capture_of(folder, ("192.0.2.20:5000", f"{HOST}:862", b""))
    file = written(folder, toml(locals=[f"{HOST}:862"]) + "[configs.edge]\n")
    faulty = pathlib.Path(folder, "faulty.toml")
    faulty.write_text('locals = ["127.0.0.1:862"]\nworkers = 65\n[configs.edge]\n')
    for words, wanted, status in (
        ((faulty, capture), f"why: {faulty}: stampd: configuration: limit workers\n", 3),
        (("/no/such/file", capture), "why: /no/such/file: stampd: file failed\n", 3),
        ((file, file), f"why: {file}: the file is neither pcap nor pcapng\n", 4),
        ((file, "/no/such/capture"), "why: /no/such/capture: No such file or directory\n", 4),
        (("--program", "/no/such/program", file, capture), "why: /no/such/program: No such file or directory\n", 5),
    ):
        assert why(program, *words) == (wanted, status), (words, why(program, *words))
    assert why(program, file)[1] == 2, "a missing word is taken"
    assert why(program, file, capture_of(folder)) == ("0 datagrams: 0 answered\n", 0)


@check
def the_sample_of_the_documents_is_what_why_tells(program, folder):
    here = "192.0.2.10:862"
    answered = [("192.0.2.20:5000", here, plain_request(number, 1)) for number in range(5)]
    capture = capture_of(
        folder, *answered, ("192.0.2.20:5000", here, plain_request(5, 8)), ("192.0.2.22:5000", here, plain_request(1, 0)),
        ("192.0.2.21:5000", here, authenticated_request(1, 0, KEY)), ("192.0.2.21:5000", here, bytes(111)),
    )
    told, status = why(program, TOP / "examples" / "edge.toml", capture)
    sample = "".join(f"    {line}\n" for line in told.splitlines())
    assert status == 0 and sample in (TOP / "docs" / "OPERATING.md").read_text(), told


@check
def a_damaged_capture_is_read_or_refused_by_name(program, folder):
    frame = bytes(12) + b"\x81\0\0\5\x08\0" + captures.packet_of(
        captures.Datagram(MOMENT, address("192.0.2.20:5000"), address(f"{HOST}:862"), 64, plain_request(1, 0))
    )
    block = lambda kind, body: kind + (len(body) + 12).to_bytes(4, "big") + body + (len(body) + 12).to_bytes(4, "big")
    section = block(bytes.fromhex("0A0D0D0A"), bytes.fromhex("1A2B3C4D 0001 0000") + b"\xff" * 8)
    interface = block(bytes.fromhex("00000001"), bytes.fromhex("0001 0000 00040000 0009 0001 09000000"))
    packet = block(bytes.fromhex("00000006"), bytes(12) + 2 * len(frame).to_bytes(4, "big") + frame + bytes(-len(frame) % 4))
    found = collections.Counter()
    for whole in (section + interface + packet, captures.write(captures.read(section + interface + packet))):
        for at in range(len(whole)):
            for damage in (whole[:at], whole[:at] + bytes([whole[at] ^ 0x81]) + whole[at + 1 :]):
                try:
                    found[len(list(captures.read(damage)))] += 1
                except captures.CaptureFault as fault:
                    found[str(fault)] += 1
    assert found[1] and found[0] and found["a block of the capture is damaged"], found
