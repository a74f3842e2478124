# SPDX-License-Identifier: Apache-2.0
"""tools/delays: each way's delay, loss and order, by captures whose moments are known."""

import csv
import os
import pathlib
import sys
import time

import captures
from tools_calls import *

NTP, PTP = 0x0001, 0x4001  # Error Estimates
SINCE_1900 = 2_208_988_800
MICROSECOND = 1000
TAI = 37  # seconds that a PTP clock is ahead of UTC


def stamp(moment, error):
    """A moment as the timestamp that an Error Estimate says."""
    seconds, parts = divmod(moment, 10**9)
    first, second = (seconds + TAI, parts) if error == PTP else (seconds + SINCE_1900, -(-(parts << 32) // 10**9))
    return (first % 2**32).to_bytes(4, "big") + second.to_bytes(4, "big")


class Traffic:
    """Requests of one sender, and replies to some, at moments that a check says; microseconds since a common start."""

    ENDS = address("192.0.2.20:5000"), address("192.0.2.10:862")

    def __init__(self, mode, sender_error=NTP, reflector_error=NTP):
        self.mode, self.sender_error, self.reflector_error = mode, sender_error, reflector_error
        self.datagrams = []

    def stamp(self, at, error):
        """A timestamp, and its Error Estimate behind it."""
        return stamp(MOMENT + at * MICROSECOND, error) + error.to_bytes(2, "big")

    def sent(self, sequence, at):
        head, blank = sequence.to_bytes(4, "big"), bytes(12 if self.mode == "auth" else 0)
        ssid = b"" if self.mode == "twamp" else b"\0\7"
        self.note(at, head + blank + self.stamp(at, self.sender_error) + ssid + bytes(28), *self.ENDS)

    def replied(self, number, sequence, at, received, left, came):
        """A reply with this number to a request of this sequence number that was sent at a moment."""
        blank = 12 if self.mode == "auth" else 0
        fields = [number.to_bytes(4, "big"), bytes(blank), self.stamp(left, self.reflector_error), b"\0\7"]
        fields += [bytes(blank // 3), self.stamp(received, self.reflector_error)[:8], bytes(blank * 2 // 3)]
        fields += [sequence.to_bytes(4, "big"), bytes(blank), self.stamp(at, self.sender_error)]
        octets = b"".join(fields) + bytes(6)
        self.note(came, octets[:14] + bytes(2) + octets[16:] if self.mode == "twamp" else octets, *self.ENDS[::-1])

    def note(self, at, octets, source, destination):
        self.datagrams.append(captures.Datagram(MOMENT + at * MICROSECOND, source, destination, 64, octets))

    def written(self, folder):
        file = pathlib.Path(folder, "capture")
        file.write_bytes(captures.write(sorted(self.datagrams)))
        return file


def delays(*words):
    """The rows that tools/delays writes, by their names."""
    told, status = output(TOP / "tools" / "delays", *words)
    assert status == 0, told
    return list(csv.DictReader(told.splitlines()))


@check
def delays_losses_and_order_of_each_way_are_told(program, folder):
    traffic = Traffic("plain")
    for sequence in range(10, 20):
        traffic.sent(sequence, sequence * 1000)
    # number, sequence, received, left, came: 11 is overtaken there by 12, and 14 back by 15; 16 is lost there, 18 back.
    for number, sequence, received, left, came in (
        (0, 10, 10_300, 10_310, 10_710), (1, 12, 12_300, 12_310, 12_710), (2, 11, 12_500, 12_510, 12_910),
        (3, 13, 13_300, 13_310, 13_710), (4, 14, 14_300, 14_310, 15_900), (5, 15, 15_300, 15_310, 15_710),
        (6, 17, 17_300, 17_310, 17_710), (8, 19, 19_300, 19_310, 19_710), (8, 19, 19_300, 19_310, 19_720),
    ):
        traffic.replied(number, sequence, sequence * 1000, received, left, came)
    rows = delays(traffic.written(folder))
    found = [(row["sequence"], row["there_ns"], row["back_ns"], row["round_ns"], row["state"]) for row in rows]
    usual = ("300000", "400000", "700000", "answered")
    lost = ("", "", "")
    assert found == [
        ("10", *usual), ("11", "1500000", "400000", "1900000", "answered"), ("12", *usual), ("13", *usual),
        ("14", "300000", "1590000", "1890000", "answered"), ("15", *usual), ("16", *lost, "lost there"), ("17", *usual),
        ("18", *lost, "lost back"), ("19", *usual),
    ], found
    overtaken = [[row["sequence"] for row in rows if row[f"overtaken_{way}"] == "1"] for way in ("there", "back")]
    assert overtaken == [["11"], ["14"]], overtaken
    (sums,) = delays("--sums", traffic.written(folder))
    wanted = {
        "sender": "192.0.2.20:5000", "reflector": "192.0.2.10:862", "ssid": "7", "sent": "10", "answered": "8",
        "lost_there": "1", "lost_back": "1", "lost": "0", "doubled": "1", "overtaken_there": "1", "overtaken_back": "1",
        "there_least_ns": "300000", "there_median_ns": "300000", "there_most_ns": "1500000", "back_most_ns": "1590000",
    }
    assert wanted.items() <= sums.items(), sums


@check
def delays_are_told_of_each_mode_and_format_of_timestamps(program, folder):
    for mode in ("plain", "auth", "twamp"):
        for errors in ((NTP, NTP), (PTP, PTP), (NTP, PTP)):
            traffic = Traffic(mode, *errors)
            for sequence in range(3):
                traffic.sent(sequence, sequence * 1000)
            for sequence in (0, 2):
                at = sequence * 1000
                traffic.replied(sequence, sequence, at, at + 250, at + 260, at + 900)
            rows = delays("--mode", mode, "--offset", str(TAI), traffic.written(folder))
            found = [(row["there_ns"], row["back_ns"], row["state"]) for row in rows]
            usual = ("250000", "640000", "answered")
            assert found == [usual, ("", "", "lost"), usual], (mode, errors, found)


@check
def delays_of_a_talk_with_a_daemon_are_those_of_its_packets(program, folder):
    local, operator = free_ports(2)
    taken, wanted = [], []
    with sender() as made:
        session = f'[[sessions]]\npeer = "{ends_of(made)}"\nconfig = "edge"\nssid = 7\n'
        keys = toml(locals=[f"{HOST}:{local}"], operator=f"{HOST}:{operator}")
        ends = address(ends_of(made)), address(f"{HOST}:{local}")
        with Daemon(program, written(folder, f"{keys}[configs.edge]\n{session}"), operator):
            for sequence in range(100):
                begun = time.time_ns()
                request = sequence.to_bytes(4, "big") + stamp(begun, NTP) + b"\0\1\0\7" + bytes(28)
                made.sendto(request, (HOST, local))
                reply = made.recv(1000)
                came = time.time_ns()
                taken.append(captures.Datagram(begun, *ends, 64, request))
                taken.append(captures.Datagram(came, *ends[::-1], 64, reply))
                received, left = (since_1970(reply[place : place + 8]) for place in (16, 4))
                wanted.append((received - begun, came - left, "answered"))
                assert 0 < received - begun <= left - begun < came - begun, (begun, received, left, came)
    file = pathlib.Path(folder, "capture")
    file.write_bytes(captures.write(taken))
    rows = delays("--ports", str(local), file)
    found = [(int(row["there_ns"]), int(row["back_ns"]), row["state"]) for row in rows]
    assert found == wanted, next(pair for pair in zip(found, wanted) if pair[0] != pair[1])


def since_1970(octets):
    seconds, parts = (int.from_bytes(octets[at : at + 4], "big") for at in (0, 4))
    return (seconds - SINCE_1900) * 10**9 + (parts * 10**9 >> 32)


@check
def what_delays_cannot_read_or_draw_is_told_in_one_line(program, folder):
    traffic = Traffic("plain")
    traffic.sent(1, 0)
    capture = traffic.written(folder)
    absent = pathlib.Path(folder, "absent")
    absent.mkdir()
    (absent / "matplotlib.py").write_text("raise ImportError\n")
    without = "delays: there is no matplotlib here, which draws the picture: Debian has it as python3-matplotlib\n"
    for words, wanted in (
        (["/no/such/capture"], ("delays: /no/such/capture: No such file or directory\n", 4)),
        ([__file__], (f"delays: {__file__}: the file is neither pcap nor pcapng\n", 4)),
        (["--plot", f"{folder}/p.png", capture], (without, 5)),
    ):
        found = output(TOP / "tools" / "delays", *words, env=os.environ | {"PYTHONPATH": str(absent)})
        assert found == wanted, (words, found)
    assert not pathlib.Path(folder, "p.png").exists()
    for words in (["--ports", "0"], ["--ports", "x"], ["--mode", "other"]):
        assert output(TOP / "tools" / "delays", *words, capture)[1] == 2, words


@check
def delays_are_drawn_by_matplotlib(program, folder):
    if output(sys.executable, "-c", "import matplotlib")[1]:
        raise Skipped("there is no matplotlib here")
    traffic = Traffic("plain")
    for sequence in range(50):
        at = sequence * 1000
        traffic.sent(sequence, at)
        traffic.replied(sequence, sequence, at, at + 250, at + 260, at + 900)
    capture, picture = traffic.written(folder), pathlib.Path(folder, "delays.png")
    environment = os.environ | {"MPLCONFIGDIR": folder}
    words = [sys.executable, TOP / "tools" / "delays"]
    told, status = output(*words, "--plot", picture, capture, env=environment)
    assert status == 0 and told.count("\n") == 51, told
    assert picture.read_bytes().startswith(b"\x89PNG\r\n") and picture.stat().st_size > 10_000
    found = output(*words, "--plot", "/dev/null/delays.png", capture, env=environment)
    assert found == ("delays: /dev/null/delays.png: Not a directory\n", 5), found
    told, status = output(*words, "--plot", f"{folder}/delays.other", capture, env=environment)
    assert (status, told.count("\n")) == (5, 1), told
