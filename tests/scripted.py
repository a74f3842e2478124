# SPDX-License-Identifier: Apache-2.0
"""Cases that a pair of files does not say: how octets arrive, and tables of many inputs."""

import hashlib
import hmac
import os
import pathlib
import pty
import re
import select
import socket
import subprocess
import sys
import tempfile
import threading
import time
import tty

import load_model
from hex_text import octets
from records import *

TOP = pathlib.Path(__file__).resolve().parent.parent
SECONDS = 30
PIPE = subprocess.PIPE
CASES = []


def case(run):
    CASES.append(run)
    return run


def cases():
    return [(run.__name__, run) for run in CASES]


def start(program, words=("replay",), **streams):
    streams = {"stdin": PIPE, "stdout": PIPE, "stderr": PIPE, "bufsize": 0} | streams
    process = subprocess.Popen([program, *words], **streams)
    # A program that hangs is ended, so that no read or write here waits for ever.
    watch = threading.Timer(SECONDS, process.kill)
    watch.daemon = True
    watch.start()
    return process


def ends(process, status):
    """What is wrong with how a program ended."""
    try:
        found = process.wait(timeout=SECONDS)
    except subprocess.TimeoutExpired:
        process.kill()
        raise
    return None if found == status else f"status {found} in place of {status}"


def differs(what, found, wanted):
    return None if found == wanted else f"{what}: {found[:40].hex()} in place of {wanted[:40].hex()}"


def replay(program, given):
    ended = subprocess.run([program, "replay"], input=given, capture_output=True, timeout=SECONDS)
    return ended.stdout, ended.returncode


def take(stream, count):
    """The next octets of a stream, where they come while the input stays open."""
    out = b""
    while len(out) < count:
        ready, _, _ = select.select([stream], [], [], 20)
        if not ready:
            raise TimeoutError(f"{len(out)} of {count} octets of an answer came")
        piece = os.read(stream.fileno(), count - len(out))
        if not piece:
            raise AssertionError(f"the output ended after {len(out)} of {count} octets")
        out += piece
    return out


def answers_of(program, requests, opening_record):
    """The body of the answer to each request, sent as datagrams of one session."""
    found, status = replay(program, opening_record + b"".join(map(datagram, requests)))
    assert status == 0, f"status {status} in place of 0"
    assert found.startswith(opened()), "the session is not opened"
    bodies, at = [], len(opened())
    while at < len(found):
        length = int.from_bytes(found[at + 1 : at + 5], "big")
        bodies.append(found[at : at + 5 + length])
        at += 5 + length
    assert len(bodies) == len(requests), f"{len(bodies)} answers to {len(requests)} datagrams"
    return bodies


def cuts(program, request, opening_record, wanted):
    """Each cut of a request, where wanted gives its answer for the numbers drawn before."""
    drawn = 0
    lengths = range(len(request) + 1)
    bodies = answers_of(program, [request[:length] for length in lengths], opening_record)
    for length, body in zip(lengths, bodies):
        answer = wanted(length, drawn)
        if body != answer:
            return differs(f"cut to {length} octets", body, answer)
        drawn += len(answer) > 6
    return None


# ---- words


def usage(program, words):
    ended = subprocess.run([program, *words], input=opening(), capture_output=True, timeout=SECONDS)
    return (
        differs("the output", ended.stdout, b"stampd: usage\n")
        or (None if ended.returncode == 2 else f"status {ended.returncode} in place of 2")
    )


@case
def no_words_give_the_usage(program):
    return usage(program, [])


@case
def a_second_word_gives_the_usage(program):
    return usage(program, ["replay", "x"])


@case
def words_that_begin_with_a_dash_give_the_usage(program):
    for words in (["-"], ["--help"], ["-replay"], ["replay", "-"], ["--", "replay"]):
        if wrong := usage(program, words):
            return f"{words}: {wrong}"
    return None


@case
def other_spellings_give_the_usage(program):
    for words in ([""], ["Replay"], ["replay "], ["repla"], ["replays"], ["gen"]):
        if wrong := usage(program, words):
            return f"{words}: {wrong}"
    return None


# ---- generated loads


def gen(program, seed, count):
    words = [program, "gen", str(seed), str(count)]
    ended = subprocess.run(words, stdin=subprocess.DEVNULL, capture_output=True, timeout=SECONDS)
    return ended.stdout, ended.returncode


@case
def a_load_of_one_datagram_and_of_none_are_told(program):
    for count, told in (
        (1, b"datagrams 1\nsent 1\nnosession 0\noctets 186\n"),
        (0, b"datagrams 0\nsent 0\nnosession 0\noctets 48\n"),
    ):
        if (found := gen(program, 0, count)) != (told, 0):
            return f"{count}: {found}"
    return None


@case
def a_load_is_told_as_the_model_tells_it(program):
    for seed, count in ((0, 7), (1, 1000), (20261201, 1000), (2**32, 500), (9_999_999_999, 500)):
        if (found := gen(program, seed, count)) != (load_model.report(seed, count), 0):
            return f"{seed} {count}: {found} in place of {load_model.report(seed, count)}"
    return None


@case
def a_load_is_told_as_its_stream_is_answered(program):
    answers, status = replay(program, load_model.stream(7, 2000))
    told, _ = gen(program, 7, 2000)
    octets_told = int(told.split()[-1])
    if status or octets_told != len(answers):
        return f"status {status}, {octets_told} octets told in place of {len(answers)}"
    return None


@case
def a_load_of_200000_datagrams_is_told_twice_alike(program):
    first, status = gen(program, 7, 200_000)
    numbers = [int(number) for number in first.split()[1::2]]
    if status or numbers[0] != 200_000 or numbers[1] + numbers[2] != 200_000:
        return f"status {status}, {first}"
    return differs("a second run", gen(program, 7, 200_000)[0], first)


@case
def the_longest_load_has_a_million_datagrams(program):
    told, status = gen(program, 0, 1_000_000)
    return None if told.startswith(b"datagrams 1000000\n") and status == 0 else f"status {status}, {told}"


@case
def wrong_numbers_of_a_load_give_the_usage(program):
    for words in (
        [], ["0"], ["0", "1", ""], ["0", "1000001"], ["0", "10000000000"], ["10000000000", "1"], ["00", "1"], ["0", "01"],
        ["", "1"], ["0", ""], ["-1", "1"], ["+1", "1"], ["1", "-0"], ["0x1", "1"], [" 1", "1"], ["1", "1 "], ["1", "1.0"],
        ["18446744073709551616", "1"], ["\u0661", "1"],
    ):
        if wrong := usage(program, ["gen", *words]):
            return f"{words}: {wrong}"
    return None


# ---- configuration files


LOCALS = 'locals = ["192.0.2.10:862"]\n'
SMALL = LOCALS + "[configs.edge]\n"
ACCEPTED = b"ok locals 1 configs 1 sessions 0\n"


def fault(told):
    return b"stampd: configuration: " + told + b"\n", 3


def accepted(configs, sessions):
    return f"ok locals 1 configs {configs} sessions {sessions}\n".encode(), 0


def check(program, words, **streams):
    """What a check writes, and its status."""
    streams = {"stdin": subprocess.DEVNULL, "stdout": PIPE} | streams
    ended = subprocess.run([program, "check", *words], timeout=SECONDS, **streams)
    return ended.stdout, ended.returncode


def check_of(program, text):
    """What a check of a file with this text writes, and its status."""
    with tempfile.TemporaryDirectory() as folder:
        file = pathlib.Path(folder) / "reflector.toml"
        file.write_bytes(text if isinstance(text, bytes) else text.encode())
        return check(program, [file])


def checks(program, table):
    """What is wrong with the first text of a table that isn't answered as wanted."""
    for what, text, wanted in table:
        found = check_of(program, text)
        if found != wanted:
            return f"{what}: {found[0][:80]!r} and status {found[1]}"
    return None


def sessions(count):
    """As many sessions, each of its own peer."""
    peers = (f"10.{n >> 16}.{n >> 8 & 255}.{n & 255}:5000" for n in range(count))
    rows = ",\n".join(f'{{peer = "{peer}", config = "edge"}}' for peer in peers)
    return f"sessions = [\n{rows}\n]\n"


def configurations(count):
    """As many configurations, c0, c1 and so on, of which no two are equal."""
    rows = (f"[configs.c{n}]\noffset = {n & 255}\nscale = {n >> 8}\n" for n in range(count))
    return "".join(rows)


@case
def a_check_takes_one_word_that_begins_with_no_dash(program):
    for words in (["check"], ["check", "-"], ["check", "-f"], ["check", "a", "b"], ["Check", "a"], ["check", b"\xff"]):
        if wrong := usage(program, words):
            return f"{words}: {wrong}"
    return None


@case
def a_file_that_cannot_be_read_is_told(program):
    with tempfile.TemporaryDirectory() as folder:
        for what, word in (
            ("an empty word", ""),
            ("a folder", folder),
            ("a file that is not there", f"{folder}/reflector.toml"),
            ("a file within a file", "/dev/null/reflector.toml"),
            ("a name of 300 letters", "a" * 300),
            ("a name with a line end", f"{folder}/a\nb"),
        ):
            found = check(program, [word])
            if found != (b"stampd: file failed\n", 5):
                return f"{what}: {found[0][:80]!r} and status {found[1]}"
    return None


@case
def a_file_has_any_name_and_place(program):
    with tempfile.TemporaryDirectory() as folder:
        (pathlib.Path(folder) / "configuration").write_text(SMALL)
        for name in ("a b", "a\nb", "\u00e9", "replay", "x.-"):
            (pathlib.Path(folder) / name).symlink_to("configuration")
            found = check(program, [f"{folder}/{name}"])
            if found != (ACCEPTED, 0):
                return f"{name!r}: {found[0][:80]!r} and status {found[1]}"
    return None


@case
def a_file_has_at_most_1048576_octets(program):
    longest = SMALL.encode().ljust(1_048_575, b"#") + b"\n"
    return checks(
        program,
        [
            ("1,048,576 octets", longest, (ACCEPTED, 0)),
            ("one octet more", longest + b"\n", (b"stampd: file too long\n", 5)),
            ("one octet more, which is no text", longest + b"\xff", (b"stampd: file too long\n", 5)),
        ],
    )


@case
def a_file_without_end_is_too_long(program):
    found = check(program, ["/dev/zero"])
    return None if found == (b"stampd: file too long\n", 5) else f"{found[0][:80]!r} and status {found[1]}"


@case
def octets_that_are_no_text_are_no_toml(program):
    return checks(
        program,
        [
            ("an octet FF", SMALL.encode() + b"# \xff\n", fault(b"not toml")),
            ("an octet 00", SMALL.encode() + b"# \x00\n", fault(b"not toml")),
            ("a character that is cut", SMALL.encode() + b"# \xc3", fault(b"not toml")),
            ("UTF-16", SMALL.encode("utf-16"), fault(b"not toml")),
            ("an empty file", b"", fault(b"missing locals")),
        ],
    )


@case
def a_path_is_told_as_it_is(program):
    return checks(
        program,
        [
            ("a line end", '"a\\nb" = 1', fault(b"unknown a\nb")),
            ("a line end as the whole key", '"\\n" = 1', fault(b"unknown \n")),
            ("an octet 00", '"a\\u0000b" = 1', fault(b"unknown a\0b")),
            ("an escape", '"\\u001b[2J" = 1', fault(b"unknown \x1b[2J")),
            ("a letter of two octets", '"\u00e9" = 1', fault(b"unknown \xc3\xa9")),
            ("quotes and blanks", "' \"x\" ' = 1", fault(b'unknown  "x" ')),
            ("a line end below a session", f'sessions = [{{"a\\nb" = 1}}]\n{SMALL}', fault(b"unknown sessions.0.a\nb")),
            ("1,000,000 letters", f"{'a' * 1_000_000} = 1", fault(b"unknown " + b"a" * 1_000_000)),
        ],
    )


@case
def counts_that_pass_their_limits_are_told(program):
    return checks(
        program,
        [
            ("256 configurations", LOCALS + configurations(256), accepted(256, 0)),
            ("257", LOCALS + configurations(257), fault(b"limit configs")),
            ("1,024 sessions", sessions(1_024) + SMALL, accepted(1, 1_024)),
            ("a session more than slots where none are told", sessions(1_025) + SMALL, fault(b"limit sessions")),
            ("16,385 sessions", "slots = 16384\nsessions = [" + "{}," * 16_385 + "]\n" + SMALL, fault(b"limit sessions")),
        ],
    )


@case
def a_file_with_16384_sessions_is_checked_within_two_seconds(program):
    begun = time.monotonic()
    found = check_of(program, f"slots = 16384\n{sessions(16_384)}{SMALL}")
    seconds = time.monotonic() - begun
    if found != accepted(1, 16_384):
        return f"{found[0][:80]!r} and status {found[1]}"
    return None if seconds <= 2 else f"{seconds:.1f} seconds"


@case
def there_are_64_rows_where_none_are_told(program):
    def used(count):
        rows = "".join(
            f'[[sessions]]\npeer = "10.0.0.{n}:5000"\nconfig = "c{n}"\n' for n in range(count)
        )
        return LOCALS + configurations(count) + rows

    return checks(
        program, [("64", used(64), accepted(64, 64)), ("65", used(65), fault(b"limit rows"))]
    )


@case
def a_fault_deep_in_a_long_file_has_its_place(program):
    wrong = sessions(16_000).replace("10.0.62.127:5000", "10.0.62.126:5000")
    table = [("a repeated peer", f"slots = 16384\n{wrong}{SMALL}", fault(b"bad sessions.15999"))]
    return checks(program, table)


@case
def a_check_that_cannot_be_written_keeps_the_status_of_a_fault(program):
    with tempfile.TemporaryDirectory() as folder:
        for text, status in ((SMALL, 8), ("", 3), (None, 5)):
            file = pathlib.Path(folder) / f"status{status}.toml"
            if text is not None:
                file.write_text(text)
            with open("/dev/full", "wb") as full:
                found = check(program, [file], stdout=full)
            if found != (None, status):
                return f"status {found[1]} in place of {status}"
    return None


@case
def a_check_ends_while_its_input_is_open(program):
    process = start(program, ["check", TOP / "tests/cases/a_small_file_is_accepted.toml"])
    return differs("the output", process.stdout.read(), ACCEPTED) or ends(process, 0)


# ---- how octets come and go


@case
def an_answer_is_seen_before_the_next_record_is_written(program):
    process = start(program)
    for given, wanted in (
        (opening(), opened()),
        (datagram(PLAIN_REQUEST), reflected(0, plain_reply(0))),
        (datagram(PLAIN_REQUEST[:20]), silent(SHORT)),
        (datagram(PLAIN_REQUEST), reflected(1, plain_reply(1))),
    ):
        process.stdin.write(given)
        if wrong := differs("an answer", take(process.stdout, len(wanted)), wanted):
            process.kill()
            return wrong
    process.stdin.close()
    return differs("after the end", process.stdout.read(), b"") or ends(process, 0)


@case
def octets_that_come_one_by_one_are_answered_alike(program):
    process = start(program)
    for each in opening() + datagram(PLAIN_REQUEST + bytes.fromhex("80C80000")):
        process.stdin.write(bytes([each]))
    process.stdin.close()
    wanted = opened() + reflected(0, plain_reply(0, bytes.fromhex("80C80000")))
    return differs("the output", process.stdout.read(), wanted) or ends(process, 0)


@case
def the_answers_before_a_slow_record_are_seen(program):
    process = start(program)
    process.stdin.write(opening() + datagram(PLAIN_REQUEST) + datagram(PLAIN_REQUEST)[:60])
    wanted = opened() + reflected(0, plain_reply(0))
    wrong = differs("before", take(process.stdout, len(wanted)), wanted)
    process.stdin.write(datagram(PLAIN_REQUEST)[60:])
    process.stdin.close()
    behind = reflected(1, plain_reply(1))
    return wrong or differs("behind", process.stdout.read(), behind) or ends(process, 0)


@case
def a_stream_that_leaves_the_grammar_ends_while_its_input_is_open(program):
    process = start(program)
    process.stdin.write(opening() + b"\x09")
    wanted = opened() + grammar_left(108)
    return differs("the output", process.stdout.read(), wanted) or ends(process, 6)


@case
def a_closed_output_ends_with_status_8(program):
    reading, writing = os.pipe()
    process = start(program, stdout=writing)
    os.close(writing)
    os.close(reading)
    process.stdin.write(opening())
    process.stdin.close()
    return ends(process, 8)


@case
def an_output_that_closes_midway_ends_with_status_8(program):
    process = start(program)
    process.stdin.write(opening())
    wrong = differs("the first answer", take(process.stdout, 6), opened())
    process.stdout.close()
    process.stdin.write(datagram(PLAIN_REQUEST))
    return wrong or ends(process, 8)


@case
def a_full_output_ends_with_status_8(program):
    with open("/dev/full", "wb") as full:
        process = start(program, stdout=full)
    process.stdin.write(opening())
    return ends(process, 8)


@case
def a_full_output_changes_nothing_where_there_is_no_answer(program):
    with open("/dev/full", "wb") as full:
        process = start(program, stdout=full)
    process.stdin.close()
    return ends(process, 0)


@case
def the_usage_that_cannot_be_written_keeps_its_status(program):
    with open("/dev/full", "wb") as full:
        process = start(program, words=(), stdout=full)
    return ends(process, 2)


@case
def a_folder_as_input_ends_with_status_7(program):
    folder = os.open("/", os.O_RDONLY)
    process = start(program, stdin=folder)
    os.close(folder)
    return differs("the output", process.stdout.read(), b"") or ends(process, 7)


@case
def a_read_that_fails_midway_ends_with_status_7_behind_the_answers(program):
    far, near = pty.openpty()
    tty.setraw(near)
    process = start(program, stdin=far)
    os.close(far)
    os.write(near, opening() + datagram(PLAIN_REQUEST) + datagram(PLAIN_REQUEST)[:50])
    wanted = opened() + reflected(0, plain_reply(0))
    wrong = differs("the answers", take(process.stdout, len(wanted)), wanted)
    os.close(near)
    return wrong or differs("behind them", process.stdout.read(), b"") or ends(process, 7)


# ---- what leaves the grammar


@case
def a_stream_cut_anywhere_ends_with_the_offset_of_its_record(program):
    first, second = opening(), datagram(PLAIN_REQUEST)
    whole = first + second
    for length in range(len(whole) + 1):
        wanted, status = (opened(), 0) if length >= len(first) else (b"", 0)
        if length == len(whole):
            wanted += reflected(0, plain_reply(0))
        elif length not in (0, len(first)):
            wanted, status = wanted + grammar_left(108 if length > len(first) else 0), 6
        found = replay(program, whole[:length])
        if found != (wanted, status):
            return f"cut to {length} octets: {found[0].hex()} and status {found[1]}"
    return None


def changed(given, at, value):
    return given[:at] + value + given[at + len(value) :]


# What stands where in an Open, counted from its tag.
OPEN_FAMILY, OPEN_ADDRESS, OPEN_MODE, OPEN_SSID, OPEN_EXTRA, OPEN_FLAGS = 7, 8, 26, 27, 29, 32
OPEN_SCALE, OPEN_MULTIPLIER, OPEN_TLVS, OPEN_KEY = 34, 35, 40, 44
# And in a Datagram.
DATAGRAM_FAMILY, DATAGRAM_ADDRESS, DATAGRAM_TTL = 7, 8, 26

OUTSIDE = [
    ("tag 0", b"\0" + opening()[1:]),
    ("tag 6", record(6, bytes(24))),
    ("the tag of an answer", opened()),
    ("an Open of 102 octets", record(1, opening()[5:-1])),
    ("an Open of 104 octets", record(1, opening()[5:] + b"\0")),
    ("an Open without body", record(1, b"")),
    ("an Open of 2^32 - 1 octets", b"\1\xff\xff\xff\xff" + opening()[5:]),
    ("family 0", changed(opening(), OPEN_FAMILY, b"\0")),
    ("family 5", changed(opening(), OPEN_FAMILY, b"\5")),
    ("an IPv4 address of more than four octets", changed(opening(), OPEN_ADDRESS + 4, b"\1")),
    ("an IPv4 address whose 16th octet is 1", changed(opening(), OPEN_ADDRESS + 15, b"\1")),
    ("mode 3", opening(mode=3)),
    ("a TWAMP session with an SSID", opening(mode=TWAMP, ssid=1)),
    ("symmetrical 2", opening(mode=TWAMP, ssid=0, extra=b"\2\0\0")),
    ("a symmetrical plain session", opening(extra=b"\1\0\0")),
    ("a plain session with octets to reflect", opening(extra=b"\0\0\1")),
    ("a symmetrical authenticated session", opening(AUTHENTICATED, flags=5, key=KEY, extra=b"\1\0\0")),
    ("an authenticated session with octets to reflect", opening(AUTHENTICATED, flags=5, key=KEY, extra=b"\0\1\0")),
    ("configuration flag 10", opening(flags=0x11)),
    ("configuration flag 80", opening(flags=0x81)),
    ("scale 64", changed(opening(), OPEN_SCALE, b"\x40")),
    ("multiplier 0", changed(opening(), OPEN_MULTIPLIER, b"\0")),
    ("TLV type 1 as a supported one", changed(opening(), OPEN_TLVS + 3, b"\2")),
    ("TLV type 31 as a supported one", changed(opening(), OPEN_TLVS, b"\x80")),
    ("a key block without its flag", changed(opening(), OPEN_KEY, b"\1")),
    ("the last octet of a key block without its flag", changed(opening(), OPEN_KEY + 63, b"\1")),
    ("a Set of 99 octets", record(2, setting()[5:-1])),
    ("a Set of 101 octets", record(2, setting()[5:] + b"\0")),
    ("a Set with multiplier 0", setting(rest=bytes(11))),
    ("a Set of mode 3", setting(mode=3)),
    ("a Set of a TWAMP session with an SSID", setting(mode=TWAMP, ssid=1)),
    ("a Close of 23 octets", record(3, closing()[5:-1])),
    ("a Close of 25 octets", record(3, closing()[5:] + b"\0")),
    ("a Close of mode 3", closing(mode=3)),
    ("a Close of a TWAMP session with an SSID", closing(mode=TWAMP, ssid=1)),
    ("a list without a count", record(5, b"")),
    ("a list whose length has room for half an address", record(5, b"\1" + local(1)[:9])),
    ("a list of 17 addresses", listing(*map(local, range(17)))),
    ("a list that counts one address more", record(5, b"\2" + local(1))),
    ("a list that counts one address fewer", record(5, b"\0" + local(1))),
    ("a list with an address twice", listing(local(1), local(2), local(1))),
    ("a list with port 0", listing(local(1), local(2, port=0))),
    ("a list with family 5", listing(b"\5" + local(1)[1:])),
    ("a datagram record of 38 octets", record(4, datagram(b"")[5:-1])),
    ("a datagram of 65,508 octets", datagram(bytes(65_508))),
    ("a datagram of family 7", changed(datagram(PLAIN_REQUEST), DATAGRAM_FAMILY, b"\7")),
    ("a datagram of a long IPv4 address", changed(datagram(PLAIN_REQUEST), DATAGRAM_ADDRESS + 7, b"\1")),
    ("TTL told 2", datagram(PLAIN_REQUEST, ttl=b"\2\0")),
    ("a TTL that is not told and not 0", datagram(PLAIN_REQUEST, ttl=b"\0\1")),
]


@case
def a_field_outside_its_table_leaves_the_grammar(program):
    for what, outside in OUTSIDE:
        wanted = (opened() + grammar_left(108), 6)
        found = replay(program, opening() + outside + datagram(PLAIN_REQUEST))
        if found != wanted:
            return f"{what}: {found[0].hex()} and status {found[1]}"
    return None


@case
def the_ends_of_each_field_stay_within_the_grammar(program):
    for what, within in (
        ("port 0", opening(ends=ENDS[:19] + bytes(2))),
        ("port 65,535 and local address 65,535", opening(ends=b"\xff\xff" + ENDS[2:19] + b"\xff\xff")),
        ("an IPv6 address of zeros", opening(ends=bytes(2) + b"\6" + bytes(16) + ENDS[19:])),
        ("scale 63, multiplier 255, offset 255", opening(rest=bytes.fromhex("FF 3F FF FFFFFFFF 00000028"))),
        ("all flags and a key of 64 octets", opening(flags=15, key=b"\xff" * 64)),
        ("a key of zeros", opening(AUTHENTICATED, flags=5)),
        ("a TWAMP session with all octets to reflect", opening(TWAMP, 0, extra=b"\1\xff\xff")),
        ("SSID 65,535", opening(ssid=65_535)),
    ):
        found = replay(program, within)
        if found != (opened(), 0):
            return f"{what}: {found[0].hex()} and status {found[1]}"
    for what, within, answer in (
        ("a Set of port 0", setting(ends=ENDS[:19] + bytes(2)), was_set(NO_SUCH)),
        ("a Set of a TWAMP session", setting(TWAMP, 0), was_set(NO_SUCH)),
        ("a Close of port 0", closing(ends=ENDS[:19] + bytes(2)), closed()),
        ("a Close of SSID 65,535", closing(ssid=65_535), closed()),
        ("16 addresses", listing(*map(local, range(16))), listed()),
        ("one address with 16 ports", listing(*(local(1, 1 + port) for port in range(16))), listed()),
        ("port 65,535 and an IPv6 address of zeros", listing(local(1, 65_535), b"\6" + bytes(16) + b"\3\x5e"), listed()),
    ):
        found = replay(program, within)
        if found != (answer, 0):
            return f"{what}: {found[0].hex()} and status {found[1]}"
    return None


@case
def records_that_change_a_session_may_be_cut_anywhere(program):
    for what, last, answer in (
        ("a Set", setting(), was_set()),
        ("a Close", closing(), closed(0)),
        ("a list", listing(local(1), local(2)), listed()),
    ):
        for length in range(1, len(last) + 1):
            whole = length == len(last)
            wanted = (opened() + (answer if whole else grammar_left(108)), 0 if whole else 6)
            found = replay(program, opening() + last[:length])
            if found != wanted:
                return f"{what} cut to {length} octets: {found[0].hex()} and status {found[1]}"
    return None


@case
def an_address_that_comes_twice_is_told_before_the_list_ends(program):
    process = start(program)
    process.stdin.write(listing(local(1), local(1), local(2))[: 6 + 2 * 19])
    return differs("the output", process.stdout.read(), grammar_left(0)) or ends(process, 6)


@case
def the_shortest_datagram_record_has_no_packet(program):
    found = replay(program, opening(TWAMP, 0) + datagram(b""))
    return None if found == (opened() + silent(SHORT), 0) else f"{found[0].hex()} and status {found[1]}"


# ---- cuts of a request


@case
def a_plain_request_is_judged_at_every_length(program):
    tail = bytes.fromhex("80010008 0102030405060708")

    def wanted(length, drawn):
        if length < 16:
            return silent(NO_SESSION)
        if length < 44:
            return silent(SHORT)
        cut = bytearray(tail[: length - 44])
        if length >= 48:
            cut[0] = 0x00 if length == 56 else 0x40
        return reflected(drawn, plain_reply(drawn, bytes(cut)))

    return cuts(program, PLAIN_REQUEST + tail, opening(), wanted)


@case
def a_signed_request_is_judged_at_every_length(program):
    def wanted(length, drawn):
        if length < 28:
            return silent(NO_SESSION)
        if length < 112:
            return silent(SHORT)
        return reflected(drawn, authenticated_reply(drawn))

    return cuts(program, authenticated_request(), opening(AUTHENTICATED, flags=5, key=KEY), wanted)


@case
def a_twamp_request_is_judged_at_every_length(program):
    def wanted(length, drawn):
        if length < 14:
            return silent(SHORT)
        return reflected(drawn, twamp_reply(drawn, bytes(max(0, length - 41))))

    return cuts(program, TWAMP_REQUEST + bytes([0xAA]) * 46, opening(TWAMP, 0), wanted)


@case
def a_signed_request_is_refused_for_each_bit(program):
    signed = authenticated_request()
    # The SSID in octets 26 and 27 names another session before the HMAC is looked at.
    requests = [
        changed(signed, at, bytes([signed[at] ^ 1 << bit]))
        for at in range(112) for bit in range(8)
    ]
    bodies = answers_of(program, requests + [signed], opening(AUTHENTICATED, flags=5, key=KEY))
    for place, body in enumerate(bodies[:-1]):
        answer = silent(NO_SESSION if place // 8 in (26, 27) else BAD_HMAC)
        if body != answer:
            return differs(f"bit {place % 8} of octet {place // 8}", body, answer)
    return differs("the signed one", bodies[-1], reflected(0, authenticated_reply(0)))


# ---- limits


@case
def just_1024_sessions_are_live_at_once(program):
    other_peer = ENDS[:6] + b"\2" + ENDS[7:]
    given = b"".join(opening(ssid=ssid) for ssid in range(1024))
    wanted = opened() * 1024
    for record_given, answer in (
        (opening(ssid=1024), opened(3)),
        (opening(ssid=1023), opened(1)),
        (opening(TWAMP, 0), opened(2)),
        (opening(AUTHENTICATED, ends=other_peer), opened(5)),
        (opening(ends=other_peer), opened(3)),
    ):
        given += record_given
        wanted += answer
    for ssid in (0, 1023):
        request = PLAIN_REQUEST[:14] + ssid.to_bytes(2, "big") + PLAIN_REQUEST[16:]
        given += datagram(request)
        wanted += reflected(0, plain_reply(0, ssid=ssid))
    found, status = replay(program, given)
    return differs("the output", found, wanted) or (None if status == 0 else f"status {status}")


@case
def just_1024_configurations_are_accepted(program):
    given, wanted = opening(rest=informed(0)), opened()
    for number in range(1, 1024):
        given += setting(rest=informed(number))
        wanted += was_set()
    other_peer = ENDS[:6] + b"\2" + ENDS[7:]
    for record_given, answer in (
        (setting(rest=informed(1024)), was_set(ROWS_FULL)),
        (setting(rest=informed(5)), was_set()),
        (setting(ssid=8, rest=informed(1024)), was_set(NO_SUCH)),
        (opening(ends=other_peer, rest=informed(1024)), opened(ROWS_FULL)),
        (opening(AUTHENTICATED, ends=other_peer, rest=informed(1024)), opened(NO_KEY)),
        (opening(TWAMP, 0, rest=informed(1024)), opened(MODE_CLASH)),
        (opening(rest=informed(1024)), opened(DUPLICATE)),
        (opening(AUTHENTICATED, ends=other_peer, flags=5, key=KEY), opened(ROWS_FULL)),
        (opening(ssid=8, rest=informed(1023)), opened()),
        (closing(), closed(0)),
        (closing(ssid=8), closed(0)),
        # What was accepted stays so, whether a session has it or not.
        (opening(rest=informed(1024)), opened(ROWS_FULL)),
        (opening(rest=informed(77)), opened()),
    ):
        given += record_given
        wanted += answer
    found, status = replay(program, given)
    return differs("the output", found, wanted) or (None if status == 0 else f"status {status}")


@case
def an_opening_that_is_refused_counts_no_configuration(program):
    given = b"".join(opening(ssid=ssid, rest=informed(ssid % 1023)) for ssid in range(1024))
    wanted = opened() * 1024
    for record_given, answer in (
        (opening(ssid=2000, rest=informed(5000)), opened(FULL)),
        (setting(AUTHENTICATED, 0, rest=informed(5001)), was_set(NO_SUCH)),
        (setting(ssid=0, rest=informed(5002)), was_set()),
        (setting(ssid=0, rest=informed(5000)), was_set(ROWS_FULL)),
        # With both at an end the configuration is told first.
        (opening(ssid=2000, rest=informed(5000)), opened(ROWS_FULL)),
        (opening(ssid=2000, rest=informed(5002)), opened(FULL)),
    ):
        given += record_given
        wanted += answer
    found, status = replay(program, given)
    return differs("the output", found, wanted) or (None if status == 0 else f"status {status}")


@case
def a_key_is_opened_and_closed_70000_times(program):
    found, status = replay(program, (opening() + closing()) * 70_000)
    wanted = (opened() + closed(0)) * 70_000
    return differs("the output", found, wanted) or (None if status == 0 else f"status {status}")


@case
def a_closed_session_has_no_datagrams(program):
    request, other = datagram(PLAIN_REQUEST), PLAIN_REQUEST[:14] + b"\0\x08" + PLAIN_REQUEST[16:]
    given = opening() + opening(ssid=8) + request * 2 + closing() + request + datagram(other) + opening() + request
    wanted = (
        opened() * 2 + reflected(0, plain_reply(0)) + reflected(1, plain_reply(1)) + closed(2)
        + silent(NO_SESSION) + reflected(0, plain_reply(0, ssid=8)) + opened() + reflected(0, plain_reply(0))
    )
    found, status = replay(program, given)
    return differs("the output", found, wanted) or (None if status == 0 else f"status {status}")


@case
def a_session_may_be_set_to_another_key(program):
    other = bytes(range(17, 49)) + bytes(32)
    signed = datagram(authenticated_request())
    for what, change, answers in (
        ("another key", setting(AUTHENTICATED, flags=5, key=other), was_set() + silent(BAD_HMAC)),
        ("no key", setting(AUTHENTICATED), was_set(NO_KEY) + reflected(1, authenticated_reply(1))),
        ("its key", setting(AUTHENTICATED, flags=5, key=KEY), was_set() + reflected(1, authenticated_reply(1))),
    ):
        given = opening(AUTHENTICATED, flags=5, key=KEY) + signed + change + signed
        wanted = (opened() + reflected(0, authenticated_reply(0)) + answers, 0)
        found = replay(program, given)
        if found != wanted:
            return f"{what}: {found[0].hex()} and status {found[1]}"
    return None


@case
def a_long_stream_is_answered_in_bounded_memory(program):
    count = 2_000
    tail = bytes.fromhex("0001FFB3") + bytes(65_459)
    one = datagram(PLAIN_REQUEST + tail)
    process = start(program, stdout=subprocess.DEVNULL)
    process.stdin.write(opening())
    for _ in range(count // 10):
        process.stdin.write(one * 10)
    process.stdin.close()
    _, status, used = os.wait4(process.pid, 0)
    process.returncode = os.waitstatus_to_exitcode(status)
    if process.returncode != 0:
        return f"status {process.returncode} in place of 0"
    # The stream has 125 MiB. What is measured is never less than what this script itself takes.
    return None if used.ru_maxrss < 64 * 1024 else f"{used.ru_maxrss} KiB of memory"


STREAM_LIMIT = 1 << 30


def streamed(program, last):
    """The answers to datagrams without a session up to near the limit, and then to the last octets."""
    one = datagram(bytes(65_507))
    whole = STREAM_LIMIT // len(one)
    process = start(program)
    process.stdin.write(one)
    found = [take(process.stdout, 6)]
    for _ in range(whole // 19):
        process.stdin.write(one * 19)
        found.append(take(process.stdout, 6 * 19))
    for _ in range(whole % 19 - 1):
        process.stdin.write(one)
        found.append(take(process.stdout, 6))
    assert b"".join(found) == silent(NO_SESSION) * whole, "another answer than NoSession"
    process.stdin.write(last(STREAM_LIMIT - whole * len(one)))
    process.stdin.close()
    return process.stdout.read(), process.wait(timeout=SECONDS)


def ending_with(octets_given):
    """A datagram record of so many octets."""
    return datagram(bytes(octets_given - len(datagram(b""))))


@case
def a_stream_of_2_30_octets_is_answered_and_one_more_leaves_the_grammar(program):
    found = streamed(program, lambda room: ending_with(room) + b"\4")
    wanted = (silent(NO_SESSION) + grammar_left(STREAM_LIMIT), 6)
    return None if found == wanted else f"{found[0].hex()} and status {found[1]}"


@case
def a_record_whose_last_octet_passes_the_limit_leaves_the_grammar(program):
    found = streamed(program, lambda room: ending_with(room + 1))
    wanted = (grammar_left(STREAM_LIMIT - STREAM_LIMIT % len(datagram(bytes(65_507)))), 6)
    return None if found == wanted else f"{found[0].hex()} and status {found[1]}"


# ---- the example


@case
def the_example_is_what_its_text_says(program):
    text, stream = TOP / "examples" / "first.hex", TOP / "examples" / "first.replay"
    return differs("the stream", stream.read_bytes(), octets(text.read_text()))


def demo(program, *words):
    return subprocess.run(
        [TOP / "demo", "--program", program, "replay", *words], capture_output=True, text=True, timeout=SECONDS,
    )


@case
def the_demo_prints_each_answer(program):
    ended = demo(program)
    for wanted in (
        "opened", "number 0 drawn", "no reply: bad HMAC", "no reply: no session", "deadbeef", "status 0",
    ):
        if wanted not in ended.stdout:
            return f"nothing says '{wanted}'"
    return None if ended.returncode == 0 else f"status {ended.returncode} in place of 0"


@case
def the_demo_tells_where_a_stream_leaves_its_grammar(program):
    stream = (TOP / "examples" / "first.replay").read_bytes()
    with tempfile.NamedTemporaryFile() as file:
        file.write(stream + b"\4")
        file.flush()
        ended = demo(program, file.name)
    told = f"the stream leaves its grammar at octet {len(stream)}\n"
    if told not in ended.stdout or "status 6: the input leaves the grammar" not in ended.stdout:
        return f"it ends with {ended.stdout[-200:]!r}"
    return None if ended.returncode == 6 else f"status {ended.returncode} in place of 6"


@case
def the_demo_tells_that_no_such_stream_is_there(program):
    ended = demo(program, "/no/such/stream")
    told = "/no/such/stream: No such file or directory\n"
    return None if (ended.returncode, ended.stderr) == (1, told) else f"status {ended.returncode}, {ended.stderr!r}"


# ---- examples


@case
def the_example_files_are_accepted(program):
    for name, counts in (("lab", (1, 2, 2)), ("edge", (2, 3, 4)), ("twamp", (1, 1, 1))):
        ended = subprocess.run([program, "check", TOP / "examples" / f"{name}.toml"], capture_output=True, timeout=SECONDS)
        told = "ok locals {} configs {} sessions {}\n".format(*counts).encode()
        if (ended.stdout, ended.returncode) != (told, 0):
            return f"{name}: {ended.stdout!r}, status {ended.returncode}"
    return None


# ---- captures


def tool(name, *words):
    return subprocess.run([TOP / "tools" / name, *words], capture_output=True, timeout=SECONDS, check=True).stdout


def captured_stream():
    """What tools/from_pcap makes of three datagrams to one address: a list, an opening, and they themselves."""
    rest = bytes.fromhex("00 00 01 00000000 00000028")
    made = listing(local(9)) + opening(rest=rest)
    for at, tail in enumerate((b"", bytes.fromhex("80030004 00000000"), bytes(1000))):
        arrival = 10**18 + at
        moments = arrival.to_bytes(8, "big") + (arrival + 1000).to_bytes(8, "big")
        made += record(4, ENDS + b"\1\x40" + moments + PLAIN_REQUEST + tail)
    return made


@case
def a_capture_of_a_replay_gives_its_stream_again(program):
    stream = captured_stream()
    answers, status = replay(program, stream)
    if status:
        return f"status {status}"
    with tempfile.TemporaryDirectory() as folder:
        files = [pathlib.Path(folder, name) for name in ("stream", "answers", "capture")]
        for file, octets_given in zip(files, (stream, answers)):
            file.write_bytes(octets_given)
        files[2].write_bytes(tool("to_pcap", files[0], files[1]))
        return differs("the stream of the capture", tool("from_pcap", files[2]), stream)


@case
def a_capture_of_ethernet_frames_and_one_of_pcapng_are_read(program):
    sys.path.insert(0, str(TOP / "tools"))
    import captures

    sent = captures.Datagram(10**18, captures.Endpoint(b"\xc0\0\2\1", 5000), captures.Endpoint(b"\xc0\0\2\11", 862), 64, PLAIN_REQUEST)
    frame = bytes(12) + b"\x81\0\0\5\x08\0" + captures.packet_of(sent)
    head = (0xA1B2C3D4).to_bytes(4, "big") + bytes.fromhex("0002 0004 00000000 00000000 00040000 00000001")
    lengths = 2 * len(frame).to_bytes(4, "big")
    pcap = head + (10**9).to_bytes(4, "big") + bytes(4) + lengths + frame
    block = lambda kind, body: kind + (len(body) + 12).to_bytes(4, "big") + body + (len(body) + 12).to_bytes(4, "big")
    padded = frame + bytes(-len(frame) % 4)
    section = block(bytes.fromhex("0A0D0D0A"), bytes.fromhex("1A2B3C4D 0001 0000") + b"\xff" * 8)
    interface = block(bytes.fromhex("00000001"), bytes.fromhex("0001 0000 00040000 0009 0001 09000000"))
    packet = block(bytes.fromhex("00000006"), bytes(4) + (10**18).to_bytes(8, "big") + lengths + padded)
    for name, capture in (("pcap", pcap), ("pcapng", section + interface + packet)):
        found = list(captures.read(capture))
        if found != [sent]:
            return f"{name}: {found}"
    return None


# ---- a daemon on the loopback interface


SECRET = bytes(range(32))

DAEMON = """locals = ["127.0.0.1:{local}"]
workers = 2
operator = "127.0.0.1:{operator}"
sessions = [
  {{peer = "127.0.0.1:{plain}", ssid = 7, config = "edge"}},
  {{peer = "127.0.0.1:{auth}", ssid = 8, mode = "auth", config = "secure"}},
]
[configs.edge]
[configs.precise]
format = "ptp"
[configs.secure]
key = "{key}"
"""

REPORT = (
    rb"worker 0 taken (\d+) sent (\d+) nosession 0 short 0 badhmac (\d+) changed 0 noreply 0 sendfault 0 recvfault 0 end\n"
    rb"worker 1 taken (\d+) sent (\d+) nosession 0 short 0 badhmac (\d+) changed 0 noreply 0 sendfault 0 recvfault 0 end\n"
    rb"desk events \d+ faults 0 quit\nsessions live 2 closed 0 expired 0\n"
)


def mac(octets_covered):
    return hmac.new(SECRET, octets_covered, hashlib.sha256).digest()[:16]


def loopback(kind):
    """A socket on a port that the system chooses."""
    made = socket.socket(socket.AF_INET, kind)
    made.bind(("127.0.0.1", 0))
    made.settimeout(10)
    return made


def connection_to(port):
    """A connection to a port at which the daemon is about to listen."""
    until = time.monotonic() + 10
    while True:
        try:
            return socket.create_connection(("127.0.0.1", port), timeout=10)
        except ConnectionRefusedError:
            if time.monotonic() > until:
                raise
            time.sleep(0.05)


def asks(operator, line, wanted):
    """What is wrong with the answer to an operator's line."""
    operator.sendall(line + b"\n")
    found = b""
    while len(found) < len(wanted):
        piece = operator.recv(4096)
        if not piece:
            break
        found += piece
    return None if found == wanted else f"{line!r}: {found!r} in place of {wanted!r}"


def plain_exchange(sender, port, number, drawn, precise):
    """What is wrong with the reply to a plain request of this number."""
    sent = number.to_bytes(4, "big") + bytes.fromhex("0102030405060708 8001 0007") + bytes(28)
    sender.sendto(sent, ("127.0.0.1", port))
    reply = sender.recv(65536)
    parts = (len(reply), reply[:4], reply[12] >> 6 & 1, reply[14:16], reply[24:38])
    wanted = (44, drawn.to_bytes(4, "big"), int(precise), sent[14:16], sent[:14])
    return None if parts == wanted else f"the reply to plain request {number}: {parts} in place of {wanted}"


def authenticated_exchange(sender, port):
    """What is wrong with the replies to a request whose HMAC is another, and to one that is as it should be."""
    covered = (9).to_bytes(4, "big") + bytes(12) + bytes.fromhex("1112131415161718 8001 0008") + bytes(68)
    sender.sendto(covered + bytes(16), ("127.0.0.1", port))
    sender.sendto(covered + mac(covered), ("127.0.0.1", port))
    reply = sender.recv(65536)
    parts = (len(reply), reply[:4], reply[26:28], reply[48:52], reply[96:])
    wanted = (112, bytes(4), covered[26:28], covered[:4], mac(reply[:96]))
    return None if parts == wanted else f"the reply to the authenticated request: {parts} in place of {wanted}"


def talks(operator, plain, auth, port):
    """What is wrong with a whole talk with the daemon."""
    ends_of = lambda sender: b"127.0.0.1:%d" % sender.getsockname()[1]
    session = b"0 " + ends_of(plain) + b" plain 7"
    listed = session + b" 1\n0 " + ends_of(auth) + b" auth 8 0\nok 2\n"
    return (
        plain_exchange(plain, port, 5, 0, False)
        or asks(operator, b"list", listed)
        or asks(operator, b"set " + session + b" precise", b"ok\n")
        or plain_exchange(plain, port, 6, 1, True)
        or asks(operator, b"count " + session, b"ok 2\n")
        or authenticated_exchange(auth, port)
        or asks(operator, b"quit", b"bye\n")
    )


@case
def a_daemon_reflects_on_loopback_obeys_its_operator_and_reports(program):
    with loopback(socket.SOCK_DGRAM) as plain, loopback(socket.SOCK_DGRAM) as auth, tempfile.TemporaryDirectory() as folder:
        with loopback(socket.SOCK_DGRAM) as local, loopback(socket.SOCK_STREAM) as operator:
            numbers = [made.getsockname()[1] for made in (local, operator, plain, auth)]
        names = dict(zip(("local", "operator", "plain", "auth"), numbers))
        file = pathlib.Path(folder) / "reflector.toml"
        file.write_text(DAEMON.format(key=SECRET.hex(), **names))
        process = start(program, ("run", file), stdin=subprocess.DEVNULL)
        with connection_to(numbers[1]) as operator:
            wrong = talks(operator, plain, auth, numbers[0])
            if wrong:
                process.kill()
                return wrong
        told = process.stdout.read()
        counted = re.fullmatch(REPORT, told)
        if not counted:
            return f"the report: {told!r}"
        taken, sent, bad = (int(counted[at]) + int(counted[at + 3]) for at in (1, 2, 3))
        if (taken, sent, bad) != (4, 3, 1):
            return f"{taken} taken, {sent} sent and {bad} with another HMAC"
        return ends(process, 0)


@case
def a_daemon_whose_address_is_taken_says_so(program):
    with loopback(socket.SOCK_DGRAM) as taken, tempfile.TemporaryDirectory() as folder:
        file = pathlib.Path(folder) / "reflector.toml"
        file.write_text(f'locals = ["127.0.0.1:{taken.getsockname()[1]}"]\n[configs.edge]\n')
        ended = subprocess.run([program, "run", file], stdin=subprocess.DEVNULL, stdout=PIPE, timeout=SECONDS)
        found = ended.stdout, ended.returncode
        return None if found == (b"stampd: port failed\n", 9) else f"{found}"


CONTROLLED = """locals = ["127.0.0.1:{local}"]
workers = 2
control = "127.0.0.1:{control}"
operator = "127.0.0.1:{operator}"
twamp = "edge"
sessions = [{{peer = "127.0.0.1:{idle}", config = "edge", wait = 1}}]
[configs.edge]
[configs.precise]
format = "ptp"
"""

CONTROLLED_REPORT = (
    rb"worker 0 taken (\d+) sent \1 nosession 0 short 0 badhmac 0 changed 0 noreply 0 sendfault 0 recvfault 0 end\n"
    rb"worker 1 taken (\d+) sent \2 nosession 0 short 0 badhmac 0 changed 0 noreply 0 sendfault 0 recvfault 0 end\n"
    rb"desk events \d+ faults 0 quit\nsessions live 0 closed 1 expired 1\n"
)


def octets_from(connection, count):
    """So many octets of a connection, or fewer where it ends."""
    found = b""
    while len(found) < count:
        piece = connection.recv(count - len(found))
        if not piece:
            break
        found += piece
    return found


def negotiates(client, sender, port):
    """What is wrong with the talk of a client of TWAMP-Control that asks for one session and starts it."""
    greeting = octets_from(client, 64)
    client.sendall((97).to_bytes(4, "big") + bytes(160))
    started = octets_from(client, 48)
    ends_of = sender.getsockname()[1].to_bytes(2, "big") + port.to_bytes(2, "big")
    client.sendall(bytes([5, 4]) + bytes(10) + ends_of + bytes(96))
    accepted = octets_from(client, 48)
    client.sendall(bytes([2]) + bytes(31))
    answered = octets_from(client, 32)
    found = len(greeting), greeting[12:16], len(started), started[15], accepted[:4], answered
    wanted = 64, (97).to_bytes(4, "big"), 48, 0, bytes(2) + port.to_bytes(2, "big"), bytes(32)
    return None if found == wanted else f"the talk: {found} in place of {wanted}"


def reconfigured_under_traffic(operator, sender, port, count):
    """What is wrong with the replies to so many requests, while the session changes its configuration again and again."""
    session = b"0 127.0.0.1:%d twamp 0" % sender.getsockname()[1]
    for number in range(count):
        if number % 10 == 0:
            operator.sendall(b"set " + session + (b" precise\n" if number % 20 == 0 else b" edge\n"))
        sent = number.to_bytes(4, "big") + bytes.fromhex("0102030405060708 8001")
        sender.sendto(sent, ("127.0.0.1", port))
        reply = sender.recv(65536)
        found, wanted = (len(reply), reply[:4], reply[24:38]), (41, sent[:4], sent)
        if found != wanted:
            return f"the reply to request {number}: {found} in place of {wanted}"
    changes = b"ok\n" * (count // 10)
    found = octets_from(operator, len(changes))
    return None if found == changes else f"the answers to the changes: {found!r}"


def answer_to(operator, line):
    """All lines of the answer to an operator's line."""
    operator.sendall(line + b"\n")
    found = b""
    while not found.endswith(b"\n") or not found.splitlines()[-1].startswith((b"ok", b"refused")):
        piece = operator.recv(4096)
        if not piece:
            break
        found += piece
    return found


def comes_to(operator, line, wanted):
    """What is wrong where a line isn't answered so within ten seconds."""
    until = time.monotonic() + 10
    while (found := answer_to(operator, line)) != wanted:
        if time.monotonic() > until:
            return f"{line!r}: {found!r} in place of {wanted!r}"
        time.sleep(0.2)
    return None


@case
def a_daemon_negotiates_a_session_changes_it_under_traffic_and_lets_another_expire(program):
    with loopback(socket.SOCK_DGRAM) as sender, loopback(socket.SOCK_DGRAM) as idle, tempfile.TemporaryDirectory() as folder:
        with loopback(socket.SOCK_DGRAM) as at, loopback(socket.SOCK_STREAM) as one, loopback(socket.SOCK_STREAM) as other:
            port, talk, lines = (made.getsockname()[1] for made in (at, one, other))
        file = pathlib.Path(folder) / "reflector.toml"
        file.write_text(CONTROLLED.format(local=port, control=talk, operator=lines, idle=idle.getsockname()[1]))
        process = start(program, ("run", file), stdin=subprocess.DEVNULL)
        with connection_to(lines) as operator, connection_to(talk) as client:
            wrong = (
                negotiates(client, sender, port)
                or reconfigured_under_traffic(operator, sender, port, 200)
                or comes_to(operator, b"count 0 127.0.0.1:%d plain 0" % idle.getsockname()[1], b"refused no such\n")
            )
            client.sendall(bytes([3]) + bytes(6) + bytes([1]) + bytes(24))
            wrong = wrong or comes_to(operator, b"list", b"ok 0\n") or asks(operator, b"quit", b"bye\n")
            if wrong:
                process.kill()
                return wrong
        told = process.stdout.read()
        counted = re.fullmatch(CONTROLLED_REPORT, told)
        if not counted or int(counted[1]) + int(counted[2]) != 200:
            return f"the report: {told!r}"
        return ends(process, 0)
