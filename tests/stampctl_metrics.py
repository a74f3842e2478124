# SPDX-License-Identifier: Apache-2.0
"""The metrics of stampctl, and what stands beside them for Prometheus."""

import contextlib
import json
import os
import pathlib
import re
import socket
import subprocess
import sys
import time
import urllib.request

from stampctl_calls import *

PROMETHEUS = TOP / "packaging" / "prometheus"


# ---- metrics


def samples_of(text):
    """Each sample of a text of metrics, its labels by name and its number as a float, and the types of the metrics."""
    found = re.findall(r"^([a-z_]+)(?:\{(.*)\})? (\S+)$", text, re.M)
    in_order = lambda labels: "{%s}" % ",".join(sorted(re.findall(r'\w+="[^"]*"', labels))) if labels else ""
    samples = {name + in_order(labels): float(number) for name, labels, number in found}
    return samples, dict(re.findall(r"^# TYPE (\S+) (\S+)$", text, re.M))


@check
def metrics_tell_whether_the_daemon_is_up_and_its_draws(program, folder):
    with sender() as made, serving(program, folder, session(ends_of(made), 7)) as (daemon, server, _):
        made.sendto(plain_request(1, 7), (HOST, daemon.port))
        made.recv(1000)
        told, status = controls(server, "metrics")
        labels = f'local="0",mode="plain",peer="{ends_of(made)}",ssid="7"'
        wanted = {"stampd_up": 1, "stampd_sessions": 1, f"stampd_session_draws_total{{{labels}}}": 1}
        types = {"stampd_up": "gauge", "stampd_sessions": "gauge", "stampd_session_draws_total": "counter"}
        assert (samples_of(told), status) == ((wanted, types), 0), told
        daemon.quit()
        told, status = controls(server, "metrics", stderr=subprocess.DEVNULL)
        assert (samples_of(told)[0], status) == ({"stampd_up": 0}, 0), told
        ended = subprocess.run([STAMPCTL, "-s", server, "metrics"], stdout=subprocess.DEVNULL, stderr=subprocess.PIPE)
        assert ended.stderr.decode() == f"stampctl: {server}: Connection refused\n", ended


@check
def metrics_tell_queue_and_drops_of_each_local(program, folder):
    """By sockets of this script's own at the file's addresses: what is told is the system's, and they can be filled."""
    with contextlib.ExitStack() as stack:
        sockets = [stack.enter_context(socket.socket(type=socket.SOCK_DGRAM)) for _ in range(2)]
        for each in sockets:
            each.setsockopt(socket.SOL_SOCKET, socket.SO_RCVBUF, 2048)
            each.bind((HOST, 0))
        addresses = [at(each.getsockname()[1]) for each in sockets]
        addresses.append(at(free_ports(1)[0]))
        file = written(folder, toml(locals=addresses) + "[configs.edge]\n")
        made = stack.enter_context(sender())
        for _ in range(100):
            made.sendto(bytes(100), sockets[1].getsockname())
        told, status = controls(addresses[2], "metrics", "--file", file, stderr=subprocess.DEVNULL)
        found, types = samples_of(told)
        label = lambda place: f'{{address="{addresses[place]}",local="{place}"}}'
        assert status == 0 and found["stampd_up"] == 0, told
        assert found[f"stampd_socket_queued_bytes{label(0)}"] == found[f"stampd_socket_drops_total{label(0)}"] == 0, told
        assert found[f"stampd_socket_queued_bytes{label(1)}"] > 0, told
        sockets[1].setblocking(False)
        waiting = 0
        with contextlib.suppress(BlockingIOError):
            while sockets[1].recv(1000):
                waiting += 1
        assert found[f"stampd_socket_drops_total{label(1)}"] == 100 - waiting > 0, (waiting, told)
        assert addresses[2] not in told and types["stampd_socket_drops_total"] == "counter", told


@check
def metrics_tell_the_sockets_of_a_daemon(program, folder):
    wanted_ipv6()
    local, six, operator = free_ports(3)
    keys = dict(locals=[at(local), f"{SIX}:{six}"], operator=at(operator))
    file = written(folder, toml(**keys) + "[configs.edge]\n")
    with Daemon(program, file, operator):
        told, status = controls(at(operator), "metrics", "--file", file)
        assert status == 0 and told.count("\nstampd_socket_drops_total{") == 2 and f'address="{SIX}:{six}"' in told, told
    told, status = controls(at(operator), "metrics", "--file", pathlib.Path(folder, "none"))
    assert status == 5 and told.count("\n") == 1, told


def is_listening(port):
    with socket.socket() as one:
        return one.connect_ex((HOST, port)) == 0


@contextlib.contextmanager
def exporting(server, *words):
    """The port of an exporter, once it listens."""
    port = free_ports(1)[0]
    with running(STAMPCTL, "-s", server, "export", "--listen", at(port), *words) as exporter:
        until = time.monotonic() + SECONDS
        while not is_listening(port):
            assert exporter.poll() is None and time.monotonic() < until, "the exporter doesn't listen"
            time.sleep(0.05)
        yield port


def scraped(port):
    with urllib.request.urlopen(f"http://{at(port)}/metrics", timeout=SECONDS) as answer:
        return samples_of(answer.read().decode())


@check
def export_serves_the_same_metrics(program, folder):
    if output(sys.executable, "-c", "import prometheus_client")[1]:
        raise Skipped("there is no package prometheus_client here")
    with serving(program, folder, session("192.0.2.1:5000")) as (daemon, server, file):
        with exporting(server, "--file", file) as port:
            wanted = samples_of(controls(server, "metrics", "--file", file)[0])
            assert len(wanted[0]) == 5 and scraped(port) == wanted, (scraped(port), wanted)
            told, status = controls(server, "export", "--listen", at(port))
            assert (told, status) == (f"stampctl: {at(port)} can't be bound: Address already in use\n", 9), told
            daemon.quit()
            assert scraped(port)[0] == {"stampd_up": 0}, scraped(port)


@check
def export_tells_a_package_that_is_missing(program, folder):
    pathlib.Path(folder, "prometheus_client.py").write_text("raise ImportError\n")
    told, status = output(STAMPCTL, "export", env=os.environ | {"PYTHONPATH": folder})
    assert status == 7 and told.count("\n") == 1 and "python3-prometheus-client" in told, told


# ---- prometheus files


@check
def promtool_takes_the_metrics_and_the_rules(program, folder):
    wanted_tool("promtool")
    with serving(program, folder, session("192.0.2.1:5000")) as (_, server, file):
        text = controls(server, "metrics", "--file", file)[0]
    told = output("promtool", "check", "metrics", input=text)
    assert told == ("", 0), told
    for *words, name in (
        ("check", "config", "prometheus.yml"), ("check", "rules", "stampd.rules.yml"), ("test", "rules", "stampd.test.yml"),
    ):
        told, status = output("promtool", *words, PROMETHEUS / name)
        assert status == 0 and "FAILED" not in told, told


def expressions_of_dashboard():
    panels = json.loads((PROMETHEUS / "stampd.json").read_text())["panels"]
    return [target["expr"] for panel in panels for target in panel.get("targets", [])]


@check
def rules_and_dashboard_speak_of_metrics_that_are_there(program, folder):
    with serving(program, folder, session("192.0.2.1:5000")) as (_, server, file):
        names = set(samples_of(controls(server, "metrics", "--file", file)[0])[1])
    expressions = expressions_of_dashboard() + re.findall(r"expr: (.*)", (PROMETHEUS / "stampd.rules.yml").read_text())
    said = {name for text in expressions for name in re.findall(r"\bstampd_\w+", text)}
    assert len(expressions) > 6 and said == names, (said, names)


@check
def promtool_takes_the_expressions_of_the_dashboard(program, folder):
    wanted_tool("promtool")
    rules = [{"record": f"dashboard:{place}", "expr": text} for place, text in enumerate(expressions_of_dashboard())]
    file = pathlib.Path(folder, "rules.yml")
    file.write_text(json.dumps({"groups": [{"name": "dashboard", "rules": rules}]}).replace("$__rate_interval", "5m"))
    told, status = output("promtool", "check", "rules", file)
    assert status == 0, told
