# SPDX-License-Identifier: Apache-2.0
"""The command `export`: the metrics over HTTP, each scrape asking the daemon anew."""

import contextlib
import threading

from stampctl.faults import NoPackage, Unbound, cause_of
from stampctl.metrics import addresses_of, families
from stampctl.words import host_and_port


class Collector:
    """What prometheus_client asks at each scrape."""

    def __init__(self, server, addresses, core):
        self.server, self.addresses, self.core = server, addresses, core

    def collect(self):
        kinds = {"gauge": self.core.GaugeMetricFamily, "counter": self.core.CounterMetricFamily}
        for name, kind, help_text, labels, samples in families(self.server, self.addresses)[0]:
            family = kinds[kind](name, help_text, labels=labels)
            for values, number in samples:
                family.add_metric(values, number)
            yield family

    def describe(self):
        """None, so that the daemon isn't asked before the first scrape."""
        return []


def export(options):
    """Serves until it is interrupted."""
    try:
        import prometheus_client
        from prometheus_client import core
    except ImportError:
        raise NoPackage("export wants the Python package prometheus_client (Debian: python3-prometheus-client)") from None
    registry = prometheus_client.CollectorRegistry()
    registry.register(Collector(options.server, addresses_of(options), core))
    host, port = host_and_port(options.listen)
    try:
        prometheus_client.start_http_server(port, host, registry)
    except OSError as fault:
        raise Unbound(f"{options.listen} can't be bound: {cause_of(fault)}") from None
    with contextlib.suppress(KeyboardInterrupt):
        threading.Event().wait()
