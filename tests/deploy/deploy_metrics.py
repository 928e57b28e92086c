"""Has Prometheus read the numbers of `tfstatectl serve --metrics` through nginx, as
deploy/OPERATE.md says, with the rules of deploy/alerts.yml; and compares the names that the rules
and the dashboard of Grafana use with those that the programs print."""
import json
import re
import subprocess
import sys
import time
import urllib.parse
import urllib.request

from checking import S1, SECONDS, STARTED, checks_in, expect, run_checks
from deploy_nginx import Nginx, make_secrets, site
from folder_program import LocalConnection, Serving
from folders import LOOPBACK, free_port, fresh
from metrics import read_families, read_metrics
from page_blocks import blocks_in
from past_program import bytes_of
from repository import TOP

DEPLOY = TOP / "deploy"
RULES, DASHBOARD = DEPLOY / "alerts.yml", json.loads((DEPLOY / "dashboard.json").read_text())
CONFIGURATION = """global: {{scrape_interval: 1s, evaluation_interval: 1s}}
rule_files: [{rules}]
scrape_configs:
  - job_name: tfstated
    static_configs: [{{targets: ["{target}"]}}]
"""


def server():
    """Returns a server that has answered some requests, with its numbers at a socket."""
    folder = fresh()
    started = Serving(folder / "journals", "--first", "--metrics", f"unix:{folder}/metrics.sock", path=folder / "tfstated.sock").listens()
    expect([started.ask("POST", "/state/a", S1)[0], started.ask("GET", "/state/b")[0]], [200, 404])
    return started, folder / "metrics.sock"


def numbers_of(path):
    """Returns the text of a server's numbers."""
    connection = LocalConnection(path)
    connection.request("GET", "/metrics")
    text = connection.getresponse().read().decode()
    connection.close()
    return text


class Prometheus:
    """A running Prometheus that reads the numbers at a port."""

    def __init__(self, port):
        self.port, folder = free_port(), fresh()
        (folder / "prometheus.yml").write_text(CONFIGURATION.format(rules=RULES, target=f"{LOOPBACK}:{port}"))
        words = ["prometheus", f"--config.file={folder}/prometheus.yml", f"--storage.tsdb.path={folder}/data", f"--web.listen-address={LOOPBACK}:{self.port}"]
        STARTED.append(subprocess.Popen(words, stdin=subprocess.DEVNULL, stdout=subprocess.DEVNULL, stderr=subprocess.DEVNULL))

    def ask(self, path, **fields):
        """Returns the data of an answer, once there is one."""
        until = time.monotonic() + SECONDS
        while True:
            try:
                with urllib.request.urlopen(f"http://{LOOPBACK}:{self.port}/api/v1/{path}?{urllib.parse.urlencode(fields)}", timeout=SECONDS) as reply:
                    return json.load(reply)["data"]
            except OSError:
                if time.monotonic() > until:
                    raise
                time.sleep(0.2)

    def value(self, query):
        """Returns the value of a query with one result, once there is one."""
        until = time.monotonic() + SECONDS
        while time.monotonic() < until:
            found = self.ask("query", query=query)["result"]
            if found:
                expect(len(found), 1, found)
                return float(found[0]["value"][1])
            time.sleep(0.2)
        raise AssertionError(f"no value of {query}")


def check_prometheus_reads_the_numbers_through_nginx():
    _, path = server()
    block, port, front = blocks_in((DEPLOY / "OPERATE.md").read_text(), "nginx")[0], free_port(), free_port()
    own = block.replace("127.0.0.1:9404", f"{LOOPBACK}:{port}").replace("/run/tfstated/metrics.sock", str(path))
    expect((str(port) in own, str(path) in own), (True, True))
    with Nginx(f"{site(path, front)}\n{own}", port):
        prometheus = Prometheus(port)
        expect(prometheus.value('up{job="tfstated"}'), 1)
        expect(prometheus.value('tfstated_requests_total{method="POST",route="state",status="200",refusal=""}'), 1)
        expect(prometheus.value('tfstated_requests_total{refusal="NoState"}'), 1)
        expect(prometheus.value('tfstated_request_duration_seconds_count{method="POST"}'), 1)
        expect(prometheus.value("tfstated_changes_total"), 1)
        rules = prometheus.ask("rules")["groups"][0]["rules"]
        expect({rule["health"] for rule in rules} <= {"ok", "unknown"}, True, rules)
        expect([rule["state"] for rule in rules if rule["name"] == "TfstatedDown"], ["inactive"])


def check_the_text_and_the_rules_have_the_right_form():
    _, path = server()
    for words, text in ((["check", "metrics"], numbers_of(path)), (["check", "rules", str(RULES)], "")):
        ran = subprocess.run(["promtool", *words], input=text, capture_output=True, text=True, check=False)
        expect((ran.returncode, ran.stderr), (0, ""), ran.stdout)


def check_rules_and_dashboard_use_names_that_are_printed():
    started, path = server()
    names = set(read_families(numbers_of(path))[0]) | set(read_metrics(bytes_of("stats", started.folder).decode()))
    names |= {"tfstated_oldest_lock_age_seconds", "tfstated_newest_copy_age_seconds"}
    texts = [RULES.read_text(), *(target["expr"] for panel in DASHBOARD["panels"] for target in panel["targets"])]
    used = {re.sub("_(bucket|sum|count)$", "", name) for text in texts for name in re.findall("tfstated_[a-z_]+", text)}
    expect(used - names, set())
    expect(len(used) > 8, True, used)


if __name__ == "__main__":
    make_secrets()
    sys.exit(run_checks(checks_in(globals())))
