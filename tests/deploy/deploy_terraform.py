"""Runs Terraform itself with the setup of deploy/, with nginx, TLS and a password: a configuration
is applied, and locked against others; two applies at once, an apply while the server restarts and
while it compacts its journal, pushes that are refused, 4,000 instances, and odd keys. The resource
`terraform_data` is part of Terraform, so nothing is downloaded. tests/deploy/deploy_commands.py has
the commands of the page."""
import contextlib
import json
import os
import re
import shutil
import subprocess
import sys
import time
import urllib.parse

from checking import SECONDS, STARTED, checks_in, expect, run_checks
from deploy_nginx import Nginx, PASSWORD, ROOM, USER, make_secrets, replaced, served, serving, site
from folder_program import FOLDER_PROGRAM
from folders import LOOPBACK, ask_over, free_port, fresh, goes_on_alone
from impact_model import impact, instances_of
from page_blocks import configuration

RESOURCES = """resource "terraform_data" "a" { input = "1" }
resource "terraform_data" "b" { input = terraform_data.a.output }
"""
# Takes until a file named `go` exists, and shows by a file named `begun` that it has begun.
SLOW = """resource "terraform_data" "slow" {
  provisioner "local-exec" { command = "touch begun; while [ ! -e go ]; do sleep 0.05; done" }
}
"""
# Instances of a module that has 50 instances of each of two resources. Terraform makes two of these
# modules: its time grows with the square of the instances, so the other 38 are copies of the first
# one in the state.
LARGE = """module "part" {
  source   = "./part"
  for_each = toset([for number in range(2) : "part ${number}"])
}
"""
PART = """locals { keys = toset([for number in range(50) : tostring(number)]) }
resource "terraform_data" "low" { for_each = local.keys }
resource "terraform_data" "high" {
  for_each   = local.keys
  depends_on = [terraform_data.low]
}
"""
KEYS = ["plain", 'a "quote"', "a[0]", 'x["y"]', "] [", "a.b", "\\\\ two", "\\n", "${x}", "%{x}", "tab\there", "Zürich", "日本", "a&b=c+d%20", "<>", "'", " ", "/", "?#"]
ODD = """module "odd" {
  source   = "./odd"
  for_each = toset(jsondecode(file("keys.json")))
  one      = terraform_data.one
}
resource "terraform_data" "one" {}
"""
ODD_PART = """variable "one" {}
resource "terraform_data" "low" {
  for_each = toset(jsondecode(file("keys.json")))
  input    = var.one
}
resource "terraform_data" "high" {
  count = 2
  input = terraform_data.low
}
"""

# Reads outputs of another workspace.
READING = """data "terraform_remote_state" "other" {{
  backend = "http"
  config  = {{ address = "{address}", username = "{user}" }}
}}
output "a" {{ value = data.terraform_remote_state.other.outputs.a }}
"""


class Project:
    """A folder with a configuration."""

    def __init__(self, text=RESOURCES, **modules):
        self.folder, self.variables = fresh(), {}
        (self.folder / "main.tf").write_text(text)
        for name, content in modules.items():
            (self.folder / name).mkdir()
            (self.folder / name / "main.tf").write_text(content)

    def name_backend(self, port, name, tries=0, user=USER):
        """Gives the folder the page's block, with another address and user."""
        block = replaced(configuration(), '"network-ci"', f'"{user}"')
        block = replaced(block, "retry_max      = 5", f"retry_max      = {tries}")
        block = block.replace("tfstated.example.com/state/network.prod", f"{LOOPBACK}:{port}/state/{name}")
        (self.folder / "backend.tf").write_text(block)
        return self

    def popen(self, *words, **how):
        """Starts a command in its folder, without waiting for it."""
        variables = {"TF_HTTP_PASSWORD": PASSWORD, "SSL_CERT_FILE": str(ROOM / "certificate.pem"), "CHECKPOINT_DISABLE": "1",
                     "TF_IN_AUTOMATION": "1", "HOME": str(self.folder), "TF_CLI_CONFIG_FILE": "/dev/null", **self.variables}
        how = {"stdin": subprocess.DEVNULL, "stderr": subprocess.STDOUT, **how}
        started = subprocess.Popen(words, cwd=self.folder, env={**os.environ, **variables}, stdout=subprocess.PIPE, text=True, **how)
        STARTED.append(started)
        return started

    def start(self, *words):
        """Starts Terraform, without waiting for it."""
        return self.popen("terraform", *words, "-no-color")

    def run(self, *words):
        """Returns whether Terraform succeeds, and what it writes."""
        return ended(self.start(*words))

    def do(self, *words):
        """Returns what Terraform writes. Terraform must succeed."""
        good, text = self.run(*words)
        expect(good, True, f"{words}: {text}")
        return text

    def begun(self):
        """Waits until the slow resource is being made."""
        end = time.monotonic() + SECONDS
        while not (self.folder / "begun").exists() and time.monotonic() < end:
            time.sleep(0.05)
        expect((self.folder / "begun").exists(), True, "it is being made")

    def go(self):
        (self.folder / "go").touch()


def ended(process):
    """Returns whether Terraform succeeded, and what it wrote."""
    text = process.communicate(timeout=2 * SECONDS)[0]
    STARTED.remove(process)
    return process.returncode == 0, text


def check_terraform_applies_and_locks():
    with served() as (server, proxy):
        project = Project().name_backend(proxy.port, "first")
        project.do("init")
        project.do("apply", "-auto-approve")
        state = json.loads(server.ask("GET", "/state/first")[1])
        expect([resource["name"] for resource in state["resources"]], ["a", "b"])
        expect("No changes" in project.do("plan"), True)
        (project.folder / "main.tf").write_text(RESOURCES.replace('"1"', '"2"'))
        project.do("apply", "-auto-approve")
        expect(json.loads(server.ask("GET", "/state/first")[1])["serial"] > state["serial"], True)
        answer = json.loads(proxy.ask("GET", "/impact/first/any?of=terraform_data.a")[1])
        expect(answer["instances"], ["terraform_data.b"])
        expect(proxy.ask("LOCK", "/state/first", b'{"ID":"somebody"}'), (200, b""))
        good, text = project.run("plan")
        expect((good, "already locked: ID=somebody" in text), (False, True), text)
        project.do("force-unlock", "-force", "somebody")
        expect("No changes" in project.do("plan"), True, "the lock was cleared")
        expect(server.ask("LOCK", "/state/first", b'{"ID":"after"}')[0], 200, "no lock is left")


def check_the_second_of_two_applies_waits():
    with served() as (server, proxy):
        first, second = (Project(SLOW).name_backend(proxy.port, "one") for _ in range(2))
        (second.folder / "main.tf").write_text(SLOW + RESOURCES)
        first.do("init")
        second.do("init")
        applying = first.start("apply", "-auto-approve")
        first.begun()
        good, text = second.run("apply", "-auto-approve")
        expect((good, "already locked" in text), (False, True), text)
        waiting = second.start("apply", "-auto-approve", "-lock-timeout=60s")
        time.sleep(2)
        expect((applying.poll(), waiting.poll()), (None, None), "both run")
        first.go()
        expect(ended(applying)[0], True, "the first")
        good, text = ended(waiting)
        expect((good, "2 added, 0 changed, 0 destroyed" in text), (True, True), text)
        expect(server.ask("LOCK", "/state/one", b'{"ID":"after"}')[0], 200, "no lock is left")


def check_an_apply_goes_on_over_a_restart():
    server, port = serving(), free_port()
    with Nginx(site(server.path, port), port):
        project = Project(SLOW + RESOURCES).name_backend(port, "one", tries=5)
        project.do("init")
        applying = project.start("apply", "-auto-approve")
        project.begun()
        server.kill()
        project.go()
        time.sleep(1.5)
        expect(applying.poll(), None, "it tries again")
        server = serving(server.folder, server.path)
        good, text = ended(applying)
        expect((good, "3 added" in text), (True, True), text)
        expect("No changes" in project.do("plan"), True)
        expect(server.ask("LOCK", "/state/one", b'{"ID":"after"}')[0], 200, "no lock is left")
    server.kill()


def compacted(folder):
    """Requests a compaction, and waits until the server continues in the new journal."""
    before = max(int(path.stem[8:]) for path in folder.glob("*.tfj"))
    (folder / "compact").touch()
    goes_on_alone(folder, before)


def check_an_apply_goes_on_over_compactions():
    server, port = serving(), free_port()
    folder = server.folder
    with Nginx(site(server.path, port), port):
        project = Project(SLOW + RESOURCES).name_backend(port, "one")
        project.do("init")
        applying = project.start("apply", "-auto-approve")
        project.begun()
        compacted(folder)
        (folder / "compact").touch()
        project.go()
        good, text = ended(applying)
        expect((good, "3 added" in text), (True, True), text)
        compacted(folder)
        expect("No changes" in project.do("plan"), True)
        expect(server.ask("LOCK", "/state/one", b'{"ID":"after"}')[0], 200, "no lock is left")
    server.kill()


def check_older_and_other_states_are_refused_also_where_terraform_is_forced():
    with served() as (server, proxy):
        project = Project().name_backend(proxy.port, "one")
        project.do("init")
        project.do("apply", "-auto-approve")
        old = project.do("state", "pull")
        (project.folder / "old.json").write_text(old)
        (project.folder / "main.tf").write_text(RESOURCES.replace('"1"', '"2"'))
        project.do("apply", "-auto-approve")
        kept = server.ask("GET", "/state/one")
        (project.folder / "other.json").write_text(old.replace(json.loads(old)["lineage"], "another"))
        for file in ("old.json", "other.json"):
            good, text = project.run("state", "push", file)
            expect((good, "use the -force flag" in text.replace("\n", " ").lower() or "cannot" in text), (False, True), text)
            good, text = project.run("state", "push", "-force", file)
            expect((good, "409" in text), (False, True), text)
        expect(server.ask("GET", "/state/one"), kept, "the state stays")
        good, text = project.run("force-unlock", "-force", "nobody")
        expect(good, True, text)
        expect(proxy.ask("LOCK", "/state/one", b'{"ID":"somebody"}'), (200, b""))
        project.do("force-unlock", "-force", "other")
        expect("No changes" in project.do("plan"), True, "the lock was cleared, whoever held it")


def asked(address):
    """Returns an address as it is queried. Terraform prints `${` and `%{` of a key doubled, and the
    server's address has the key unchanged."""
    return re.sub(r'\["(?:[^"\\]|\\.)*"\]$', lambda key: key[0].replace("$${", "${").replace("%%{", "%{"), address)


def impacts(server, name, addresses):
    """Returns the server's answers about each address, on as few connections as it allows."""
    connection, found = server.connect(), {}
    with contextlib.closing(connection):
        for address in addresses:
            target = f"/impact/{name}/any?of={urllib.parse.quote(address, safe='')}"
            status, body = ask_over(connection, "GET", target)
            found[address] = json.loads(body)["instances"] if status == 200 else (status, body)
    return found


def multiplied(text):
    """Returns the state with 40 modules instead of two, with the next serial."""
    state = json.loads(text)
    first = [resource for resource in state["resources"] if resource["module"] == 'module.part["part 0"]']
    more = [{**resource, "module": f'module.part["part {number}"]'} for number in range(2, 40) for resource in first]
    return json.dumps({**state, "serial": state["serial"] + 1, "resources": state["resources"] + more})


def check_4000_instances_are_pushed_listed_and_asked_for():
    with served() as (server, proxy):
        project = Project(LARGE, part=PART).name_backend(proxy.port, "large")
        project.do("init")
        project.do("apply", "-auto-approve")
        (project.folder / "large.json").write_text(multiplied(project.do("state", "pull")))
        project.do("state", "push", "large.json")
        listed = project.do("state", "list").splitlines()
        instances = instances_of(json.loads(server.ask("GET", "/state/large")[1]))
        expect((len(listed), len(instances)), (4000, 4000))
        expect(impacts(server, "large", listed), {address: impact("any", [address], instances) for address in listed})
        low = 'module.part["part 3"].terraform_data.low["7"]'
        expect(len(impacts(server, "large", [low])[low]), 2000, "each `high`, since dependencies have no keys")
        project.do("state", "rm", low)
        expect(len(project.do("state", "list").splitlines()), 3999)


def check_an_impact_of_each_odd_address_is_what_a_search_finds():
    with served() as (server, proxy):
        project = Project(ODD, odd=ODD_PART).name_backend(proxy.port, "odd")
        (project.folder / "keys.json").write_text(json.dumps(KEYS))
        project.do("init")
        project.do("apply", "-auto-approve")
        listed = project.do("state", "list").splitlines()
        instances = instances_of(json.loads(server.ask("GET", "/state/odd")[1]))
        expect(len(listed), 1 + len(KEYS) * (len(KEYS) + 2))
        listed = [asked(address) for address in listed]
        expect(impacts(server, "odd", listed), {address: impact("any", [address], instances) for address in listed})


def check_a_workspace_that_reads_outputs_of_another_is_listed():
    with served() as (server, proxy):
        texts = {"network": RESOURCES + 'output "a" { value = terraform_data.a.output }\n'}
        for name, other in (("app", "network"), ("web", "app")):
            texts[name] = READING.format(address=f"https://{LOOPBACK}:{proxy.port}/state/{other}", user=USER)
        for name, text in texts.items():
            project = Project(text).name_backend(proxy.port, name)
            project.do("init")
            project.do("apply", "-auto-approve")
        listed = subprocess.run([FOLDER_PROGRAM, "impact", server.folder, "network", "--across", "--json"], capture_output=True, check=True)
        expect(json.loads(listed.stdout), [{"direct": True, "name": "app"}, {"direct": False, "name": "web"}])


if __name__ == "__main__":
    missing = [name for name in ("nginx", "openssl", "terraform") if not shutil.which(name)]
    if missing:
        sys.exit(f"not installed: {', '.join(missing)}")
    make_secrets()
    sys.exit(run_checks(checks_in(globals())))
