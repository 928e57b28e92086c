"""Runs the commands of deploy/IMPACT.md over plans that Terraform makes, and compares what they
reach beyond themselves with a search over the state; runs the steps that comment against a stand-in
for each host."""
import contextlib
import http.server
import json
import os
import shutil
import subprocess
import sys
import tempfile
import textwrap
import threading
import urllib.parse
from pathlib import Path

from built import program
from checking import SECONDS, checks_in, expect, run_checks
from deploy_nginx import PASSWORD, USER, make_secrets, served
from deploy_terraform import Project, ended
from folders import LOOPBACK
from impact_model import impact, instances_of
from page_blocks import IMPACT, blocks_in, commands_in
from repository import TOP

FILES = ("impact-github.yml", "impact-gitlab.yml")
MARKER = "<!-- tfstatectl impact -->"
NETWORK = """resource "terraform_data" "network" { input = "1" }
resource "terraform_data" "subnet" {
  for_each = toset(["a \\"quoted\\"", "b]", "$${x}"])
  input    = terraform_data.network.output
}
resource "terraform_data" "machine" { depends_on = [terraform_data.subnet] }
resource "terraform_data" "other" {}
"""
MANY = """resource "terraform_data" "part" {
  count = 150
  input = "1"
}
resource "terraform_data" "last" { depends_on = [terraform_data.part] }
"""


def comment(project, form="--markdown", password=PASSWORD):
    """Returns the status of the page's commands in a project, the last one with another form, and
    its output and its text on standard error."""
    plan, show, ask = blocks_in(IMPACT)[0].splitlines()
    good, text = ended(project.popen("bash", "-c", plan))
    expect(good, True, text)
    folder = os.path.dirname(program("tfstatectl"))
    project.variables = {"TF_HTTP_USERNAME": USER, "TF_HTTP_PASSWORD": password, "PATH": f"{folder}:{os.environ['PATH']}"}
    ran = project.popen("bash", "-o", "pipefail", "-ec", "\n".join([show, ask.replace("--markdown", form)]), stderr=subprocess.PIPE)
    text, errors = ran.communicate(timeout=SECONDS)
    project.variables = {}
    return ran.returncode, text, errors


def rows_in(text):
    """Returns the effect and the address of each row of JSON."""
    return [(row["effect"], row["instance"]) for row in json.loads(text)["instances"]]


def applied(proxy, text, name):
    """Returns a project whose resources are in the state of this name."""
    project = Project(text).name_backend(proxy.port, name)
    project.do("init")
    project.do("apply", "-auto-approve")
    return project


def beyond(server, name, changed):
    """Returns what these instances reach beyond themselves, by a search over the state."""
    instances = instances_of(json.loads(server.ask("GET", f"/state/{name}")[1]))
    return [address for address in impact("any", changed, instances) if address not in changed]


def check_a_plan_reaches_what_a_search_finds():
    with served() as (server, proxy):
        project = applied(proxy, NETWORK, "net")
        (project.folder / "main.tf").write_text(NETWORK.replace('"other" {}', '"other" { input = 1 }') + 'resource "terraform_data" "new" {}\n')
        status, text, errors = comment(project)
        expect((status, errors, text.splitlines()[0]), (0, "", MARKER), text)
        expect("0 destroyed or replaced, 1 updated, 1 created; 0 beyond the plan" in text, True, text)
        (project.folder / "main.tf").write_text(NETWORK.replace("for_each", "triggers_replace = 1\n  for_each"))
        status, text, errors = comment(project, "--json")
        rows = rows_in(text)
        changed = [address for effect, address in rows if effect == "replaced"]
        wanted = sorted(f"terraform_data.subnet[{json.dumps(key)}]" for key in ('a "quoted"', "b]", "${x}"))
        expect((status, errors, sorted(changed)), (0, "", wanted))
        expect([address for effect, address in rows if effect == "reached"], beyond(server, "net", changed), text)


def check_a_moved_and_destroyed_network_reaches_what_stays():
    with served() as (server, proxy):
        project = applied(proxy, NETWORK, "net")
        moved = NETWORK.replace('"network"', '"core"').replace("terraform_data.network", "terraform_data.core").replace('"1"', '"2"')
        (project.folder / "main.tf").write_text(moved + "moved {\n  from = terraform_data.network\n  to = terraform_data.core\n}\n")
        status, text, _ = comment(project, "--json")
        wanted = {("updated", "terraform_data.core"), ("reached", "terraform_data.machine")}
        expect((status, wanted - set(rows_in(text))), (0, set()), text)


def check_150_changes_are_one_comment():
    with served() as (_, proxy):
        project = applied(proxy, MANY, "many")
        (project.folder / "main.tf").write_text(MANY.replace('"1"', '"2"'))
        status, text, _ = comment(project)
        expect((status, "150 updated, 0 created; 1 beyond the plan" in text, text.count("\n- ")), (0, True, 151), text)


def check_a_state_that_can_not_be_pulled_is_no_comment():
    with served() as (_, proxy):
        project = applied(proxy, NETWORK, "net")
        status, text, errors = comment(project, password="wrong")
        expect((status == 0, text, errors != ""), (False, "", True), errors)


class Host(http.server.BaseHTTPRequestHandler):
    """A stand-in for the part of the two hosts' APIs that their files use: comments of one merge
    request, each with an identifier."""
    comments, asked = {}, []

    def reply(self, value):
        text = json.dumps(value).encode()
        self.send_response(200)
        self.send_header("Content-Length", str(len(text)))
        self.end_headers()
        self.wfile.write(text)

    def take(self):
        """Returns the body of a comment, as JSON or as a form."""
        type(self).asked.append((self.command, self.path, self.headers["Authorization"] or self.headers["PRIVATE-TOKEN"]))
        data = self.rfile.read(int(self.headers["Content-Length"] or 0)).decode()
        if data.startswith("{"):
            return json.loads(data)["body"]
        return urllib.parse.parse_qs(data)["body"][0] if data else ""

    def do_GET(self):
        self.take()
        self.reply([{"id": number, "body": body, "user": {"type": kind}} for number, (body, kind) in self.comments.items()])

    def do_POST(self):
        self.comments[len(self.comments) + 1] = (self.take(), "Bot")
        self.reply({})

    def do_PATCH(self):
        self.comments[int(self.path.rsplit("/", 1)[1])] = (self.take(), "Bot")
        self.reply({})

    do_PUT = do_PATCH

    def log_message(self, *words):
        pass


@contextlib.contextmanager
def host():
    """Runs a stand-in with a comment of a person, which is about the marker."""
    Host.comments, Host.asked = {1: (f"What is {MARKER}?", "User")}, []
    server = http.server.ThreadingHTTPServer((LOOPBACK, 0), Host)
    threading.Thread(target=server.serve_forever, daemon=True).start()
    try:
        yield f"http://{LOOPBACK}:{server.server_port}"
    finally:
        server.shutdown()
        server.server_close()


def last_step(name):
    """Returns the commands of the last step of a file."""
    return textwrap.dedent((TOP / "deploy" / name).read_text().rsplit("- |\n" if "gitlab" in name else "run: |\n", 1)[1])


def check_a_later_run_edits_the_comment():
    variables = {"impact-github.yml": {"GITHUB_REPOSITORY": "o/r", "NUMBER": "7", "GH_TOKEN": "secret"},
                 "impact-gitlab.yml": {"CI_PROJECT_ID": "3", "CI_MERGE_REQUEST_IID": "7", "IMPACT_TOKEN": "secret"}}
    for name in FILES:
        with host() as url, tempfile.TemporaryDirectory() as folder:
            own = {**os.environ, **variables[name], "GITHUB_API_URL": url, "CI_API_V4_URL": url}
            for run, text in enumerate((f"{MARKER}\nfirst & \"é\"\n", f"{MARKER}\nsecond\n", f"{MARKER}\nthird\n")):
                (Path(folder) / "comment.md").write_text(text)
                subprocess.run(["bash", "-ec", last_step(name)], cwd=folder, env=own, check=True, timeout=SECONDS)
                expect(Host.comments, {1: (f"What is {MARKER}?", "User"), 2: (text, "Bot")}, f"{name}: run {run}")
            expect({"secret" in token for _, _, token in Host.asked}, {True}, name)


def check_the_page_has_no_other_commands():
    expect((len(blocks_in(IMPACT)), commands_in(IMPACT)), (1, {"terraform state pull"}))


def check_the_files_to_copy_run_the_commands_of_their_page():
    for name in FILES:
        text = (TOP / "deploy" / name).read_text()
        for line in blocks_in(IMPACT)[0].splitlines()[1:]:
            expect(text.count(line), 1, f"{name}: {line}")
        expect(text.count("terraform init") == text.count("terraform plan") == 1, True, name)
        expect("\t" in text, False, f"{name}: no tab in YAML")


if __name__ == "__main__":
    missing = [name for name in ("nginx", "openssl", "terraform", "curl", "jq") if not shutil.which(name)]
    if missing:
        sys.exit(f"not installed: {', '.join(missing)}")
    make_secrets()
    sys.exit(run_checks(checks_in(globals())))
