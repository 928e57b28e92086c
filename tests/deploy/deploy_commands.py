"""Runs each command of Terraform in the sentences and tables of deploy/'s pages: a state is moved
from its backend, to a server of its own, and back to a version, a state that a run left is pushed,
and a lock is cleared. nginx and TLS are set up as in deploy/, and S3 is a stand-in."""
import json
import shutil
import subprocess
import sys

from checking import SECONDS, STARTED, checks_in, expect, run_checks
from deploy_nginx import Nginx, PASSWORD, ROOM, make_secrets, quiet, served, serving, site, spread_site
from deploy_terraform import Project, RESOURCES, SLOW, ended
from folder_program import FOLDER_PROGRAM, run
from folders import LOOPBACK, free_port, fresh
from page_blocks import TERRAFORM, command, commands_of, left_out, take
from s3_stand_in import BUCKET, s3

S3 = """terraform {{
  backend "s3" {{
    bucket                      = "{bucket}"
    key                         = "network"
    region                      = "us-east-1"
    endpoints                   = {{ s3 = "http://{host}:{port}" }}
    use_lockfile                = true
    use_path_style              = true
    skip_credentials_validation = true
    skip_requesting_account_id  = true
    skip_metadata_api_check     = true
    skip_region_validation      = true
  }}
}}
"""


def shell(project, text, answers=0, status=0):
    """Returns what a command of the page writes in a configuration's folder, with yes as the answer
    to Terraform's questions."""
    started, written = project.popen("bash", "-c", text, stdin=subprocess.PIPE), ""
    for number in range(1, answers + 1):
        while written.count("Enter a value:") < number and (letter := started.stdout.read(1)):
            written += letter
        started.stdin.write("yes\n")
        started.stdin.flush()
    written += started.communicate(timeout=2 * SECONDS)[0]
    STARTED.remove(started)
    expect(started.returncode, status, f"{text}: {written}")
    return written


def looks_the_same(project, addresses="terraform_data.a\nterraform_data.b\n"):
    """Makes the page's comparison after a move."""
    expect(shell(project, command("terraform state list")), addresses)
    expect("No changes" in shell(project, command("terraform plan")), True)


def applied(project):
    project.do("init")
    project.do("apply", "-auto-approve")
    return project


def unlocked(server, name):
    """Returns true if nobody holds a lock."""
    return server.ask("LOCK", f"/state/{name}", b'{"ID":"after"}')[0] == 200


def check_a_local_state_moves_in_and_on_to_another_address():
    with served() as (server, proxy):
        project = applied(Project())
        for name in ("first", "second.prod"):
            project.name_backend(proxy.port, name)
            text = shell(project, command("terraform init -migrate-state"), answers=1)
            expect("Do you want to copy existing state" in text, True, text)
            looks_the_same(project)
            expect(unlocked(server, name), True)
            server.ask("UNLOCK", f"/state/{name}", b"")


def put_in_s3(project, port):
    """Gives a configuration the backend `s3`."""
    project.variables = {"AWS_ACCESS_KEY_ID": "key", "AWS_SECRET_ACCESS_KEY": "secret", "AWS_EC2_METADATA_DISABLED": "true"}
    (project.folder / "backend.tf").write_text(S3.format(bucket=BUCKET, host=LOOPBACK, port=port))
    return project


def check_a_state_moves_from_s3():
    port = free_port()
    with served() as (server, proxy), s3(port) as objects:
        project = applied(put_in_s3(Project(), port))
        expect(list(objects), ["network"], "its lock is given back")
        shell(project.name_backend(proxy.port, "first"), command("terraform init -migrate-state"), answers=1)
        looks_the_same(project)
        expect(json.loads(server.ask("GET", "/state/first")[1])["resources"], json.loads(objects["network"])["resources"])
        expect((list(objects), unlocked(server, "first")), (["network"], True))


def check_named_workspaces_move_from_s3_one_by_one():
    port = free_port()
    with served() as (server, proxy), s3(port) as objects:
        project = applied(put_in_s3(Project(), port))
        project.do("workspace", "new", "blue")
        (project.folder / "main.tf").write_text(RESOURCES + 'resource "terraform_data" "blue" {}\n')
        project.do("apply", "-auto-approve")
        expect(sorted(objects), ["env:/blue/network", "network"])
        shell(project.name_backend(proxy.port, "blue"), command("terraform init -migrate-state"), answers=2)
        looks_the_same(project, "terraform_data.a\nterraform_data.b\nterraform_data.blue\n")
        shell(put_in_s3(project, port), command("terraform init -reconfigure"))
        project.do("workspace", "select", "default")
        (project.folder / "main.tf").write_text(RESOURCES)
        shell(project.name_backend(proxy.port, "plain"), command("terraform init -migrate-state"), answers=2)
        looks_the_same(project)
        expect(sorted(objects), ["env:/blue/network", "network"], "the old states stay")


def add_user(user, password):
    """Adds a user with all rights."""
    for name, line in (("passwords", f"{user}:{quiet('openssl', 'passwd', '-6', password).decode()}"), ("access.conf", f'"~^{user}:" 1;\n')):
        with open(ROOM / name, "a") as file:
            file.write(line)


def check_a_state_moves_from_a_backend_with_another_user():
    add_user("same", PASSWORD)
    add_user("other", "other words")
    with served() as (server, proxy):
        project = applied(Project().name_backend(proxy.port, "first"))
        shell(project.name_backend(proxy.port, "next", user="same"), command("terraform init -migrate-state"), answers=1)
        shell(project, command("terraform state pull >old.json"))
        project.name_backend(proxy.port, "second", user="other").variables = {"TF_HTTP_PASSWORD": "other words"}
        text = shell(project, command("terraform init -migrate-state"), status=1)
        expect("401" in text or "requires auth" in text, True, text)
        shell(project, command("terraform init -reconfigure"))
        shell(project, command("terraform state push old.json"))
        looks_the_same(project)
        expect(unlocked(server, "second"), True)


def check_a_name_moves_to_a_server_of_its_own():
    port, name, lock = free_port(), "/state/billing.prod", b'{"ID":"move"}'
    first, second = servers = [serving() for _ in range(2)]
    with Nginx(site(first.path, port), port) as proxy:
        project = applied(Project().name_backend(port, "billing.prod"))
        expect(proxy.ask("LOCK", name, lock), (200, b""))
        shell(project, command("terraform state pull >moved.json"))
    with Nginx(spread_site(servers, port), port):
        shell(project, command("terraform state push moved.json"))
        expect((first.ask("UNLOCK", name, lock)[0], first.ask("DELETE", name)[0]), (200, 200), "at the old server")
        looks_the_same(project)
    expect([resource["name"] for resource in json.loads(second.ask("GET", name)[1])["resources"]], ["a", "b"])
    expect(first.ask("GET", name)[0], 404)
    for server in servers:
        server.kill()


def holder(project, server, name):
    """Returns who holds a lock, by the page's command."""
    asks = take("Clear the lock of a run that died", 0).replace("/run/tfstated/tfstated.sock", str(server.path)).replace("/state/prod", f"/state/{name}")
    return json.loads(shell(project, asks))["ID"]


def check_what_a_server_that_is_away_leaves_behind_is_pushed_later():
    server, port = serving(), free_port()
    with Nginx(site(server.path, port), port):
        project = applied(Project().name_backend(port, "one"))
        (project.folder / "main.tf").write_text(SLOW + RESOURCES)
        applying = project.start("apply", "-auto-approve")
        project.begun()
        server.kill()
        project.go()
        good, text = ended(applying)
        expect((good, (project.folder / "errored.tfstate").exists()), (False, True), text)
        server = serving(server.folder, server.path)
        push = command("terraform state push errored.tfstate")
        expect("already locked" in shell(project, push, status=1), True, "the run's lock is still held")
        shell(project, command("terraform force-unlock ID", ID=holder(project, server, "one")), answers=1)
        shell(project, push)
        expect("No changes" in project.do("plan"), True)
        expect("over newer state" in shell(project, push, status=1), True)
        expect(json.loads(shell(project, command("terraform state pull")))["serial"] > 1, True, "that which is compared")
    server.kill()


def check_a_state_that_was_stored_after_all_can_be_pushed():
    with served() as (server, proxy):
        project = applied(Project().name_backend(proxy.port, "one"))
        kept = server.ask("GET", "/state/one")
        (project.folder / "errored.tfstate").write_bytes(kept[1])
        shell(project, command("terraform state push errored.tfstate"))
        expect(server.ask("GET", "/state/one"), kept)


def check_states_of_a_second_server_are_pushed_to_the_one_that_counts():
    port, folders = free_port(), [fresh(n1=b"TFJ1\n"), fresh()]
    first = serving(folders[0])
    with Nginx(site(first.path, port), port):
        project = applied(Project().name_backend(port, "one"))
    first.kill()
    shutil.copytree(folders[0], folders[1], dirs_exist_ok=True)
    first, second = servers = [serving(folder) for folder in folders]
    with Nginx(site(second.path, port), port):
        (project.folder / "main.tf").write_text(RESOURCES.replace('"1"', '"2"'))
        project.do("apply", "-auto-approve")
    shows = command("tfstatectl show FOLDER NAME >FILE", FOLDER=folders[1], NAME="one", FILE="missing.json")
    shell(project, shows.replace("tfstatectl", str(FOLDER_PROGRAM)))
    with Nginx(site(first.path, port), port):
        shell(project, command("terraform state push FILE", FILE="missing.json"))
        looks_the_same(project)
    for server in servers:
        server.kill()


def check_an_older_state_comes_back():
    with served() as (server, proxy):
        project = applied(Project().name_backend(proxy.port, "one"))
        old = json.loads(server.ask("GET", "/state/one")[1])
        (project.folder / "main.tf").write_text(RESOURCES.replace('"1"', '"2"'))
        project.do("apply", "-auto-approve")
        newest = json.loads(server.ask("GET", "/state/one")[1])
        status, text, errors = run("restore", server.folder, "one", "--position", "2")
        expect((status, errors), (0, ""), errors)
        (project.folder / "back.json").write_text(text)
        shell(project, command("terraform state push back.json"))
        back = json.loads(server.ask("GET", "/state/one")[1])
        expect((back["serial"] > newest["serial"], back["resources"]), (True, old["resources"]))
        expect("0 to add, 2 to change" in project.do("plan"), True, "the plan leads forward again")


def check_each_command_of_terraform_was_run():
    expect(left_out(commands_of(*TERRAFORM)), [])


if __name__ == "__main__":
    missing = [name for name in ("nginx", "openssl", "curl", "terraform") if not shutil.which(name)]
    if missing:
        sys.exit(f"not installed: {', '.join(missing)}")
    make_secrets()
    sys.exit(run_checks(checks_in(globals())))
