"""Compares `tfstatectl diff` between states that Terraform wrote with what `terraform show -json`
prints of both: resources with `count` and `for_each`, in modules, data sources, and odd keys."""
import itertools
import json
import shutil
import sys

from checking import checks_in, expect, run_checks
from deploy_nginx import make_secrets, served
from deploy_terraform import Project
from past_program import told

# What each version of the configuration has: a number of instances, keys, and an input.
VERSIONS = [(2, ["plain", 'a "quote"'], "1"), (3, ["plain", "] [", "日本"], "1"), (3, ["] [", "日本"], "2"), (1, [], "2"), (2, ["plain", 'a "quote"'], "1")]
TEXT = """resource "terraform_data" "counted" {
  count = %d
  input = { number = count.index, same = true }
}
module "part" {
  source   = "./part"
  for_each = toset(%s)
  input    = "%s"
}
data "terraform_remote_state" "other" {
  backend = "local"
  config  = { path = "other.tfstate" }
}
"""
PART = """variable "input" {}
resource "terraform_data" "low" { input = var.input }
resource "terraform_data" "high" {
  for_each         = toset(["x", "y.z"])
  input            = [terraform_data.low.output, each.key]
  triggers_replace = var.input
}
"""
OTHER = {"version": 4, "terraform_version": "1.5.0", "serial": 1, "lineage": "other", "resources": []}


def values_in(module):
    """Returns the values of each instance of a module that `terraform show -json` prints, by its
    address, without those that are null."""
    found = {one["address"]: {name: value for name, value in one["values"].items() if value is not None} for one in module.get("resources", [])}
    for child in module.get("child_modules", []):
        found |= values_in(child)
    return found


def rows_between(old, new):
    """Returns the changes between two such states, in an order of their own."""
    changed = {address: sorted(name for name in old[address] | new[address] if old[address].get(name) != new[address].get(name))
               for address in old.keys() & new.keys()}
    rows = [("removed", address, []) for address in old.keys() - new.keys()] + [("added", address, []) for address in new.keys() - old.keys()]
    return sorted(rows + [("changed", address, names) for address, names in changed.items() if names])


def apply_each(project, folder):
    """Applies each version of the configuration. Returns, by the position of the last push of each,
    what Terraform shows of the state."""
    shown = {}
    for number, (count, keys, text) in enumerate(VERSIONS):
        (project.folder / "main.tf").write_text(TEXT % (count, json.dumps(keys), text))
        other = {**OTHER, "outputs": {"number": {"value": str(number), "type": "string"}}}
        (project.folder / "other.tfstate").write_text(json.dumps(other))
        if not shown:
            project.do("init")
        project.do("apply", "-auto-approve")
        (project.folder / "state.json").write_text(project.do("state", "pull"))
        state = json.loads(project.do("show", "-json", "state.json"))
        (last,) = told(folder, "history", "one", "--act", "push", "--last", 1)
        shown[last["position"]] = values_in(state["values"]["root_module"])
    return shown


def check_a_diff_agrees_with_what_terraform_shows_of_both_states():
    with served() as (server, proxy):
        project = Project("", part=PART).name_backend(proxy.port, "one")
        shown = apply_each(project, server.folder)
        expect(len(shown), len(VERSIONS), "each version pushes a state")
        for (old, before), (new, after) in itertools.permutations(shown.items(), 2):
            rows = sorted((row["change"], row["instance"], sorted(row["attributes"])) for row in told(server.folder, "diff", "one", old, new))
            expect(rows, rows_between(before, after), f"from {old} to {new}")
        changes = {change for old, new in itertools.permutations(shown.values(), 2) for change, _, _ in rows_between(old, new)}
        expect(changes, {"removed", "changed", "added"}, "each kind of change")


if __name__ == "__main__":
    missing = [name for name in ("nginx", "openssl", "terraform") if not shutil.which(name)]
    if missing:
        sys.exit(f"not installed: {', '.join(missing)}")
    make_secrets()
    sys.exit(run_checks(checks_in(globals())))
