"""States that tests and benchmarks read, the same in each run."""
import json
import random
import string

HEAD = {"version": 4, "terraform_version": "1.9.0", "serial": 7, "lineage": "3f2a9c0e-8d1b-4a57-9a35-2f6e1d7b5c11"}
OUTPUTS = {"address": {"value": "10.0.0.1", "type": "string"}}
# The number of layers of a layered state, and the numbers of resources of the states with many
# instances of each.
LAYERS, DENSE, GROUPS = 32, 64, 8
LETTERS = string.ascii_letters + string.digits + "-_"


def text_of(resources, **head):
    """Returns the text of a state with these resources, in one line."""
    text = {**HEAD, "outputs": OUTPUTS, "resources": resources, "check_results": None, **head}
    return json.dumps(text, separators=(",", ":")).encode()


def resource(name, instances, **members):
    return {"mode": "managed", "type": "t", "name": name, "instances": instances, **members}


def written(count, more):
    """Returns a state as Terraform writes it: resources of one instance, each with `more`
    attributes in addition to the common ones."""
    return text_of([written_resource(number, more) for number in range(count)])


def written_resource(number, more):
    attributes = {**{f"attribute_{k}": f"value {k} of {number}" for k in range(more)}, "id": f"i-0{number}", "ami": "ami-0c55b159cbfafe1f0",
                  "tags": {"Name": "server", "Team": "platform"}, "ports": [22, 80, 443], "enabled": True}
    instance = {"index_key": f"key-{number}" if number % 2 else number, "schema_version": 1, "attributes": attributes,
                "sensitive_attributes": [[{"type": "get_attr", "value": "password"}]],
                "dependencies": ["module.network.aws_subnet.main", f"module.network.aws_instance.server_{number // 2}"]}
    return {"module": f'module.network["zone-{number % 5}"]', "mode": "data" if number % 8 == 7 else "managed", "type": "aws_instance",
            "name": f"server_{number}", "provider": 'provider["example.org/cloud"]', "instances": [instance]}


def letters(number):
    """Returns one of 4,096 names of two letters."""
    return LETTERS[number // 64 % 64] + LETTERS[number % 64]


def dependent(count, each):
    """Returns a state with this many resources of one instance, each with `each` dependencies."""
    return text_of([resource(letters(i), [{"dependencies": [f"t.{letters(31 * i + 7 * k)}" for k in range(each)]}]) for i in range(count)])


def deep(count, path, instances):
    """Returns a state with this many resources in a module whose path has `path` bytes, each with
    this many instances."""
    return text_of([resource(f"n{i}", [{"index_key": key} for key in range(instances)], module="m" * path) for i in range(count)])


def chain(count, **head):
    """Returns a state with this many instances, each depending on the previous one."""
    return text_of([resource(f"r{i}", [{"dependencies": [f"t.r{i - 1}"] if i else []}]) for i in range(count)], **head)


def layered(count):
    """Returns a state in layers, whose instances each depend on four of the previous layer."""
    chance, width = random.Random(1), count // LAYERS
    return text_of([resource(f"r{i}", [{"dependencies": [f"t.r{(i // width - 1) * width + chance.randrange(width)}" for _ in range(4 * (i >= width))]}])
                    for i in range(count)])


def keyed(count, resources, dependencies_of):
    """Returns a state of resources with many instances. The number of a resource gives the
    dependencies of its instances."""
    return text_of([resource(f"r{i}", [{"index_key": key, "dependencies": dependencies_of(i)} for key in range(count // resources)])
                    for i in range(resources)])


def dense(count):
    """Returns a state in which each instance depends on half of the resources."""
    chance = random.Random(1)
    return keyed(count, DENSE, lambda i: [f"t.r{k}" for k in range(DENSE) if chance.random() < 0.5])


def groups(count):
    """Returns a state in which each instance depends on all instances of the previous resource."""
    return keyed(count, GROUPS, lambda i: [f"t.r{i - 1}"] if i else [])


def servers(serial, count):
    """Returns a state with a serial as Terraform writes it, with this many servers in a module."""
    return text_of([server(number) for number in range(count)], serial=serial)


def server(number):
    attributes = {"id": f"i-{number:08x}", "image": "ami-0c55b159cbfafe1f0", "address": f"https://example.org/servers/{number:08x}",
                  "ports": [22, 443], "tags": {"Name": "server"}, "enabled": True}
    instance = {"index_key": number, "schema_version": 1, "attributes": attributes, "sensitive_attributes": [],
                "dependencies": [f"module.network.acme_server.server_{number // 2}"] if number else []}
    return {"module": 'module.network["main"]', "mode": "managed", "type": "acme_server", "name": f"server_{number}",
            "provider": 'provider["example.org/acme/acme"]', "instances": [instance]}
