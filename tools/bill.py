"""Makes the bill of materials of a release, in CycloneDX 1.5: each crate of crates.txt, the kit's
libraries by deploy/libraries.txt, and the C library. Crates that no program of the package is built
from, and libraries that only those use, have the scope `excluded`. The same programs, lists and
time make the same text."""
import datetime
import hashlib
import json
import uuid

from repository import TOP, crate_lines

PROGRAMS = ("tfstated", "tfstatectl")
LICENCE = "Apache-2.0"
SYSTEM = "glibc"
SCHEMA = "http://cyclonedx.org/schema/bom-1.5.schema.json"


def crates():
    """Returns the crates and libraries that each crate uses, by its name."""
    return {name: line.partition(":")[2].split() for name, line in crate_lines().items()}


def libraries():
    """Returns licence, origin and used libraries of each library of the kit; None if unknown."""
    found = {}
    for line in (TOP / "deploy" / "libraries.txt").read_text().splitlines():
        if line.strip() and not line.startswith("#"):
            name, licence, origin, uses = [part.strip() for part in line.split("|")]
            known = [None if part == "-" else part for part in (licence, origin)]
            found[name] = (*known, uses.replace("-", "").split())
    return found


def uses_of(name, own, kit):
    """Returns what a crate or library is built from. Each crate uses the library `std`."""
    if name in own:
        return [*own[name], "std"]
    return kit[name][2] or [SYSTEM]


def reached(names, own, kit):
    """Returns the names and all that they are built from."""
    found, left = set(), list(names)
    while left:
        name = left.pop()
        if name not in found:
            found.add(name)
            left += uses_of(name, own, kit) if name != SYSTEM else []
    return found


def kit_line():
    """Returns the line of the kit, as the file VERSION has it."""
    return (TOP / "VERSION").read_text().splitlines()[1]


def reference(name, own, version):
    """Returns what identifies a component within the bill."""
    kit = kit_line().split()[0]
    return name if name == SYSTEM else f"{name}@{version if name in own else kit}"


def crate_component(name, version, programs):
    """Returns the component of a crate of the repository."""
    is_program = name in programs
    found = {"type": "application" if is_program else "library", "name": name, "version": version}
    found["licenses"] = [{"expression": LICENCE}]
    if is_program:
        content = hashlib.sha256(programs[name]).hexdigest()
        found["hashes"] = [{"alg": "SHA-256", "content": content}]
    return found


def library_component(name, licence, origin):
    """Returns the component of a library of the kit, with the Rust crate that it is after."""
    found = {"type": "library", "name": name, "version": kit_line().split()[0]}
    if licence:
        found["licenses"] = [{"expression": licence}]
    if origin:
        crate, number = origin.split()
        ancestor = {"type": "library", "name": crate, "version": number}
        ancestor["purl"] = f"pkg:cargo/{crate}@{number}"
        found["pedigree"] = {"ancestors": [ancestor]}
    return found


def components(version, programs, libc):
    """Returns all components in the order of their names, without references and scopes."""
    own, kit = crates(), libraries()
    found = [crate_component(name, version, programs) for name in own]
    found += [library_component(name, *known[:2]) for name, known in kit.items()]
    about = f"The C library of the system: {libc} or later"
    found.append({"type": "library", "name": SYSTEM, "description": about})
    return sorted(found, key=lambda component: component["name"])


def dependencies(version, own, kit):
    """Returns what each component is built from, the package first."""

    def listed(name, uses):
        refs = sorted({reference(use, own, version) for use in uses})
        return {"ref": name, "dependsOn": refs}

    top = listed(f"package@{version}", PROGRAMS)
    names = sorted([*own, *kit])
    return [top, *(listed(reference(n, own, version), uses_of(n, own, kit)) for n in names)]


def bill(version, programs, libc, when):
    """Returns the text of the bill of a version, for the bytes of each program and a time."""
    own, kit = crates(), libraries()
    inside = reached(PROGRAMS, own, kit)
    parts = components(version, programs, libc)
    for part in parts:
        part["bom-ref"] = reference(part["name"], own, version)
        part["scope"] = "required" if part["name"] in inside else "excluded"
    package = {"type": "application", "bom-ref": f"package@{version}", "name": "tfstated"}
    package |= {"version": version, "licenses": [{"expression": LICENCE}]}
    package["properties"] = [{"name": "tfstated:kit", "value": kit_line()}]
    moment = datetime.datetime.fromtimestamp(when, datetime.timezone.utc)
    found = {"$schema": SCHEMA, "bomFormat": "CycloneDX", "specVersion": "1.5", "version": 1}
    found["metadata"] = {"timestamp": f"{moment:%Y-%m-%dT%H:%M:%SZ}", "component": package}
    found |= {"components": parts, "dependencies": dependencies(version, own, kit)}
    # The number follows from the content, so the same content has the same number.
    number = uuid.uuid5(uuid.NAMESPACE_URL, json.dumps(found, sort_keys=True))
    found["serialNumber"] = f"urn:uuid:{number}"
    return json.dumps(found, indent=2, sort_keys=True) + "\n"
