"""Makes a release and checks it: its sums, its bill of materials, and that a second build in
another folder, with other settings, has the same bytes."""
import hashlib
import json
import os
import re
import shutil
import subprocess
import sys
import tempfile
from pathlib import Path

import package
import release
from bill import SYSTEM, crates, libraries, reached, uses_of
from built import program
from checking import SECONDS, checks_in, expect, run_checks
from repository import TOP

MADE = [*release.files(), release.SUMS]
# What CycloneDX 1.5 requires of objects, and what it also allows of what the bill uses.
SHAPES = {
    "bill": (
        "bomFormat specVersion",
        "$schema serialNumber version metadata components dependencies",
    ),
    "metadata": ("", "timestamp component"),
    "component": (
        "type name",
        "bom-ref version description scope hashes licenses pedigree properties purl",
    ),
    "licence": ("expression", ""),
    "hash": ("alg content", ""),
    "property": ("", "name value"),
    "dependency": ("ref", "dependsOn"),
    "pedigree": ("", "ancestors"),
}
IDENTIFIERS = {"Apache-2.0", "BSD-3-Clause", "BSL-1.0", "MIT", "Unicode-3.0", "Unlicense"}


def expect_shape(found, shape):
    """Checks that an object has the members of its kind and no others."""
    needed, allowed = (set(words.split()) for words in SHAPES[shape])
    expect(needed <= set(found) <= needed | allowed, True, f"{shape}: {sorted(found)}")


def expect_component(part):
    """Checks a component by the rules of CycloneDX 1.5."""
    expect_shape(part, "component")
    expect(part["type"] in ("application", "library"), True, part)
    expect(part.get("scope", "required") in ("required", "optional", "excluded"), True, part)
    for licence in part.get("licenses", []):
        expect_shape(licence, "licence")
        words = set(re.findall(r"[\w.-]+", licence["expression"])) - {"OR", "AND"}
        expect(words - IDENTIFIERS, set(), part["name"])
    for content in part.get("hashes", []):
        expect_shape(content, "hash")
        expect((content["alg"], len(content["content"])), ("SHA-256", 64))
    if "pedigree" in part:
        expect_shape(part["pedigree"], "pedigree")
        for ancestor in part["pedigree"]["ancestors"]:
            expect_component(ancestor)
            expect(ancestor["purl"], f"pkg:cargo/{ancestor['name']}@{ancestor['version']}")


def read_bill():
    return json.loads(release.BILL.read_text())


def check_the_sums_are_those_of_the_files():
    lines = [line.split("  ") for line in release.SUMS.read_text().splitlines()]
    expect([name for _, name in lines], [path.name for path in release.files()])
    for digest, name in lines:
        expect(hashlib.sha256((package.DIST / name).read_bytes()).hexdigest(), digest, name)


def check_the_bill_has_the_form_of_cyclonedx():
    found = read_bill()
    expect_shape(found, "bill")
    expect_shape(found["metadata"], "metadata")
    expect((found["bomFormat"], found["specVersion"], found["version"]), ("CycloneDX", "1.5", 1))
    number = r"urn:uuid:[0-9a-f]{8}-[0-9a-f]{4}-[0-9a-f]{4}-[0-9a-f]{4}-[0-9a-f]{12}"
    expect(re.fullmatch(number, found["serialNumber"]) is not None, True)
    moment = r"\d{4}-\d\d-\d\dT\d\d:\d\d:\d\dZ"
    expect(re.fullmatch(moment, found["metadata"]["timestamp"]) is not None, True)
    top = found["metadata"]["component"]
    for value in top.get("properties", []):
        expect_shape(value, "property")
    for part in [top, *found["components"]]:
        expect_component(part)
    refs = [part["bom-ref"] for part in [top, *found["components"]]]
    expect(len(set(refs)), len(refs), "references")
    for dependency in found["dependencies"]:
        expect_shape(dependency, "dependency")
        expect({dependency["ref"], *dependency["dependsOn"]} - set(refs), set(), dependency["ref"])
    listed = [dependency["ref"] for dependency in found["dependencies"]]
    expect(len(set(listed)), len(listed), "dependencies")


def check_the_bill_has_each_crate_and_each_library():
    found = {part["name"]: part for part in read_bill()["components"]}
    expect(set(found), {*crates(), *libraries(), SYSTEM})
    for name in crates():
        expect((found[name]["version"], len(found[name]["licenses"])), (package.VERSION, 1), name)
    used = {use for uses in crates().values() for use in uses} - set(crates())
    expect(
        used - set(libraries()), set(), "libraries of crates.txt that deploy/libraries.txt lacks"
    )
    excluded = {name for name, part in found.items() if part["scope"] == "excluded"}
    needed = reached(["tfstated", "tfstatectl"], crates(), libraries())
    expect(excluded, {*crates(), *libraries()} - set(needed))
    expect({"tfs_tests", "tfs_bench", "tfs_probe", "anyhow"} <= excluded, True, excluded)
    for name in ("tfstated", "tfstatectl"):
        content = hashlib.sha256(Path(program(name)).read_bytes()).hexdigest()
        expect(found[name]["hashes"], [{"alg": "SHA-256", "content": content}])


def check_a_library_that_is_not_listed_is_found():
    """The bill isn't made if a crate uses a library that the list lacks."""
    try:
        reached(["a"], {"a": ["unlisted"]}, libraries())
    except KeyError:
        return
    raise AssertionError("it is left out")


def check_the_list_of_libraries_is_the_kits():
    """Versions, licences and used libraries are as the kit's files have them."""
    if not shutil.which("rt"):
        print("rt isn't there: deploy/libraries.txt isn't compared with the kit")
        return
    told = subprocess.run(["rt", "doc"], stdout=subprocess.PIPE, text=True, check=True).stdout
    kit = Path(told.strip()).parent
    for name, (licence, origin, uses) in libraries().items():
        listed = re.findall(r"^dep (\w+)$", (kit / f"rlibs/{name}.rlib/format").read_text(), re.M)
        expect(uses, listed, name)
        folder = kit / "rattle" / name
        texts = [path.name for path in folder.glob("*LICENSE*")]
        expect(bool(texts), licence is not None, f"{name}: {texts}")
        if origin:
            crate, version = origin.split()
            about = (folder / "README.md").read_text()
            expect(crate in about and version in about, True, f"{name} is after {origin}")


def check_each_part_of_a_bill_is_reached():
    own, kit = crates(), libraries()
    expect(uses_of("core", own, kit), [SYSTEM])
    expect({"std", "core", "clap", SYSTEM} <= reached(["tfstatectl"], own, kit), True)


def copied(folder):
    """Returns a copy of the files of the repository, without its history and without made files."""
    left_out = shutil.ignore_patterns(".git", "out", "dist", "journal", "__pycache__")
    shutil.copytree(TOP, folder, ignore=left_out)
    return folder


def one_processor():
    os.umask(0o077)
    os.sched_setaffinity(0, {min(os.sched_getaffinity(0))})


def built_again(folder, **settings):
    """Builds a release in a copy of the repository, and returns the bytes of its files by name."""
    programs = {name.upper(): program(name) for name in ("tfstated", "tfstatectl")}
    given = {
        "PATH": os.environ["PATH"],
        "SOURCE_DATE_EPOCH": str(package.moment()),
        **programs,
        **settings,
    }
    how = {"cwd": folder, "env": given, "stdout": subprocess.DEVNULL, "preexec_fn": one_processor}
    subprocess.run([sys.executable, "tools/release.py"], timeout=2 * SECONDS, check=True, **how)
    return {path.name: (folder / "dist" / path.name).read_bytes() for path in MADE}


def check_a_second_build_has_the_same_bytes():
    """In another folder, another time zone and language, by another umask and on one processor."""
    first = {path.name: path.read_bytes() for path in MADE}
    with tempfile.TemporaryDirectory(prefix="tfstated-") as room:
        folder = copied(Path(room) / "other")
        second = built_again(folder, TZ="Pacific/Auckland", LC_ALL="C", HOME=room, TMPDIR=room)
        other = built_again(folder, SOURCE_DATE_EPOCH="86400")
        for name, content in first.items():
            expect(
                hashlib.sha256(second[name]).hexdigest(), hashlib.sha256(content).hexdigest(), name
            )
            expect(other[name] != content, True, f"{name} has the time")
        texts = [content for name, content in second.items() if not name.endswith((".deb", ".gz"))]
        expect([path for path in (str(TOP), room) if path.encode() in b"".join(texts)], [], "paths")


def check_no_file_of_the_package_names_the_folder_of_its_build():
    with tempfile.TemporaryDirectory(prefix="tfstated-") as room:
        made = package.DIST / f"{package.NAME}.deb"
        subprocess.run(["dpkg-deb", "--raw-extract", made, f"{room}/root"], check=True)
        for path in package.files_of(Path(room) / "root"):
            expect(str(TOP).encode() in path.read_bytes(), False, path)


if __name__ == "__main__":
    missing = [name for name in ("dpkg-deb", "readelf") if not shutil.which(name)]
    if missing:
        sys.exit(f"not installed: {', '.join(missing)}")
    release.main()
    sys.exit(run_checks(checks_in(globals())))
