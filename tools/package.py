"""Makes what a machine without the kit installs: from the proved programs
dist/tfstated_VERSION_amd64.deb, a .tar.gz with the same files, and their SHA-256 sums. TFSTATED and
TFSTATECTL may name other builds. The same programs and sources make the same bytes."""
import gzip
import hashlib
import io
import os
import re
import shutil
import subprocess
import sys
import tarfile
import tempfile
from pathlib import Path

from built import program
from completion import completions
from manual import manuals
from repository import TOP

DIST, DEPLOY = TOP / "dist", TOP / "deploy"
VERSION = (TOP / "VERSION").read_text().splitlines()[0]
NAME = f"tfstated_{VERSION}_amd64"
UNITS = "usr/lib/systemd/system"
PAGES = [*(f"deploy/{name}.md" for name in ("README", "INSTALL", "OPERATE", "STANDBY", "RECOVER", "REFERENCE", "IMPACT", "WEB")), "docs/picture.svg", "CHANGELOG.md",
         *(f"docs/{name}.md" for name in ("FOLDER", "FAULTS", "SERVING", "COPIES", "VERSIONS", "UPGRADING", "PERFORMANCE", "PROTOCOL", "JOURNAL", "MODEL"))]
TEXTS = {
    "usr/share/doc/tfstated": [*PAGES, "LICENSE"],
    "usr/share/tfstated/web": [f"deploy/web/{path.name}" for path in sorted((DEPLOY / "web").iterdir())],
    "usr/share/tfstated": ["deploy/nginx.conf", "deploy/nginx-access.conf", "deploy/alerts.yml", "deploy/dashboard.json", "deploy/impact-gitlab.yml", "deploy/impact-github.yml"],
}
CONTROL = """Package: tfstated
Version: {version}
Architecture: amd64
Maintainer: {maintainer}
Installed-Size: {size}
Depends: libc6 (>= {libc}), passwd
Suggests: nginx, openssl, curl, jq, rsync
Section: admin
Priority: optional
Description: server for Terraform's http state backend
 It keeps the states of many workspaces in a journal, gives each workspace one
 lock, refuses states that are older than the kept one, and tells which resource
 instances a change reaches.
"""


def of_tool(*words):
    """Returns what a tool prints. The tool must succeed."""
    return subprocess.run([str(word) for word in words], stdout=subprocess.PIPE, check=True).stdout.decode()


def moment():
    """Returns the time that all files get, in seconds: the time of the last commit, if there is
    one."""
    told = subprocess.run(["git", "log", "-1", "--format=%ct"], cwd=TOP, capture_output=True, check=False).stdout.strip()
    return int(os.environ.get("SOURCE_DATE_EPOCH") or told or (TOP / "VERSION").stat().st_mtime)


def libc_of(path):
    """Returns the least version of the C library that a program needs. Ends the script if it needs
    another library."""
    needed = re.findall(r"\(NEEDED\).*\[(.*)\]", of_tool("readelf", "--dynamic", path))
    if set(needed) - {"libc.so.6", "libm.so.6", "libpthread.so.0"}:
        sys.exit(f"package: {path} needs more than the C library: {' '.join(needed)}")
    return newest(re.findall(r"GLIBC_([0-9.]+)", of_tool("readelf", "--version-info", path)))


def newest(versions):
    """Returns the newest of some versions."""
    return max(versions, key=lambda text: [int(part) for part in text.split(".")])


def check_version(path):
    """Ends the script if the program reports another version than the file VERSION."""
    told = of_tool(path, "--version").split()
    if told[:2] != ["tfstatectl", VERSION]:
        sys.exit(f"package: VERSION says {VERSION}, and the program {' '.join(told)}")


def put(root, target, content, mode=0o644):
    path = root / target
    path.parent.mkdir(parents=True, exist_ok=True)
    path.write_bytes(content)
    path.chmod(mode)


def script_text(path):
    """Returns a script of the package with the version filled in."""
    return path.read_text().replace("@VERSION@", VERSION).encode()


def in_one_folder(page):
    """Returns a page without its pictures, whose links lead to pages of the same folder."""
    page = re.sub(rb"!\[[^]]*\]\([^)]*\.png\)\n\n", b"", page)
    return re.sub(rb"\]\((?:\.\./)?(?:docs/|deploy/|(?=CHANGELOG))", b"](", page)


def fill(root, programs, when):
    """Puts all files below a root."""
    for name, path in programs.items():
        put(root, f"usr/bin/{name}", Path(path).read_bytes(), 0o755)
    for folder, texts in TEXTS.items():
        for text in texts:
            put(root, f"{folder}/{Path(text).name}", in_one_folder((TOP / text).read_bytes()))
    (root / "usr/share/doc/tfstated/LICENSE").rename(root / "usr/share/doc/tfstated/copyright")
    put(root, "usr/sbin/tfstated-user", (DEPLOY / "tfstated-user").read_bytes(), 0o755)
    put(root, "usr/share/tfstated/postinst", script_text(DEPLOY / "package" / "postinst"), 0o755)
    for unit in [*DEPLOY.glob("*.service"), *DEPLOY.glob("*.timer")]:
        put(root, f"{UNITS}/{unit.name}", unit.read_bytes())
    for name, text in manuals(programs["tfstatectl"], VERSION, when).items():
        section = name.rpartition(".")[2]
        put(root, f"usr/share/man/man{section}/{name}.gz", gzip.compress(text.encode(), mtime=0))
    for path, text in completions(programs["tfstatectl"]).items():
        put(root, path, text.encode())
    sums = [f"{hashlib.sha256(path.read_bytes()).hexdigest()}  {path.relative_to(root)}\n" for path in files_of(root)]
    put(root, "usr/share/doc/tfstated/SHA256SUMS", "".join(sums).encode())


def files_of(root):
    return [path for path in sorted(root.rglob("*")) if path.is_file()]


def make_tar(root, path, when):
    """Makes the archive of all files below a root, whose folders belong to root."""
    packed = io.BytesIO()
    with tarfile.open(fileobj=packed, mode="w", format=tarfile.GNU_FORMAT) as archive:
        for entry in sorted(root.rglob("*")):
            info = archive.gettarinfo(entry, f"./{entry.relative_to(root)}")
            info.uid, info.gid, info.uname, info.gname, info.mtime = 0, 0, "root", "root", when
            archive.addfile(info, io.BytesIO(entry.read_bytes()) if entry.is_file() else None)
    path.write_bytes(gzip.compress(packed.getvalue(), mtime=0))


def make_deb(root, path, libc, when):
    """Makes the Debian package of all files below a root."""
    size = sum(file.stat().st_size for file in files_of(root)) // 1024 + 1
    maintainer = os.environ.get("MAINTAINER", "the tfstated package <root@localhost>")
    told = CONTROL.format(version=VERSION, maintainer=maintainer, size=size, libc=libc)
    put(root, "DEBIAN/control", told.encode())
    for script in sorted((DEPLOY / "package").iterdir()):
        put(root, f"DEBIAN/{script.name}", script_text(script), 0o755)
    words = ["dpkg-deb", "--root-owner-group", "-Zxz", "--build", root, path]
    subprocess.run([str(word) for word in words], env={**os.environ, "SOURCE_DATE_EPOCH": str(when)}, stdout=subprocess.DEVNULL, check=True)


def main():
    missing = [name for name in ("dpkg-deb", "readelf") if not shutil.which(name)]
    if missing:
        sys.exit(f"package: {' and '.join(missing)} isn't installed")
    programs = {"tfstated": program("tfstated"), "tfstatectl": program("tfstatectl")}
    check_version(programs["tfstatectl"])
    libc = newest(map(libc_of, programs.values()))
    os.umask(0o022)
    DIST.mkdir(exist_ok=True)
    when = moment()
    made = [DIST / f"{NAME}.deb", DIST / f"{NAME}.tar.gz"]
    with tempfile.TemporaryDirectory(prefix="tfstated-") as folder:
        root = Path(folder) / "root"
        root.mkdir()
        fill(root, programs, when)
        make_tar(root, made[1], when)
        make_deb(root, made[0], libc, when)
    sums = "".join(f"{hashlib.sha256(path.read_bytes()).hexdigest()}  {path.name}\n" for path in made)
    (DIST / f"{NAME}.sha256").write_text(sums)
    print(sums, end="")
    return 0


if __name__ == "__main__":
    sys.exit(main())
