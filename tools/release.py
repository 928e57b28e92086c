"""Builds the contents of a release, in dist/: the Debian package and the .tar.gz of
tools/package.py, a bill of materials, and SHA256SUMS of the three. The same programs and sources
make the same bytes: each time in them is SOURCE_DATE_EPOCH, or the time of the last commit."""
import hashlib
import sys
from pathlib import Path

import package
from bill import PROGRAMS, bill
from built import program

BILL = package.DIST / f"{package.NAME}.cdx.json"
SUMS = package.DIST / "SHA256SUMS"


def files():
    """Returns the files of a release, without their sums."""
    return [package.DIST / f"{package.NAME}.{ending}" for ending in ("deb", "tar.gz")] + [BILL]


def write_bill():
    """Writes the bill of materials of the programs that the package has."""
    paths = {name: program(name) for name in PROGRAMS}
    contents = {name: Path(path).read_bytes() for name, path in paths.items()}
    libc = package.newest(map(package.libc_of, paths.values()))
    BILL.write_text(bill(package.VERSION, contents, libc, package.moment()))


def main():
    package.main()
    write_bill()
    lines = [f"{hashlib.sha256(path.read_bytes()).hexdigest()}  {path.name}\n" for path in files()]
    SUMS.write_text("".join(lines))
    print(f"{lines[-1]}these and their sums are in {package.DIST}")
    return 0


if __name__ == "__main__":
    sys.exit(main())
