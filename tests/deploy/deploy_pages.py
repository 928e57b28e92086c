"""Checks the picture of a state and of the answer to an impact query, with the example of
docs/PROTOCOL.md and with odd addresses. Checks that docs/PROTOCOL.md says what to do about each
refusal and docs/FAULTS.md about each fault, and that no block of deploy/'s pages has commands that
no test finds."""
import re
import shutil
import subprocess
import sys
import tempfile
from pathlib import Path

from checking import checks_in, expect, run_checks
from folder_program import STATUSES
from page_blocks import FENCED, IMPACT, PAGE, other_blocks
from picture import picture
from stdio_program import TOP, run

PROTOCOL, FAULTS = ((TOP / "docs" / name).read_text() for name in ("PROTOCOL.md", "FAULTS.md"))
DRAWN = """digraph impact {
  rankdir=LR;
  node [shape=box, style=filled, fillcolor=white, fontname="sans-serif"];
  "aws_vpc.main";
  "aws_subnet.app[\\"a\\"]" [fillcolor=orange];
  "aws_subnet.app[\\"b\\"]" [fillcolor=orange];
  "aws_iam_role.app";
  "module.web.aws_instance.app" [fillcolor=orange];
  "aws_s3_bucket.logs";
  "aws_vpc.main" -> "aws_subnet.app[\\"a\\"]";
  "aws_vpc.main" -> "aws_subnet.app[\\"b\\"]";
  "aws_iam_role.app" -> "module.web.aws_instance.app";
  "aws_subnet.app[\\"a\\"]" -> "module.web.aws_instance.app";
  "aws_subnet.app[\\"b\\"]" -> "module.web.aws_instance.app";
}
"""


def block(title):
    """Returns the text of the block of the page that comes after a line."""
    return PROTOCOL.split(title, 1)[1].split("```", 2)[1].split("\n", 1)[1]


def answered(text, query):
    """Returns the body of the program's answer to a query over a state."""
    body = text.encode()
    push = b"POST /state/a HTTP/1.1\r\nHost: h\r\nContent-Length: %d\r\n\r\n" % len(body) + body
    output = run(push + f"GET /impact/a/any?{query} HTTP/1.1\r\nHost: h\r\n\r\n".encode())[0]
    return output.rsplit(b"\r\n\r\n", 1)[1].decode()


def check_the_example_of_the_page():
    state, answer = map(block, ("What does a change of the network touch in this state?", "The answer to `any?of=aws_vpc.main`:"))
    expect(answered(state, "of=aws_vpc.main"), answer.strip(), "what the program answers")
    with tempfile.TemporaryDirectory(prefix="tfstated-") as folder:
        paths = [Path(folder) / "state.json", Path(folder) / "answer.json"]
        for path, text in zip(paths, (state, answer)):
            path.write_text(text)
        words = [sys.executable, TOP / "tools" / "picture.py", *paths]
        made = subprocess.run(words, capture_output=True, check=True).stdout.decode()
    expect(made, DRAWN)


def check_each_refusal_and_each_fault_has_a_remedy():
    section = PROTOCOL.split("\n## Refusals\n")[1].split("\n## ")[0]
    refusals = re.findall(r"^\| [0-9]+ \| (\w+) \| [0-9]{3} \| [^|]+ \| [^| ][^|]* \|$", section, re.M)
    expect((len(set(refusals)), len(refusals)), (29, 29), "refusals of docs/PROTOCOL.md with what to do")
    rows = re.findall(r"^\| `(?:rebase|serve)` \| (Cannot.*) \|$", PROTOCOL, re.M)
    faults = set(re.findall(r"[A-Z]\w+", " ".join(rows)))
    expect(len(faults) > 10, True, faults)
    rows = re.findall(r"^\| [0-9]{2} \| ([^|]+) \| [^| ][^|]* \|$", FAULTS, re.M)
    listed = set(re.findall(r"\w+", " ".join(rows)))
    expect(set(STATUSES) - {"Arguments"} - listed, set(), "faults of tfstatectl without a row")
    others = PROTOCOL.split("[FAULTS.md](FAULTS.md) says what to do:")[1].split("\n\n")[0]
    expect(faults - listed - set(re.findall(r"\w+", others)), set(), "faults without a remedy")


def check_no_heading_is_twice():
    titles = re.findall(r"^#+ (.*)$", FENCED.sub("", PAGE), re.M)
    expect(sorted(title for title in titles if titles.count(title) > 1), [])


def check_no_block_has_commands_that_nothing_finds():
    for page in (PAGE, IMPACT):
        expect(other_blocks(page), [])


def check_odd_addresses_are_drawn():
    instances = [{"index_key": 'q"\n\\'}, {"index_key": 1}]
    resource = {"mode": "data", "type": "t", "name": "a", "module": 'module.m["x.\\"y"]', "instances": instances}
    instance = {"dependencies": ["module.m.data.t.a", "t.none"], "deposed": "d"}
    other = {"mode": "managed", "type": "t", "name": "b", "instances": [instance]}
    lines = list(picture({"resources": [resource, other]}, {"instances": ["t.b (deposed d)"]}))
    expect(sum("->" in line for line in lines), 2, lines)
    expect('  "t.b (deposed d)" [fillcolor=orange];' in lines, True, lines)
    if shutil.which("dot"):
        subprocess.run(["dot", "-Tsvg"], input="\n".join(lines).encode(), capture_output=True, check=True)


def check_an_answer_of_another_state_is_refused():
    try:
        list(picture({}, {"instances": ["t.a"]}))
    except ValueError as fault:
        expect("t.a" in str(fault), True)
        return
    raise AssertionError("it is drawn")


if __name__ == "__main__":
    sys.exit(run_checks(checks_in(globals())))
