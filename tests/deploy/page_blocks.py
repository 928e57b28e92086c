"""Gets the commands of deploy/'s pages, which tests run as they are written there: blocks of the
languages `bash` and `sh`, and the commands in sentences and tables. Records what a test takes to
run, so that the test can report at its end what it left out.

    python3 tests/deploy/page_blocks.py    lists them, each with the tests that run it"""
import re

from checking import expect
from repository import TOP

PAGES = ("README", "INSTALL", "OPERATE", "STANDBY", "RECOVER", "REFERENCE")
PAGE = "\n".join((TOP / "deploy" / f"{name}.md").read_text() for name in PAGES)
IMPACT = (TOP / "deploy" / "IMPACT.md").read_text()
# The headings whose blocks set a server up, in order, and those whose blocks watch it.
INSTALL = ("Install the package", "Create the folder of journals", "Set the memory limits", "Add users", "Start the server and nginx")
MONITOR = ("Monitor the server", "Export metrics to Prometheus", "Compact the journal now")
FENCED = re.compile(r"^```(\w*)\n(.*?)^```$", re.M | re.S)
# Text in backquotes that begins like a command and isn't one: an answer, and lines of nginx's
# configuration.
NO_COMMANDS = {"it answers", "listen 127.0.0.1:8081", "listen 443 ssl"}
# The program whose commands in sentences tests/deploy/deploy_commands.py runs, and those whose
# commands tests/deploy/try_package.py runs under a real systemd.
TERRAFORM, SYSTEMD = ("terraform",), ("systemctl", "journalctl", "/usr/share/tfstated/postinst")
TAKEN = set()


def sections():
    """Returns the text under each heading of the pages, up to the next heading."""
    parts = re.split(r"^#+ (.*)$", FENCED.sub(lambda place: place[0].replace("\n#", "\n\0#"), PAGE), flags=re.M)
    return {title: text.replace("\0", "") for title, text in zip(parts[1::2], parts[2::2])}


def blocks_in(text, *languages):
    """Returns the blocks of a text, in order."""
    return [block for language, block in FENCED.findall(text) if language in (languages or ("bash", "sh"))]


def other_blocks(page):
    """Returns blocks that could have commands which nothing finds: blocks of other languages, and
    indented ones."""
    others = [block for language, block in FENCED.findall(page) if language not in ("bash", "sh", "hcl", "json", "nginx")]
    return others + re.findall(r"^ {4}.*$", FENCED.sub("", page), re.M)


def places():
    """Returns the place of each block of the pages: its heading and its number there."""
    return [(title, number) for title, text in sections().items() for number in range(len(blocks_in(text)))]


def take(title, number):
    """Returns a block of the pages, for a test that runs it."""
    TAKEN.add((title, number))
    return blocks_in(sections()[title])[number]


def take_all(title):
    """Returns all blocks under a heading, for a test that runs them."""
    return [take(*place) for place in places() if place[0] == title]


def configuration():
    """Returns the block of Terraform's language that names the backend."""
    return blocks_in(PAGE, "hcl")[0]


def commands_in(page):
    """Returns the commands in sentences and tables: text in backquotes of more than one word that
    begins with a program's name or path."""
    texts = {" ".join(text.split()) for text in re.findall(r"`([^`]+)`", FENCED.sub("", page))}
    return {text for text in texts - NO_COMMANDS if re.match(r"(?:\w+=\S* )*[a-z./~][\w./-]* ", text)}


def commands_of(*programs):
    """Returns the page's commands that run one of these programs."""
    return {text for text in commands_in(PAGE) if text.split()[0] in programs}


def command(text, page=PAGE, **values):
    """Returns a command of a sentence or table, for a test that runs it, with values instead of its
    words in capitals."""
    expect(text in commands_in(page), True, f"the page has the command {text}")
    TAKEN.add(text)
    for name, value in values.items():
        expect(len(re.findall(rf"\b{name}\b", text)), 1, f"{name} in {text}")
        text = re.sub(rf"\b{name}\b", lambda place: str(value), text)
    return text


def left_out(wanted):
    """Returns the places and commands that nothing has taken."""
    return sorted(map(str, set(wanted) - TAKEN))


def main():
    for title, number in places():
        print(f"block {number + 1} of '{title}': deploy_page.py, try_package.py")
    for text in sorted(commands_in(PAGE)):
        run = "deploy_commands.py" if text in commands_of(*TERRAFORM) else "deploy_page.py"
        print(f"{text}: {run}{', try_package.py' if text in commands_of(*SYSTEMD) else ''}")
    for block in blocks_in(IMPACT):
        print(f"{block}of IMPACT.md: deploy_impact.py")


if __name__ == "__main__":
    main()
