"""Makes the manual pages of both programs and of each command of `tfstatectl`, in mdoc. Commands
and options are those of `tfstatectl --help`, files those of docs/FOLDER.md, statuses those of
docs/FAULTS.md, and what `tfstated` does is from docs/PROTOCOL.md and docs/JOURNAL.md. So no page
has a text of its own that could differ from these."""
import datetime
import re
import subprocess

from repository import TOP

FOLDER, FAULTS, PROTOCOL, JOURNAL = ((TOP / "docs" / f"{name}.md").read_text() for name in ("FOLDER", "FAULTS", "PROTOCOL", "JOURNAL"))
BETWEEN_SENTENCES = re.compile(r"(?<=[.;]) +")


def told(program, *words):
    """Returns what a program prints. The program must succeed."""
    return subprocess.run([program, *words], stdin=subprocess.DEVNULL, stdout=subprocess.PIPE, check=True).stdout.decode()


def plain(text):
    """Returns a text of a page without marks, as lines of mdoc, one for each sentence."""
    text = re.sub(r"\[([^]]*)\]\([^)]*\)", r"\1", text).replace("`", "").replace("\\|", "|").replace("**", "").strip()
    lines = BETWEEN_SENTENCES.split(text.replace("\\", "\\e"))
    return "\n".join(f"\\&{line}" if line[:1] in ".'" else line for line in lines)


def sections(text):
    """Returns the parts of a help text: each paragraph by its title, and the others in order with
    an empty one."""
    found = {"": []}
    for part in text.strip("\n").split("\n\n"):
        title, _, rest = part.partition("\n")
        if re.fullmatch(r"[A-Z][a-z]+:", title):
            found[title[:-1]] = items(rest)
        else:
            found[""].append(part)
    return found


def items(text):
    """Returns the terms of a list of a help text, each with its meaning. A line that is indented
    further continues the previous one."""
    found = []
    for line in text.splitlines():
        term, _, meaning = line.strip().partition("  ")
        if re.match(r" {2,6}\S", line):
            found.append([term, meaning.strip()])
        else:
            found[-1][1] += " " + line.strip()
    return found


def macro(term):
    """Returns a term of a help text as arguments of mdoc: options, what they take, and words; dots
    mean that there may be more."""
    words = []
    for word in re.findall(r"\.\.\.|[^ ,.]+", term):
        if word.startswith("-"):
            words += ["Fl", word[1:].replace("-", "\\-")]
        else:
            words.append(word if word == "..." else f"Oo Ar {word.strip('<>[]')} Oc" if word[0] == "[" else f"Ar {word.strip('<>')}")
    return " ".join(words)


def tagged(rows):
    """Returns a list of terms with their meaning."""
    lines = [f".It {term}\n{plain(meaning)}" for term, meaning in rows if meaning]
    return "\n".join([".Bl -tag -width Ds", *lines, ".El"])


def rows_of(page, header):
    """Returns the rows of the table of a page that begins with this line."""
    table = page.split(f"{header}\n", 1)[1].split("\n\n", 1)[0]
    return [[cell.strip() for cell in re.split(r"(?<!\\)\|", row)[1:-1]] for row in table.splitlines()[1:]]


def begun_low(about):
    """Returns a purpose as a manual page begins with it: a small letter first, and no full stop."""
    return about[0].lower() + about[1:].rstrip(".")


def head(name, section, about, version, day):
    day = datetime.datetime.fromtimestamp(day, datetime.timezone.utc)
    date = f"{day:%B} {day.day}, {day.year}"
    return f".Dd {date}\n.Dt {name.upper()} {section}\n.Os tfstated {version}\n.Sh NAME\n.Nm {name}\n.Nd {about}"


def commands(program):
    """Returns the commands that a program lists, each with its own help text."""
    listed = [name for name, _ in sections(told(program, "--help"))["Commands"] if name != "help"]
    return {name: sections(told(program, name, "--help")) for name in listed}


def synopsis(name, parts):
    """Returns the line of a command, as its help text has it after `Usage:`."""
    usage = next(part for part in parts[""] if part.startswith("Usage: ")).split(f" {name}", 1)[1].strip()
    return f".Nm tfstatectl\n.Cm {name} {macro(usage.replace('[OPTIONS]', '[options]'))}".rstrip()


def about_command(parts):
    """Returns what the help text of a command says: its purpose, its arguments and its options."""
    listed = [row for title in ("Arguments", "Options") for row in parts.get(title, [])]
    return [plain(parts[""][0] + "."), tagged([(macro(term), meaning) for term, meaning in listed])]


def statuses():
    """Returns each status of `tfstatectl` with its faults and what to do about them."""
    found = {}
    for status, fault, remedy in rows_of(FAULTS, "| Status | Fault | What to do |"):
        found.setdefault(status, []).append(f"{fault}: {remedy}.")
    return [(status, " ".join(lines)) for status, lines in found.items()]


def page_of_tfstatectl(program, version, day):
    top, known = sections(told(program, "--help")), commands(program)
    lines = [head("tfstatectl", 8, begun_low(top[""][0]), version, day), ".Sh SYNOPSIS"]
    lines += [synopsis(name, parts) for name, parts in known.items()] + [".Nm", ".Fl \\-version", ".Sh DESCRIPTION"]
    for name, parts in known.items():
        lines += [f".Ss {name}", *about_command(parts)]
    lines += [".Sh FILES", tagged([(f"Pa {plain(file)}", meaning) for file, meaning in rows_of(FOLDER, "| File | What it is |")])]
    lines += [".Sh EXIT STATUS", tagged([("0", "it is done"), *statuses()])]
    return "\n".join([*lines, ".Sh SEE ALSO", ".Xr tfstated 1 ,", ".Pa /usr/share/doc/tfstated/README.md"]) + "\n"


def page_of_command(name, parts, version, day):
    """Returns the page of a command of `tfstatectl`."""
    lines = [head(f"tfstatectl-{name}", 8, begun_low(parts[""][0]), version, day), ".Sh SYNOPSIS", synopsis(name, parts)]
    lines += [".Sh DESCRIPTION", *about_command(parts), ".Sh EXIT STATUS", "The statuses of all commands are in", ".Xr tfstatectl 8 ."]
    return "\n".join([*lines, ".Sh SEE ALSO", ".Xr tfstatectl 8"]) + "\n"


def described(command):
    """Returns what docs/JOURNAL.md says of a command, as mdoc: a paragraph, and the list that may
    follow it."""
    text = JOURNAL.split(f"**{command}** ", 1)[1]
    first, second = text.split("\n\n")[:2]
    listed = [item.replace("\n", " ") for item in re.split(r"^- ", second, flags=re.M)[1:]]
    lines = [plain(first.replace("\n", " "))]
    if listed:
        lines += [".Bl -dash", *(f".It\n{plain(item)}" for item in listed), ".El"]
    return "\n".join(lines)


def page_of_tfstated(version, day):
    rows = rows_of(PROTOCOL, "| Command | Does | Status |")[:-1]
    lines = [head("tfstated", 1, "server for Terraform's http state backend", version, day), ".Sh SYNOPSIS"]
    usages = [usage for command, *_ in rows for usage in re.findall(r"`([^`]+)`", command)]
    lines += [f".Nm\n.Cm {macro_of_usage(usage)}" for usage in usages]
    lines += [".Sh DESCRIPTION", "Most run", ".Xr tfstatectl 8", "in its place, which serves a folder of journals.", ".Bl -tag -width Ds"]
    lines += [f".It Cm {macro_of_usage(command.strip('`'))}\n{plain(f'{does}. Status: {status}')}" for command, does, status in rows if status]
    lines += [f".It Cm {macro_of_usage(command)}\n{described(command)}" for command in ("check FILE", "rebase OLD NEW")] + [".El"]
    kinds = [(status, f"check: {check}; rebase, serve: {other}") for status, check, other in rows_of(JOURNAL, "| Status | `check` | `rebase`, `serve` |")]
    faults = [(f"Cm {plain(command)}", names) for command, names in rows_of(PROTOCOL, "| Command | Names |")]
    lines += [".Sh EXIT STATUS", tagged(kinds), ".Sh DIAGNOSTICS"]
    lines += ["Each fault is a name on standard error; its status stands in parentheses, else it is 1.", tagged(faults)]
    return "\n".join([*lines, ".Sh SEE ALSO", ".Xr tfstatectl 8"]) + "\n"


def macro_of_usage(usage):
    """Returns a usage as arguments of mdoc: its command, then what it takes."""
    name, *words = usage.split()
    return " ".join([name, *(f"Op Ar {word[1:-1]}" if word[0] == "[" else f"Ar {word}" for word in words)])


def manuals(program, version, day):
    """Returns each manual page by the name of its file. The program is `tfstatectl`; the day is in
    seconds."""
    pages = {f"tfstatectl-{name}.8": page_of_command(name, parts, version, day) for name, parts in commands(program).items()}
    return {"tfstatectl.8": page_of_tfstatectl(program, version, day), "tfstated.1": page_of_tfstated(version, day), **pages}
