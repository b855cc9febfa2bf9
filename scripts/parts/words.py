"""The words of osc in its manual page and in its completion for bash, as the program itself tells them in its help, and as the code has the keys of
settings; and the table of settings of a page, as the comments of their fields say. They are between marks; all else in these files is written by hand.
Each word is offered by the completion, and exactly those settings may be left out of which the table says so."""

import functools
import re
import subprocess
from pathlib import Path

from parts.shared import PROGRAM, ROOT, Wrong, filled, osc, own, read

MAN = ROOT / "man/osc.1"
BASH = ROOT / "completion/osc.bash"
PAGE = ROOT / "docs/QUICKSTART.md"
SETTINGS = ROOT / "crates/osc_words/src/settings"


# ---- what the program tells


class Option:
    """An option as help shows it: `-h, --help  WHAT`, `--only <CLIENT>  WHAT`, or `--diagram [<FORM>]  WHAT` where the value may be left out."""

    LINE = re.compile(r"^ +(?:(-\w), |    )(--[a-z][a-z0-9-]*)(?:( \[| )<([A-Z]+)>\]?)?  +(.*)$")

    def __init__(self, line):
        found = self.LINE.match(line)
        if not found:
            raise Wrong(f"osc help: this isn't an option as help shows one: {line}")
        self.short, self.name, joint, self.value, self.what = found.groups()
        self.may_lack_value = joint == " ["

    def words(self):
        return [word for word in (self.name, self.short) if word]


class Help:
    """What `osc help`, or `osc help COMMAND`, says."""

    def __init__(self, *words):
        self.what, *told = osc("help", *words).split("\n")
        self.commands, self.arguments, self.options, self.usage, self.example = {}, {}, [], None, None
        part = None
        for line in told:
            if line.startswith("Usage: "):
                self.usage = line.removeprefix("Usage: ")
            elif line.startswith("Example: "):
                self.example = line.removeprefix("Example: ")
            elif line in ("Commands:", "Arguments:", "Options:"):
                part = line
            elif line and part == "Commands:":
                name, what = line.split(None, 1)
                self.commands[name] = what
            elif line and part == "Arguments:":
                name, what = line.split(None, 1)
                self.arguments[name.strip("<>[].")] = what
            elif line and part == "Options:":
                self.options.append(Option(line))
            elif line:
                raise Wrong(f"osc help {' '.join(words)}: a line that isn't known here: {line}")

    def words(self):
        return [word for option in self.options for word in option.words()]


class Program:
    """The program's version, and the help of each of its commands."""

    def __init__(self):
        self.version = osc("--version").split()[1].rstrip(",")
        self.top = Help()
        self.commands = {name: Help(name) for name in self.top.commands if name != "help"}


class Settings:
    """The keys of settings and what should stand at each, as the code lists them."""

    def __init__(self):
        text = read(SETTINGS / "key.rt")
        self.names = dict(re.findall(r'SettingsKey::(\w+) => "([a-z_]+)",', text))
        forms = text[text.index("pub fn form") :]
        self.forms = {}
        for keys, form in re.findall(r'((?:SettingsKey::\w+(?: \| )?)+) => \{?\s*"([^"]*)"', forms):
            for key in re.findall(r"SettingsKey::(\w+)", keys):
                self.forms[self.names[key]] = form

    def keys(self, file, const):
        found = re.search(rf"const {const}: \[SettingsKey; \d+\] =\s*\[(.*?)\];", read(SETTINGS / file), re.S)
        if not found:
            raise Wrong(f"{own(SETTINGS / file)}: it has no list {const} of keys")
        return [self.names[key] for key in re.findall(r"SettingsKey::(\w+)", found[1])]


known = functools.cache(Program)


# ---- the manual page


def roff(text):
    return text.replace("\\", "\\e").replace("-", "\\-").replace("'", "\\(aq")


def sentence(text):
    return text if text.endswith(".") else text + "."


def man_title(program):
    return [f'.TH OSC 1 "" "Nozzlefern {program.version}" "User Commands"']


def man_synopsis(program):
    lines = []
    for name, help in program.commands.items():
        lines += [".br"] if lines else []
        usage = help.usage.removeprefix(f"osc {name}").strip()
        parts = [rf"\fBosc {name}\fR"]
        if usage.startswith("[OPTIONS]"):
            parts.append(r"[\fIOPTIONS\fR]")
            usage = usage.removeprefix("[OPTIONS]").strip()
        for option, value in re.findall(r"(--[a-z][a-z0-9-]* )?<([A-Z]+)>", usage):
            parts.append((rf"\fB{roff(option.strip())}\fR " if option else "") + rf"\fI{value}\fR")
        lines.append(" ".join(parts))
    lines += [".br", r"\fBosc help\fR [\fICOMMAND\fR]"]
    return lines


def man_options(options):
    lines = []
    for option in options:
        name = rf"\fB{roff(option.name)}\fR"
        if option.short:
            name = rf"\fB{roff(option.short)}\fR, {name}"
        if option.value:
            name += rf"[=\fI{option.value}\fR]" if option.may_lack_value else rf" \fI{option.value}\fR"
        lines += [".TP", name, roff(sentence(option.what))]
    return lines


def man_commands(program):
    lines = []
    for name, help in program.commands.items():
        lines += [f".SS osc {name}", roff(sentence(help.what))]
        for argument, what in help.arguments.items():
            lines += [".TP", rf"\fI{argument}\fR", roff(sentence(what))]
        lines += man_options(option for option in help.options if option.name != "--help")
        if help.example:
            lines += [".PP", "Example:", ".PP", ".nf", ".RS", roff(help.example), ".RE", ".fi"]
    lines += [".SS osc help", roff(sentence(program.top.commands["help"]))]
    lines += man_options(program.top.options)
    return lines


def man_settings(settings):
    lines = []
    for title, file, const in [
        ("Of a server", "server.rt", "KEYS"),
        ("Of a resource of a server", "resource.rt", "KEYS"),
        ("Of a proxy", "proxy.rt", "KEYS"),
        ("Of a target of a proxy", "proxy.rt", "TARGET_KEYS"),
        ("Of a client", "client.rt", "KEYS"),
    ]:
        lines += [f".SS {title}"]
        for key in settings.keys(file, const):
            lines += [".TP", rf"\fB{key}\fR", roff(sentence(settings.forms[key][0].upper() + settings.forms[key][1:]))]
    return lines


# ---- the table of settings


# Tables of settings that may be left out.
OPTIONAL_TABLES = ["[[resource]]"]

# The least settings of each program: a line for each key that may not be left out.
LEAST = {
    "server": ['audience = "s"', 'bind = "127.0.0.1:5683"', f'key = "{"00" * 16}"', "open = []"],
    "proxy": ['bind = "127.0.0.1:5683"', "target = []"],
    "client": ['bind = "127.0.0.1:0"', 'peer = "127.0.0.1:1"', 'secret = "00"', 'token = "00"'],
}


class Setting:
    """A field of settings, as the comment above it says: `WHAT: `KEY`, FORM. Left out: DEFAULT.`, or `, and DEFAULT where it is left out`."""

    SHAPE = re.compile(r"(.*?): ((?:a table )?`.*)")
    LEFT_OUT = re.compile(r"(?:\. Left out: |, and |, which is )([^,.]*?)(?: where it is left out)?\.")

    def __init__(self, field, comment):
        found = self.SHAPE.match(comment)
        if not found:
            raise Wrong(f"a comment of a setting should be WHAT: `KEY`, FORM: {comment}")
        self.what, rest = found[1][0].lower() + found[1][1:], found[2]
        self.keys = [key for key in re.findall(r"`([a-z_\[\]]+)`", rest.partition(". ")[0])]
        at = self.LEFT_OUT.search(rest) if "eft out: " in rest or "where it is left out" in rest else None
        optional = field.startswith("Option<") or "may be left out" in rest or any(key in OPTIONAL_TABLES for key in self.keys)
        self.left_out = (f"`{self.keys[-1]}`: {at[1]}" if len(self.keys) > 1 else at[1]) if at else "none" if optional else "an error"
        self.form = (rest[: at.start()] if at else rest).partition(". ")[0].rstrip(".")
        if len(self.keys) == 1:
            self.form = self.form.partition(f"`{self.keys[0]}`, ")[2] or self.form.partition(" each")[0].replace("a table", "tables") + self.form.partition(" each")[2]

    def row(self):
        return f"| {', '.join(f'`{key}`' for key in self.keys)} | {self.what} | {self.form} | {self.left_out} |"


def fields(file, struct):
    """The fields of a struct of settings, in order."""
    found = re.search(rf"pub struct {struct} {{\n(.*?)\n}}", read(SETTINGS / file), re.S)
    if not found:
        raise Wrong(f"{own(SETTINGS / file)}: it has no struct {struct}")
    comment = []
    for line in found[1].split("\n"):
        line = line.strip()
        if line.startswith("///"):
            comment.append(line[3:].strip())
        elif line:
            yield Setting(line.partition(": ")[2], " ".join(comment))
            comment = []


def page_settings():
    lines = []
    for title, file, struct in [
        ("A server", "server.rt", "ServerSettings"),
        ("A `[[resource]]`", "resource.rt", "ResourceSetting"),
        ("A proxy", "proxy.rt", "ProxySettings"),
        ("A `[[target]]`", "proxy.rt", "TargetSetting"),
        ("A client", "client.rt", "ClientSettings"),
    ]:
        lines += ([""] if lines else []) + [f"| {title} | What it is | What should be there | Left out |", "|---|---|---|---|"]
        lines += [setting.row() for setting in fields(file, struct)]
    return lines


# ---- the completion


def bash_words(program):
    lines = ["declare -gA _osc_words=("]

    def row(name, words):
        lines.append(f'    ["{name}"]="{" ".join(words)}"')

    row("osc", [*program.top.commands, *program.top.words()])
    for name, help in program.commands.items():
        row(name, help.words())
    row("help", program.commands)
    lines.append(")")
    return lines


def bash_values(program):
    lines = ["declare -gA _osc_values=("]
    for name, help in program.commands.items():
        for option in help.options:
            if option.value and not option.may_lack_value:
                lines.append(f'    ["{name} {option.name}"]={option.value}')
        for argument in help.arguments:
            lines.append(f'    ["{name}"]={argument}')
    lines.append(")")
    return lines


def completed(words):
    """What bash offers for the last of these words, by completion/osc.bash."""
    script = 'source "$1"; shift; COMP_WORDS=("$@"); COMP_CWORD=$(($# - 1)); _osc; printf "%s\\n" "${COMPREPLY[@]}"'
    told = subprocess.run(["bash", "-c", script, "-", str(BASH), *words], capture_output=True, text=True, cwd=ROOT, check=False)
    if told.returncode != 0 or told.stderr:
        raise Wrong(f"{own(BASH)}: it fails on {' '.join(words)}: {told.stderr.strip()}")
    return sorted(told.stdout.split())


def checked(program, lines):
    """What `--check` says of these settings, if it refuses them."""
    words = ["--turns", "1", "--method", "GET", "--path", "/e"] if program == "client" else []
    ran = subprocess.run([PROGRAM, program, *words, "--check"], input="\n".join(lines).encode(), capture_output=True, check=False)
    return ran.stderr.decode() if ran.returncode else ""


def faults_of_settings():
    """That exactly those keys may be left out of which the table says so."""
    for program, file, struct in [("server", "server.rt", "ServerSettings"), ("proxy", "proxy.rt", "ProxySettings"), ("client", "client.rt", "ClientSettings")]:
        least = LEAST[program]
        needed = [setting.keys[0].strip("[]") for setting in fields(file, struct) if setting.left_out == "an error"]
        if sorted(needed) != [line.partition(" ")[0] for line in least]:
            yield f"{own(PAGE)}: of a {program} these may not be left out: {', '.join(needed)}; {own(Path(__file__))} has {', '.join(least)}"
        told = checked(program, least)
        if told:
            yield f"{own(PAGE)}: a {program} with {', '.join(least)} alone says: {told.splitlines()[0]}"
        for line in least:
            key = line.partition(" ")[0]
            if f"key {key} is missing" not in checked(program, [other for other in least if other != line]):
                yield f"{own(PAGE)}: a {program} doesn't say that {key} is missing"


def faults(only, say):
    """That each word that help knows is offered, and no other."""
    program = known()
    tries = [(["osc", ""], [*program.top.commands, *program.top.words()]), (["osc", "help", ""], program.commands)]
    for name, help in program.commands.items():
        tries.append((["osc", name, "-"], help.words()))
        for option in help.options:
            if option.value and not option.may_lack_value:
                tries.append((["osc", name, option.name, "1", "-"], [word for word in help.words() if word != option.name]))
    tries += [
        (["osc", "client", "--method", "P"], ["POST", "PUT"]),
        (["osc", "context", "--form", ""], ["aiocoap", "json", "libcoap"]),
        (["osc", "sim", "--only", "c"], [f"c{n}" for n in range(1, 10)]),
        (["osc", "token", "--alg", ""], ["10", "30"]),
        (["osc", "server", "--config", "crates.t"], ["crates.txt"]),
    ]
    yield from faults_of_settings()
    for words, wanted in tries:
        offered = completed(words)
        if offered != sorted(wanted):
            yield f"{own(BASH)}: {' '.join(words)}: bash offers {' '.join(offered)}, and help says {' '.join(sorted(wanted))}"
    say(f"words: {len(program.commands)} commands, {sum(len(help.options) for help in program.commands.values())} options, as osc says")


# ---- the files


def made():
    program, settings = known(), Settings()
    man = {"title": man_title(program), "synopsis": man_synopsis(program), "commands": man_commands(program), "settings": man_settings(settings)}
    bash = {"words": bash_words(program), "values": bash_values(program)}
    for path, mark, parts in ((MAN, '.\\"', man), (BASH, "#", bash)):
        text = read(path)
        for name, lines in parts.items():
            text = filled(path, text, f"{mark} words: {name}", f"{mark} words: end", lines)
        yield path, text
    yield PAGE, filled(PAGE, read(PAGE), "<!-- settings -->", "<!-- /settings -->", page_settings())
