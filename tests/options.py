"""Holds what is written of the command line to the program as built: its commands, their options and words, and its
version.

Read from `nomutanku --help` and the help of each command. README.md and docs/REFERENCE.md have a line
`nomutanku COMMAND ..` for each, the manual page its synopsis, its commands' options and the exit statuses, the
completions what may be typed; each of them fails where it lacks one or has one too many. So does an option that a page
names and neither the program nor a script has. The newest heading of CHANGELOG.md and the manual page have the version
that `--version` tells.
"""
import os
import re
import shutil
import subprocess
import sys
from typing import NamedTuple

from lib.programs import ROOT, command

README, REFERENCE, CHANGES = "README.md", os.path.join("docs", "REFERENCE.md"), "CHANGELOG.md"
MAN, BASH, ZSH = (os.path.join("share", name) for name in ("nomutanku.1", "nomutanku.bash", "_nomutanku"))
PAGES = (README, REFERENCE, CHANGES, MAN)
SCRIPTS = ("list", "install", os.path.join("tests", "run"))
OPTION = re.compile(r"(?<![\w-])--[a-z][a-z-]*")

# what each command has, and the program itself
COMMON = {"--help"}
OF_NONE = {"--help", "--version"}
HELP = "help"


class Program(NamedTuple):
    """What the program says of itself: command -> the words behind it, such as `[--base N]` and `[TABLE..]`; the exit
    statuses."""

    commands: dict
    options: frozenset
    statuses: frozenset
    version: str


# What the program says.

def said(*words):
    """What it prints; each of these ends well."""
    asked = [*command("nomutanku"), *words]
    return subprocess.run(asked, stdin=subprocess.DEVNULL, stdout=subprocess.PIPE, check=True).stdout.decode()


def block(text, title):
    """The lines of a part of a help, up to the next empty one."""
    found = re.search(r"^%s:\n((?:.+\n)+)" % title, text, re.MULTILINE)
    return found.group(1).splitlines() if found else []


def options_of(text):
    """option -> the name of its value, or an empty word. An option that has a long name goes by it."""
    found = {}
    for line in block(text, "Options"):
        match = re.match(r" +(?:-\w, )?(--[a-z-]+|-\w)(?: <(\w+)>)?(?:  |$)", line)
        if match:
            found[match.group(1)] = match.group(2) or ""
        elif not re.match(r" {10}", line):
            sys.exit("options: a help has a line that is no option: %r" % line)
    return found


def words_of(text):
    """The words that may stand behind a command, by its help."""
    usage = re.search(r"^Usage: nomutanku \w+(.*)$", text, re.MULTILINE).group(1).split()
    words = {word.replace("...", "..").replace("]..", "..]").strip("<>") for word in usage if word != "[OPTIONS]"}
    named = {name: value for name, value in options_of(text).items() if name not in COMMON}
    return words | {"[%s]" % " ".join(filter(None, one)) for one in named.items()}


def asked():
    """The program's own account."""
    text = said("--help")
    names = [line.split()[0] for line in block(text, "Commands")]
    assert HELP in names and set(options_of(text)) == OF_NONE, text
    helps = {name: said(name, "--help") for name in names if name != HELP}
    options = OF_NONE.union(*map(options_of, helps.values()))
    statuses = re.findall(r"\b\d+\b", text[text.index("Exit status"):])
    version = said("--version").split()
    assert version[0] == "nomutanku" and len(version) == 2, version
    commands = {name: words_of(text) for name, text in helps.items()}
    return Program(commands, frozenset(options), frozenset(statuses), version[1])


def options_in(words):
    """The options among the words of a command, with the names of their values."""
    return {word[1:-1] for word in words if word.startswith("[-")}


def options_of_each(program):
    """command -> its options."""
    return {name: options_in(words) for name, words in program.commands.items()}


# What the pages say.

def of_lines(text):
    """command -> its words, of the lines `nomutanku COMMAND ..`, which a page indents. What follows the words stands
    behind two spaces; where a line is too short for them, they go on below, behind spaces."""
    text = re.sub(r"\n {8,}(?=\[)", " ", text)
    lines = re.findall(r"^    nomutanku (\w+)((?: [^ \n]+)*)(?:  .*)?$", text, re.MULTILINE)
    return {name: set(re.findall(r"\[[^\]]*\]|[^ \[\]]+", words)) for name, words in lines if name != HELP}


def plain(text):
    """A line of a manual page without what sets its words in bold or apart. Words of .BR and the like stand close
    together."""
    macro, _, rest = text.partition(" ")
    rest = rest if macro.startswith(".") else text
    words = re.sub(r"\\ ", "\0", re.sub(r"\\f[A-Z]", "", rest).replace("\\-", "-"))
    words = words.replace(" ", "" if re.fullmatch(r"\.[BIR]{2}", macro) else " ")
    return words.replace("\0", " ")


def section(text, title, level="SH"):
    """The lines of a section of a manual page."""
    end = r"^\.SH " if level == "SH" else r"^\.S[HS] "
    found = re.search(r'^\.%s "?%s"?\n(.*?)(?=%s|\Z)' % (level, title, end), text, re.MULTILINE | re.DOTALL)
    return found.group(1).splitlines() if found else []


def of_man(text):
    """command -> its words, by the synopsis; command -> its options, by the sections; the statuses; the version."""
    synopsis = "".join("\n" if line == ".br" else plain(line) + " " for line in section(text, "SYNOPSIS"))
    lines = of_lines("".join("    %s\n" % line.strip().replace("...", "..") for line in synopsis.split("\n")))
    told = {}
    for name in re.findall(r"^\.SS (\w+)$", text, re.MULTILINE):
        told[name] = marked(section(text, name, "SS"))
    statuses = [plain(line) for line in section(text, "EXIT STATUS") if re.match(r"\.B \d+$", line)]
    version = re.search(r'^\.TH NOMUTANKU 1 "[^"]*" "nomutanku ([^"]+)"', text, re.MULTILINE)
    return lines, told, marked(section(text, "OPTIONS")), statuses, version and version.group(1)


def marked(lines):
    """The options that have a paragraph of their own, with the names of their values."""
    found = set()
    for before, line in zip(lines, lines[1:]):
        if before == ".TP":
            found.add(plain(line).split(", ")[-1])
    return found


def of_bash(text):
    """command -> what may be typed behind it; of none the commands too."""
    cases = re.findall(r"^ +('?\w*'?)\) options='([^']*)' ;;$", text, re.MULTILINE)
    return {name.strip("'"): set(words.split()) for name, words in cases}


def of_zsh(text):
    """The same of the other shell."""
    names = set(re.findall(r"^    '(\w+):", text, re.MULTILINE))
    typed = re.compile(r"'(--[a-z-]+|-\w)\[")
    first = re.search(r"^    _arguments .*$", text, re.MULTILINE)
    found = {"": names.union(typed.findall(first.group(0)) if first else ())}
    for name, words in re.findall(r"^    (\w+)\)(.*?);;$", text, re.MULTILINE | re.DOTALL):
        found[name] = names if words.split()[0] == "_describe" else set(typed.findall(words))
    return found


# What differs.

def differs(where, found, wanted):
    """A line for each that is lacking or too many."""
    yield from ("%s lacks %s" % (where, one) for one in sorted(set(wanted) - set(found)))
    yield from ("%s has %s, which the program has not" % (where, one) for one in sorted(set(found) - set(wanted)))


def commands_differ(where, found, wanted):
    """The same of commands with their words."""
    yield from differs(where, found, wanted)
    for name in sorted(set(found) & set(wanted)):
        yield from differs("%s, %s:" % (where, name), found[name], wanted[name])


def man_differs(text, program):
    """What the manual page has otherwise."""
    lines, told, common, statuses, version = of_man(text)
    yield from commands_differ(MAN + ", synopsis", lines, program.commands)
    yield from commands_differ(MAN + ", commands", told, {**options_of_each(program), HELP: set()})
    yield from differs(MAN + ", options", common, OF_NONE)
    yield from differs(MAN + ", statuses", statuses, program.statuses)
    yield from differs(MAN + ", version", {version}, {program.version})


def faults(texts, program, known):
    """What these texts, by their paths, have otherwise than the program. `known` are the options of the scripts."""
    for path in (README, REFERENCE):
        yield from commands_differ(path, of_lines(texts[path]), program.commands)
    yield from man_differs(texts[MAN], program)
    names = set(program.commands) | {HELP}
    typed = {name: COMMON.union(one.split()[0] for one in told) for name, told in options_of_each(program).items()}
    typed.update({HELP: names, "": names | OF_NONE})
    yield from commands_differ(BASH, of_bash(texts[BASH]), typed)
    yield from commands_differ(ZSH, of_zsh(texts[ZSH]), typed)
    newest = re.search(r"^## ([\w.]+)", texts[CHANGES], re.MULTILINE)
    yield from differs(CHANGES + ", newest heading", {newest and newest.group(1)}, {program.version})
    for path in PAGES:
        named = set(OPTION.findall(texts[path].replace("\\-", "-")))
        yield from ("%s names %s, which nothing has" % (path, one) for one in sorted(named - program.options - known))


def read(path):
    """A file of the repository."""
    with open(os.path.join(ROOT, path), encoding="utf-8") as given:
        return given.read()


# What may be typed, by the shell itself.

def completes(words):
    """What bash offers for the last of these words."""
    script = '. "$1"; shift; COMP_WORDS=("$@"); COMP_CWORD=$(($# - 1)); _nomutanku; printf "%s\\n" "${COMPREPLY[@]}"'
    asked = ["bash", "-c", script, "bash", os.path.join(ROOT, BASH), *words]
    done = subprocess.run(asked, stdout=subprocess.PIPE, stderr=subprocess.PIPE, check=True)
    assert done.stderr == b"", done.stderr
    return set(done.stdout.decode().split())


def completions(program):
    """Each command's options, and the commands, where there is a bash to ask."""
    if not shutil.which("bash"):
        return "no bash here to ask"
    typed = of_bash(read(BASH))
    for name, words in typed.items():
        given = ["nomutanku", name] if name else ["nomutanku"]
        assert completes([*given, ""]) == words, (name, words)
        assert completes([*given, "--"]) == {word for word in words if word.startswith("--")}, name
    assert completes(["nomutanku", "list", "--j"]) == completes(["nomutanku", "list", "a.tab", "--j"]) == {"--json"}
    assert completes(["nomutanku", "--help", "exp"]) == {"explain"}
    # a number comes, or a file
    for before in (["list", "--base", ""], ["extract", "--from", ""], ["list", "--", "--"]):
        assert completes(["nomutanku", *before]) == set(), before
    return "%d commands tried in bash" % len(program.commands)


def notices(texts, program, known):
    """Each kind of difference is found in each page; in these none is."""
    pages = (README, REFERENCE, MAN + ", synopsis", MAN + ", commands")
    for lacking in program.commands:
        fewer = {other: words for other, words in program.commands.items() if other != lacking}
        assert_found(texts, program._replace(commands=fewer), known, (*pages, BASH, ZSH))
    name, words = next((name, words) for name, words in program.commands.items() if options_in(words))
    option = "[%s]" % min(options_in(words))
    for changed in (words - {option}, words | {"[--colour]"}, words | {"[--base M]"}):
        assert_found(texts, program._replace(commands={**program.commands, name: changed}), known, pages)
    wrong = program._replace(commands={**program.commands, name: words | {"[--colour]"}})
    assert_found(texts, wrong, known, (BASH, ZSH))
    assert_found(texts, program._replace(statuses=program.statuses | {"5"}), known, (MAN + ", statuses",))
    assert_found(texts, program._replace(version="0.0"), known, (MAN + ", version", CHANGES))
    for path in PAGES:
        wrong = {**texts, path: texts[path] + "\n`--colour`\n"}
        assert "%s names --colour, which nothing has" % path in faults(wrong, program, known), path


def assert_found(texts, program, known, places):
    """Each of these places is told to differ."""
    found = list(faults(texts, program, known))
    for place in places:
        assert any(line.startswith(place) for line in found), (place, found)


def main():
    """Holds the pages to the program."""
    program = asked()
    texts = {path: read(path) for path in (*PAGES, BASH, ZSH)}
    known = set().union(*(OPTION.findall(read(path)) for path in SCRIPTS))
    found = list(faults(texts, program, known))
    if found:
        sys.exit("options: %d differences\n%s" % (len(found), "\n".join(found)))
    notices(texts, program, known)
    print("options: %d commands with %d options, version %s; %s"
          % (len(program.commands), len(program.options), program.version, completions(program)))


if __name__ == "__main__":
    main()
