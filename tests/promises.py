"""docs/PROMISES.md has a row for each public call, and names only what is there.

A row of a call has what it promises, the definition that its contract names, the law that settles it or `=`, and the
edits that try it. A row of a law, which is the contract of a function that does nothing, has what holds and the
statements that its contract names. Faults are a call without a row, a row without a call, a definition that is not
there or that the contract does not name, a law or an edit that is not there, and fewer than two edits without a
reason in brackets. docs/REFERENCE.md has a row for each call too.
"""
import functools
import glob
import os
import re
import sys

import lib  # which ends a run under -O: the checks' own tests are asserts
import public

ROOT = public.ROOT
CALLS = "| call | promise | definition | settled by | ruled out, among others |"
LAWS = "| law | what holds | statement | ruled out |"


def text_of(*pattern):
    """The text of all files that a pattern below crates/ finds."""
    texts = []
    for path in sorted(glob.glob(os.path.join(ROOT, "crates", *pattern), recursive=True)):
        with open(path, encoding="utf-8") as file:
            texts.append(file.read())
    return "\n".join(texts)


@functools.lru_cache(None)
def defined(crate, folder, file="**/*"):
    """The names that the files of a crate's folder define for others."""
    text = text_of(crate, folder, file + ".antt")
    return set(re.findall(r"^\s*(?:\w+ )?pub (?:record |data )?(?!mod )([^\s:({]+)", text, re.MULTILINE))


@functools.lru_cache(None)
def edits_of(crate):
    paths = glob.glob(os.path.join(ROOT, "crates", crate, "must-fail", "*.edit"))
    return {os.path.splitext(os.path.basename(path))[0] for path in paths}


def defined_faults(named, cell, calls):
    """Which definitions of a cell are not there, or not in the contract. One of another crate is written with its
    file: `name` of crate/File."""
    found = []
    for name, owner, file in re.findall(r"`([^`]+)`(?: of (\w+)/(\w+))?", cell):
        if name not in defined(owner or named[0].split("::")[0], "specs", file or "**/*"):
            found.append("%s: no definition %s" % (named[0], name))
        if not any(calls[call].says is None or name in calls[call].says for call in named if call in calls):
            found.append("%s: its contract has no %s" % (named[0], name))
    return found


def edit_faults(named, cell):
    """Which edits of a cell are not there. One of another crate is written with it: `crate/edit`."""
    edits = re.findall(r"`(?:(\w+)/)?(\w+)`", cell)
    crate = named[0].split("::")[0]
    return ["%s: no edit %s" % (named[0], edit) for owner, edit in edits if edit not in edits_of(owner or crate)]


def call_faults(named, cells, calls):
    """What is wrong with a call's row."""
    if len(cells) != 5:
        return ["%s: %d cells" % (named[0], len(cells))]
    found = defined_faults(named, cells[2], calls)
    settled = re.findall(r"`([\w:-]+)`", cells[3])
    if not settled and not cells[3].startswith("="):
        found.append("%s: nothing settles it" % named[0])
    found += ["%s: no law %s" % (named[0], law) for law in settled if law not in calls]
    if cells[4].startswith("("):
        return found
    few = ["%s: under two edits" % named[0]] if cells[4].count("`") < 4 else []
    return found + edit_faults(named, cells[4]) + few


def law_faults(named, cells, calls):
    """What is wrong with a law's row."""
    if len(cells) != 4:
        return ["%s: %d cells" % (named[0], len(cells))]
    found = defined_faults(named, cells[2], calls) + edit_faults(named, cells[3])
    return found + ([] if "`" in cells[2] else ["%s: no statement" % named[0]])


def rows(text, head):
    """(row, the calls that it is of, its cells) for each row of a table of the page."""
    lines = text.split("\n")
    for line in lines[lines.index(head) + 2:]:
        if not line.startswith("|"):
            return
        cells = [cell.strip() for cell in line.strip().strip("|").split(" | ")]
        yield line, re.findall(r"`([\w:]+)`", cells[0]), cells


def reference_faults(text, calls):
    """Which calls have no row in docs/REFERENCE.md, below a heading with their crate's name."""
    crate, told = None, set()
    for line in text.split("\n"):
        if line.startswith("#"):
            crate = line.lstrip("# ")
        elif line.startswith("| `"):
            told.update("%s::%s" % (crate, name) for name in re.findall(r"`([\w:]+)\(", line.split(" | ")[0]))
    return ["%s: no row in docs/REFERENCE.md" % call for call in sorted(calls) if call not in told]


def faults(text, calls):
    """What is wrong with the page, for these public calls."""
    found, told = [], set()
    for head, judge in ((CALLS, call_faults), (LAWS, law_faults)):
        for _, named, cells in rows(text, head):
            told.update(named)
            found += judge(named, cells, calls)
    found += ["%s: no row" % call for call in sorted(set(calls) - told)]
    return found + ["%s: no such call" % call for call in sorted(told - set(calls))]


def self_test(text, calls):
    """Each kind of fault, made in the page, must be found."""
    row = next(line for line, named, _ in rows(text, CALLS) if named == ["items::File::next"])
    law = next(line for line, named, _ in rows(text, LAWS) if named == ["fields::laws::answers_settle"])
    cells = row.split(" | ")
    for old, wrong, what in (
        (row, "", "no row"),
        (row, row.replace("::next`", "::after`"), "no such call"),
        (row, " | ".join(cells[:2] + ["`nothing_of`"] + cells[3:]), "no definition nothing_of"),
        (row, " | ".join(cells[:2] + ["`row_size` of table/Layout"] + cells[3:]), "its contract has no row_size"),
        (row, " | ".join(cells[:3] + ["`items::laws::shaken`"] + cells[4:]), "no law items::laws::shaken"),
        (row, " | ".join(cells[:3] + ["–"] + cells[4:]), "nothing settles it"),
        (row, " | ".join(cells[:4] + ["`lost`, `found` |"]), "no edit lost"),
        (row, " | ".join(cells[:4] + ["none |"]), "under two edits"),
        (row, " | ".join(cells[:4]) + " |", "4 cells"),
        (law, "", "no row"),
        (law, law.replace("`Settles`", "`Shakes`"), "no definition Shakes"),
        (law, " | ".join(law.split(" | ")[:2] + ["–", "– |"]), "no statement"),
        (law, " | ".join(law.split(" | ")[:3] + ["`lost` |"]), "no edit lost"),
    ):
        page = text.replace(old + "\n", wrong + "\n" if wrong else "")
        assert any(what in fault for fault in faults(page, calls)), what
    assert reference_faults("### c\n| `T::f(&self)`, `g(x)` | what |\n", {"c::T::f", "c::g"}) == []
    page = "### c\n| `T::f(&self)` | what `g(x)` |\n### d\n| `g(x)` | what |\n"
    assert len(reference_faults(page, {"c::T::f", "c::g"})) == 1


def main():
    with open(os.path.join(ROOT, "docs", "PROMISES.md"), encoding="utf-8") as page:
        text = page.read()
    with open(os.path.join(ROOT, "docs", "REFERENCE.md"), encoding="utf-8") as page:
        reference = page.read()
    calls = public.public_calls()
    laws = {law for _, named, _ in rows(text, LAWS) for law in named}
    found = faults(text, calls) + reference_faults(reference, set(calls) - laws)
    if found:
        sys.exit("promises: %d faults\n%s" % (len(found), "\n".join(found)))
    self_test(text, calls)
    print("promises: a row for each of %d public calls and %d laws; definitions, laws and edits are there"
          % (len(calls) - len(laws), len(laws)))


if __name__ == "__main__":
    main()
