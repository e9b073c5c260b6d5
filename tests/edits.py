"""Each rule and each refusal has a wrong program, and each theorem four: docs/EDITS.md names them, and they are there.

An edit of src/ counts for a rule. A theorem is a function of a crate's src/laws.rt, or one that bound or agreement
gives; its edits are those of its crate whose first line names it, as what is not proved with them. A rule that no
program can get wrong says why in its row.
"""
import glob
import os
import re
import sys

import lib  # which ends a run under -O: the checks' own tests are asserts

ROOT = os.path.dirname(os.path.dirname(os.path.abspath(__file__)))
PAGE, RULES = "docs/EDITS.md", "docs/RULES.md"

# words with which a row begins that has no edit: the reason follows
REASONS = ("none: ", "by running: ", "a theorem: ")
# 19 is the table of refusals and 20 that of cases: each row of theirs is asked for on its own
TABLES = {"19", "20"}
# the crates whose calls are theorems all, beside those that have laws, and how many edits a theorem has at least
THEOREMS = {"bound", "agreement"}
LEAST = 4
CALL = re.compile(r"^pub fn (\w+)[<(]", re.MULTILINE)


def read(name):
    with open(os.path.join(ROOT, name), encoding="utf-8") as text:
        return text.read()


def rules_in(text):
    """The numbers of the rules: paragraphs "**n.m", and sections that have none."""
    paragraphs = re.findall(r"^\*\*(\d+\.\d+)[ .*]", text, re.MULTILINE)
    with_some = {number.split(".")[0] for number in paragraphs}
    whole = [n for n in re.findall(r"^## (\d+)\. ", text, re.MULTILINE) if n not in with_some | TABLES]
    return paragraphs + whole


def refusals_in(text):
    """The causes of the table of refusals."""
    return re.findall(r"^\| \d+ \| `(\w+)` \|", text, re.MULTILINE)


def theorems_there():
    """Each theorem, as crate::laws::name or crate::name, in the order of crates.txt."""
    found = []
    for crate in re.findall(r"^(\w+)[^#\n]*:", read("crates.txt"), re.MULTILINE):
        laws = "crates/%s/src/laws.rt" % crate
        if os.path.exists(os.path.join(ROOT, laws)):
            found += ["%s::laws::%s" % (crate, name) for name in CALL.findall(read(laws))]
        elif crate in THEOREMS:
            found += ["%s::%s" % (crate, name) for name in CALL.findall(read("crates/%s/src/lib.rt" % crate))]
    return found


def edit_texts():
    """Each edit's text, by its name as crate/name."""
    found = {}
    for path in glob.glob(os.path.join(ROOT, "crates", "*", "must-fail", "*.edit")):
        with open(path, encoding="utf-8") as edit:
            found["%s/%s" % (path.split(os.sep)[-3], os.path.basename(path)[:-len(".edit")])] = edit.read()
    return found


def changed_by(text):
    """Which of src, specs and proofs an edit changes."""
    return set(re.findall(r"^file: (\w+)/", text, re.MULTILINE))


def tried_by(text):
    """The theorems that an edit's first line names: `# laws::one, another: what is wrong`."""
    head = re.match(r"# ((?:laws::)?\w+(?:, \w+)*): ", text)
    return set(head.group(1).replace("laws::", "").split(", ")) if head else set()


def rows_of(page):
    """First and last cell of each row of the page's tables."""
    rows = []
    for line in page.split("\n"):
        cells = [cell.strip() for cell in line.strip("|").split("|")]
        if line.startswith("|") and len(cells) >= 2 and not set(cells[0]) <= set("-"):
            rows.append((cells[0].strip("`"), cells[-1]))
    return rows


def theorem_faults(page, theorems, tried):
    """Which theorems have no row of their own, or too few edits in it that name them."""
    found, told = [], {}
    for first, last in rows_of(page.partition("\n## By theorem\n")[2]):
        told[first.partition("`")[0]] = set(re.findall(r"`(\w+/\w+)`", last))
    for one in theorems:
        crate, name = one.split("::")[0], one.split("::")[-1]
        own = [edit for edit in told.get(one, ()) if edit.startswith(crate + "/") and name in tried.get(edit, ())]
        if len(own) < LEAST:
            found.append("%s has %d edits" % (one, len(own)))
    return found


def faults(page, rules, theorems, texts):
    there = {name: changed_by(text) for name, text in texts.items()}
    tried = {name: tried_by(text) for name, text in texts.items()}
    wanted = rules_in(rules) + refusals_in(rules)
    rows = rows_of(page)
    told = [first for first, _ in rows]
    found = ["%s has no row" % one for one in wanted if one not in told]
    named = re.findall(r"`(\w+/\w+)`", page)
    found += ["no edit %s" % name for name in named if name not in there]
    found += ["%s is named nowhere" % name for name in there if name not in named]
    for first, last in rows:
        if first not in wanted:
            continue
        of_code = [name for name in re.findall(r"`(\w+/\w+)`", last) if there.get(name) == {"src"}]
        if not of_code and not last.startswith(REASONS):
            found.append("%s has no edit of src/" % first)
    return found + theorem_faults(page, theorems, tried)


def notices(page, rules, theorems, texts):
    """A check that never fails shows nothing."""
    one = sorted(texts)[0]
    assert faults(page, rules + "\n**99.1** Another rule.\n", theorems, texts) == ["99.1 has no row"]
    assert faults(page, rules, theorems, {**texts, "fields/another": ""}) == ["fields/another is named nowhere"]
    assert any(one in fault for fault in faults(page, rules, theorems, {k: v for k, v in texts.items() if k != one}))
    first, of_specs = rules_in(rules)[0], {k: v.replace("file: src/", "file: specs/") for k, v in texts.items()}
    assert faults(page, rules, theorems, of_specs).count("%s has no edit of src/" % first) == 1
    assert faults(page, rules, theorems + ["bound::another"], texts) == ["bound::another has 0 edits"]
    for theorem in theorems:
        notices_theorem(page, rules, theorems, texts, theorem)


def notices_theorem(page, rules, theorems, texts, theorem):
    """A row with fewer edits, with another crate's, or with edits that try something else."""
    start, mark, behind = page.partition("\n| `%s`" % theorem)
    row, end, rest = behind.partition("\n")
    crate, name = theorem.split("::")[0], theorem.split("::")[-1]
    edits = [edit for edit in re.findall(r"`(\w+/\w+)`", row) if name in tried_by(texts[edit])]
    fewer = start + mark + " | " + ", ".join("`%s`" % edit for edit in edits[:LEAST - 1]) + " |" + end + rest
    other = start + mark + row.replace("`%s/" % crate, "`uses/") + end + rest
    untold = {k: re.sub(r"\A#.*", "#", v) if k in edits else v for k, v in texts.items()}
    assert "%s has %d edits" % (theorem, LEAST - 1) in faults(fewer, rules, theorems, texts)
    assert "%s has 0 edits" % theorem in faults(other, rules, theorems, texts)
    assert "%s has 0 edits" % theorem in faults(page, rules, theorems, untold)


def main():
    page, rules, texts = read(PAGE), read(RULES), edit_texts()
    theorems = theorems_there()
    found = faults(page, rules, theorems, texts)
    for fault in found:
        print("%s: %s" % (PAGE, fault))
    if found:
        sys.exit(1)
    notices(page, rules, theorems, texts)
    counts = (len(rules_in(rules)), len(refusals_in(rules)), len(theorems), len(texts))
    print("edits: %d rules, %d refusals and %d theorems, %d edits" % counts)


if __name__ == "__main__":
    main()
