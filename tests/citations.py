"""What the crates cite is there: each "RULES n" or "RULES n.m" below crates/ names a section of docs/RULES.md.

A section n is a heading "## n. ..", its rule n.m a paragraph that begins "**n.m". The links of README.md and docs/ lead
to files and headings that are there, and what they name between backticks as `crate::name` or as a path is there too;
pages that tell of what was, and of the Rust, may name what is gone.
"""
import glob
import os
import re
import sys

import lib  # which ends a run under -O: the checks' own tests are asserts

ROOT = os.path.dirname(os.path.dirname(os.path.abspath(__file__)))

# "RULES 4", "RULES 4.2", and more of them behind commas, dashes and "and": "RULES 7 and 8", "RULES 10.3, 10.4",
# "RULES 3 to 5"
CITED = re.compile(r"\bRULES((?:(?:,| and| to|-)? ?\d+(?:\.\d+)?)+)")


def sections(text):
    """The sections of the rules, and the numbered paragraphs in them."""
    sections = set(re.findall(r"^## (\d+)\. ", text, re.MULTILINE))
    return sections | set(re.findall(r"^\*\*(\d+\.\d+)[ .*]", text, re.MULTILINE))


def faults(text, known):
    """(line, what) for each fault of a file."""
    found = []
    for at, line in enumerate(text.split("\n"), 1):
        for cited in CITED.findall(line):
            numbers = re.findall(r"\d+(?:\.\d+)?", cited)
            found += [(at, "RULES has no %s" % number) for number in numbers if number not in known]
    return found


def heading_anchors(text):
    """What a link may say behind `#` to come to a heading of a page."""
    heads = [line.lstrip("# ").lower() for line in text.split("\n") if line.startswith("#")]
    return {re.sub(r"[^\w\- ]", "", head).replace(" ", "-") for head in heads}


def link_faults(name, text):
    """(line, what) for each link of a page that leads nowhere."""
    found = []
    for at, line in enumerate(text.split("\n"), 1):
        for path, anchor in re.findall(r"\]\((?!https?:)([^)#]*)(?:#([^)]*))?\)", line):
            target = os.path.join(ROOT, os.path.dirname(name), path) if path else os.path.join(ROOT, name)
            target = os.path.normpath(target)
            if not os.path.exists(target):
                found.append((at, "no file %s" % path))
            elif anchor and anchor not in heading_anchors(open(target, encoding="utf-8").read()):
                found.append((at, "no heading %s#%s" % (path, anchor)))
    return found


# what these pages name may be gone, or be the Rust's
OF_THE_PAST = ("PORT.md", "DESIGN-PASS.md", "design-pass-contracts.md", "DIFFERENCES.md")


def code_of_crates():
    """The text of src/ of each crate."""
    found = {}
    for path in glob.glob(os.path.join(ROOT, "crates", "*", "src", "*.rt")):
        crate = os.path.relpath(path, os.path.join(ROOT, "crates")).split(os.sep)[0]
        with open(path, encoding="utf-8") as source:
            found[crate] = found.get(crate, "") + source.read()
    return found


def is_path(named):
    """Whether a path is there: from the top, in a crate or in each crate, a definition without its ending, or an
    edit."""
    crate, _, edit = named.partition("/")
    tries = [named, "crates/" + named, "crates/%s.antt" % named, "crates/*/" + named, "crates/*/%s.antt" % named,
             "crates/%s/must-fail/%s.edit" % (crate, edit)]
    return any(glob.glob(os.path.join(ROOT, one)) for one in tries)


def name_faults(text, code):
    """(line, what) for each crate::name and each path of a page that is nowhere."""
    found = []
    for at, line in enumerate(text.split("\n"), 1):
        for named in re.findall(r"`([^`]+)`", line):
            call = re.match(r"([a-z_]+)(?:::\w+)*::(\w+)", named)
            if call and call.group(1) in code:
                if not re.search(r"\b(fn|struct|enum|const|mod|trait|type) +%s\b" % call.group(2), code[call.group(1)]):
                    found.append((at, "no %s" % named))
            elif re.match(r"[A-Za-z_.]+/[\w./-]+$", named) and not is_path(named.rstrip("/")):
                found.append((at, "no path %s" % named))
    return found


def self_test(known):
    """A check that finds nothing anywhere shows nothing."""
    good = "-- RULES 4.2 and 4.3: under 16 bytes left (RULES 5), docs/RULES.md\nf = le 4 s 0x01 + 1.01\n"
    assert faults(good, known) == []
    for wrong, line in (
        (good + "-- RULES 99", 3),
        (good + "-- RULES 4.99", 3),
        (good + "-- RULES 4 and 99", 3),
    ):
        assert [at for at, _ in faults(wrong, known)] == [line], wrong
    links = "[a](docs/RULES.md#19-the-table-of-refusals) [b](#x)\n# X\n"
    assert link_faults("README.md", links) == [(1, "no heading #x")]
    links = "[a](RULES.md) [b](../README.md) [c](docs/RULES.md)"
    assert link_faults("docs/A.md", links) == [(1, "no file docs/RULES.md")]
    assert name_faults("`a::b::c` `a::D` `std::x` `docs/RULES.md` `crates/fields`", {"a": "pub fn c() struct D"}) == []
    assert name_faults("`a::gone`\n`docs/GONE.md`", {"a": "fn c"}) == [(1, "no a::gone"), (2, "no path docs/GONE.md")]
    assert faults("// RULES 99\n", known) != []


def main():
    with open(os.path.join(ROOT, "docs", "RULES.md"), encoding="utf-8") as page:
        known = sections(page.read())
    self_test(known)
    bad, cited, code = [], 0, code_of_crates()
    for path in [os.path.join(ROOT, "README.md")] + sorted(glob.glob(os.path.join(ROOT, "docs", "*.md"))):
        name = os.path.relpath(path, ROOT)
        with open(path, encoding="utf-8") as page:
            text = page.read()
        found = faults(text, known) + link_faults(name, text)
        found += [] if os.path.basename(path) in OF_THE_PAST else name_faults(text, code)
        bad += ["%s:%d: %s" % (name, at, what) for at, what in found]
    for path in sorted(glob.glob(os.path.join(ROOT, "crates", "**", "*"), recursive=True)):
        name = os.path.relpath(path, ROOT)
        if os.path.splitext(path)[1] not in (".rt", ".antt", ".edit") or os.sep + "out" + os.sep in path:
            continue
        with open(path, encoding="utf-8") as source:
            text = source.read()
        cited += len(CITED.findall(text))
        bad += ["%s:%d: %s" % (name, at, what) for at, what in faults(text, known)]
    if bad:
        sys.exit("citations: %d faults\n%s" % (len(bad), "\n".join(bad)))
    print("citations: %d citations of docs/RULES.md, each of a section that is there" % cited)


if __name__ == "__main__":
    main()
