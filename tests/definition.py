"""What must be believed is what docs/DEFINITION.md says, and no more than it says.

The page puts each file of crates/*/specs into one class: the definition of the rules, what calls hand out, laws, the
theorem, or proofs alone. By name this computes which definitions the contracts of public calls reach, and which those
of laws: from the words of their `ensures` and of ghost fields, by the `ghost use` lines, through the bodies of
definitions and their `use` lines. Faults are a definition of the rules, or of what calls hand out, that no call
reaches; a law or a part of the theorem that no contract reaches; a definition for proofs alone that a contract reaches;
more lines of rules than MOST; a file in no class, or in two; and a paragraph of docs/RULES.md that no row of the page
names. A word counts wherever it stands, so a variable spelled like a definition may count as one.
"""
import collections
import glob
import os
import re
import sys

import lib  # which ends a run under -O: the checks' own tests are asserts
import public

ROOT = public.ROOT

# the most lines of the rules' definition, without imports, comments and blank lines
MOST = 1222

# the heads of the page's two tables that name files, and the class of the first one's
RULES = "| rules | what | file | the definitions |"
APART = "| class | file | what it has, and why it is apart |"

# of each class, which contracts must reach its definitions: those of calls, any, or none
CLASSES = {"rules": "calls", "calls": "calls", "laws": "any", "theorem": "any", "proofs": "none"}

SIGNATURE = re.compile(r"^( *)(?:pattern )?(?:unfoldable )?(?:abbrev )?pub (data |record )?([^\s:({]+)(?=[ :({])")
WORD = re.compile(r"[^\s(){}\[\],;.λ→]+")

# a law is the contract of a public function with no parameters and an empty body
LAW = re.compile(r"^pub fn (\w+)(?:<\w+>)?\(\)\n(?: +[^\n]*\n)*\{\}", re.MULTILINE)

# a definition: the words of its text, and the constructors that a data type brings
Definition = collections.namedtuple("Definition", "words constructors")


def lines_of(text):
    """The lines that are no import, comment or blank line, and the imports, each a path and its names or None."""
    body, imports, held = [], [], ""
    for line in text.split("\n"):
        line = line.rstrip()
        if held or re.match(r"(pub |unfoldable pub )?(use|mod) ", line):
            held += " " + line.strip()
            if "{" in held and "}" not in held:
                continue
            if " mod " not in " " + held.split("{")[0]:
                imports.append(held)
            held = ""
        elif line.strip() and not line.strip().startswith("--"):
            body.append(line)
    return body, imports


def imported(imports):
    """{name: (crate, file, its name there)} of single names, and {alias: (crate, file)} of whole files."""
    names, files = {}, {}
    for line in imports:
        path = re.search(r"use Rattle\.(\w+)\.specs\.([\w.]+?)(?:\.\{(.*)\}| as (\w+))?$", line.strip())
        if not path or path.group(2).startswith("declared"):
            continue
        crate, file, inside, alias = path.groups()
        for name in (inside or "").split(","):
            old, _, new = name.strip().partition(" as ")
            if old:
                names[new.strip() or old] = (crate, file, old)
        if inside is None:
            files[alias or file.split(".")[-1]] = (crate, file)
    return names, files


def definitions(body):
    """{name: Definition} of a file's lines. A definition ends where the next begins, or a section."""
    found, name, kind = {}, None, ""
    for line in body:
        start = SIGNATURE.match(line)
        # a field of a record stands deeper than its head, and is no definition
        if start and not (kind == "record " and len(start.group(1)) > depth):
            name, kind, depth = start.group(3), start.group(2) or "", len(start.group(1))
            found[name] = Definition([], set())
        elif re.match(r" *(module|infix)", line):
            name, kind = None, ""
        if name:
            found[name].words.extend(re.findall(r"[\w.◌⟫'-]+|[^\s\w]", line))
            if kind == "data " and not start and re.match(r"\s+[\w ]+ : ", line):
                found[name].constructors.update(line.split(" : ")[0].split())
    return found


class Specs:
    """The definitions of all files, with what each names."""

    def __init__(self, texts):
        self.files, self.names, self.aliases, self.counts = {}, {}, {}, {}
        for (crate, file), text in texts.items():
            body, imports = lines_of(text)
            self.counts[crate, file] = len(body)
            self.files[crate, file] = definitions(body)
            self.names[crate, file], self.aliases[crate, file] = imported(imports)

    def home(self, crate, file, name, seen=()):
        """Where a name that is asked of a file is defined: there, as a constructor there, or where a `pub use` has
        it."""
        known = self.files.get((crate, file), {})
        if name in known:
            return {(crate, file, name)}
        owners = {(crate, file, owner) for owner, one in known.items() if name in one.constructors}
        if owners or (crate, file, name) in seen:
            return owners
        further = self.names.get((crate, file), {}).get(name)
        return self.home(*further, seen + ((crate, file, name),)) if further else set()

    def named_by(self, crate, file, words):
        """The definitions that words mean in a file."""
        found = set()
        for word in words:
            # r.field and file.name: a name before a dot may be a file's alias
            first, _, rest = word.partition(".")
            if first in self.aliases[crate, file] and rest:
                found |= self.home(*self.aliases[crate, file][first], rest.split(".")[0])
            for part in {word, first}:
                found |= self.home(crate, file, part)
                if "⟫" in part:
                    found |= self.home(crate, file, "◌⟫◌")
        return found

    def closure(self, start):
        """All definitions that these reach."""
        found, rest = set(), set(start)
        while rest:
            crate, file, name = rest.pop()
            found.add((crate, file, name))
            rest |= self.named_by(crate, file, self.files[crate, file][name].words) - found
        return found


def ghosts(text):
    """The words of ghost fields and of ghost members of impls, which are part of what a type promises."""
    words, found, at = list(public.tokens(text)), set(), 0
    while at < len(words):
        if words[at] == "ghost" and at + 2 < len(words) and words[at + 2] in (":", "="):
            start = words.index("{", at)
            at = public.after_brackets(words, start, "{", "}")
            found.update(words[start:at])
        at += 1
    return found


def cited(sources):
    """{crate: {name: {(crate, file)}}}: which files the `ghost use` lines of a crate's code bring a name from."""
    found = {}
    for (crate, _), text in sources.items():
        names = found.setdefault(crate, {})
        for owner, file, inside in re.findall(r"ghost use Rattle\.(\w+)\.specs\.([\w.]+)\.\{([^}]*)\}", text):
            for name in inside.split(","):
                old, _, new = name.strip().partition(" as ")
                names.setdefault(new or old, set()).add((owner, file, old))
    return found


def reached(specs, sources, calls, laws):
    """The definitions that contracts of calls reach, and those that any public contract reaches."""
    names = cited(sources)
    roots = {"calls": set(), "any": set()}
    says = [(name.split("::")[0], contract.says or (), name in laws) for name, contract in calls.items()]
    programs = {crate for crate, file in sources if file == "main"}
    for (crate, _), text in sources.items():
        says.append((crate, ghosts(text), False))
        if crate in programs:
            # a program hands nothing on, so what its functions promise each other is what it promises
            clauses = re.findall(r"ensures[^{]*\{(.*?)\}\n", text, re.DOTALL)
            says.append((crate, {word for clause in clauses for word in WORD.findall(clause)}, False))
    for crate, words, is_law in says:
        for word in words:
            for owner, file, name in names.get(crate, {}).get(word, ()):
                homes = specs.home(owner, file, name)
                roots["any"] |= homes
                roots["calls"] |= set() if is_law else homes
    return {kind: specs.closure(start) for kind, start in roots.items()}


def table(page, head):
    """The cells of each row of a table of the page."""
    lines = page.split("\n")
    for line in lines[lines.index(head) + 2:]:
        if not line.startswith("|"):
            return
        yield [cell.strip() for cell in line.strip().strip("|").split(" | ")]


def classes(page):
    """{(crate, file): [class, ..]} as the page's two tables say."""
    found = {}
    for cells in table(page, RULES):
        for crate, file in re.findall(r"\]\(\.\./crates/(\w+)/specs/(\w+)\.antt\)", cells[2]):
            found.setdefault((crate, file), set()).add("rules")
    for cells in table(page, APART):
        for crate, file in re.findall(r"\]\(\.\./crates/(\w+)/specs/(\w+)\.antt\)", cells[1]):
            found.setdefault((crate, file), set()).add(cells[0])
    return found


def numbers_in(cell):
    """The rules that a cell names: 4 stands for 4.1, 4.2 and so on, "2.1 to 2.4" for all from the one to the other."""
    found = set()
    for section, first, last in re.findall(r"(\d+)(?:\.(\d+)(?: to \d+\.(\d+))?)?", cell):
        found.update("%s.%d" % (section, part) for part in range(int(first or 1), int(last or first or 99) + 1))
    return found


def paragraphs(rules):
    """The numbered paragraphs of the rules whose definition is to be found; section 19 is a table of the others'
    refusals."""
    numbers = re.findall(r"^\*\*(\d+\.\d+)[ .*]", rules, re.MULTILINE)
    return [number for number in numbers if not number.startswith("19.")]


def untold(page, rules):
    """Which paragraphs of the rules no row of the page names, in its first table or as "rules .." in its second."""
    named = set().union(*(numbers_in(cells[0]) for cells in table(page, RULES)))
    for cells in table(page, APART):
        for cell in re.findall(r"rules ([\d., andto]*\d)", cells[2]):
            named |= numbers_in(cell)
    return ["rule %s is in no row" % number for number in paragraphs(rules) if number not in named]


def faults(page, texts, sources, calls, laws, most=MOST):
    """What is wrong, and the count of lines of each class."""
    specs, named, found = Specs(texts), classes(page), []
    seen = reached(specs, sources, calls, laws)
    counts = collections.Counter()
    for (crate, file), known in sorted(specs.files.items()):
        if not specs.counts[crate, file]:
            continue
        own = named.get((crate, file), set())
        if len(own) != 1 or not own <= set(CLASSES):
            found.append("%s/%s is in %s" % (crate, file, " and ".join(sorted(own)) if own else "no class"))
            continue
        kind = own.pop()
        counts[kind] += specs.counts[crate, file]
        for name in known:
            one = (crate, file, name)
            if CLASSES[kind] != "none" and one not in seen[CLASSES[kind]]:
                found.append("%s of %s/%s, which is in class %s, is reached by no contract of %s" % (
                    name, crate, file, kind, "a call" if CLASSES[kind] == "calls" else "a call or a law"))
            if CLASSES[kind] == "none" and one in seen["any"]:
                found.append("%s of %s/%s is for proofs alone, and a public contract reaches it" % (name, crate, file))
    found += ["%s/%s is in a class, and is not there" % one for one in sorted(set(named) - set(specs.files))]
    if counts["rules"] > most:
        found.append("the rules take %d lines, more than %d" % (counts["rules"], most))
    return found, counts


def texts_of(*pattern):
    """{(crate, name without its ending): text} of the files that a pattern below crates/ finds."""
    found = {}
    for path in sorted(glob.glob(os.path.join(ROOT, "crates", *pattern))):
        with open(path, encoding="utf-8") as file:
            found[path.split(os.sep)[-3], os.path.splitext(os.path.basename(path))[0]] = file.read()
    return found


def self_test(page, texts, sources, calls, laws):
    """Each kind of fault, made in what is there, must be found."""
    def after(key, change):
        return {**texts, key: change(texts[key])}

    def found(texts=texts, sources=sources, page=page, most=MOST):
        return faults(page, texts, sources, calls, laws, most)[0]

    open_file, loop, head = ("record", "Open"), ("table", "Loop"), ("table", "Check")
    assert any("lost_of of record/Open" in one for one in found(
        after(open_file, lambda text: text + "\nabbrev pub lost_of : ℕ\nlost_of = 1\n")))
    assert any("good_from of table/Loop is for proofs" in one for one in found(
        after(head, lambda text: text.replace("\n\n", "\nuse Rattle.table.specs.Loop.{good_from}\n\n", 1).replace(
            "table_of t = ", "table_of t = good_from ⟫ "))))
    assert any("more than 3" in one for one in found(most=3))
    assert any("fields/New is in no class" in one for one in found(
        {**texts, ("fields", "New"): "abbrev pub new : ℕ\nnew = 1\n"}))
    link, other = "../crates/table/specs/Check.antt)", "../crates/table/specs/Loop.antt)"
    twice = found(page=page.replace(link, "%s, [b](%s" % (link, other)))
    assert any("table/Loop is in proofs and rules" in one for one in twice)
    assert any("is not there" in one for one in found({key: text for key, text in texts.items() if key != loop}))


def main():
    with open(os.path.join(ROOT, "docs", "DEFINITION.md"), encoding="utf-8") as file:
        page = file.read()
    texts, sources, calls = texts_of("*", "specs", "*.antt"), texts_of("*", "src", "*.rt"), public.public_calls()
    laws = {"%s::%s%s" % (crate, "laws::" if file == "laws" else "", name)
            for (crate, file), text in sources.items() for name in LAW.findall(text)}
    with open(os.path.join(ROOT, "docs", "RULES.md"), encoding="utf-8") as file:
        rules = file.read()
    found, counts = faults(page, texts, sources, calls, laws)
    found += untold(page, rules)
    if found:
        sys.exit("definition: %d faults\n%s" % (len(found), "\n".join(found)))
    self_test(page, texts, sources, calls, laws)
    assert untold(page, rules + "\n**4.99 More.** ..\n**99.1** ..\n") == ["rule 99.1 is in no row"]
    fewer = page.replace("| 6 | names", "| 6.1 | names")
    assert untold(fewer, rules) == ["rule 6.%d is in no row" % part for part in (2, 3, 5)]
    print("definition: %d lines of rules to believe, of at most %d; apart %s" % (
        counts["rules"], MOST, ", ".join("%d of %s" % (counts[kind], kind) for kind in CLASSES if kind != "rules")))


if __name__ == "__main__":
    main()
