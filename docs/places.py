#!/usr/bin/env python3
"""Counts the places that docs/DESIGN-PASS.md is about: places of an older form in crates/*/src.

    docs/places.py TREE            every place: point, crate, file, line (function or type), and the pattern that
                                   found it
    docs/places.py --count TREE    the counts alone

TREE is a commit or a folder with crates/ in it. A place is a function or a type; one in which a form stands twice is
one place of its point. A pattern finds what looks like the form; the page says which of these are none, and which
others were found by reading. Point 8 counts in proofs/."""
import collections
import io
import itertools
import os
import re
import subprocess
import sys
import tarfile

# A pattern: point, name, which items it looks at (fn, struct, enum), where in them (head, clauses, body, all), and the
# form.
PATTERNS = [
    (1, "enum of the shape of Option", "enum", "shape", r"^(0 1|1 0)$"),
    (1, "enum of the shape of Result", "enum", "shape", r"^1 1$"),
    (1, "enum over a Result, of the shape of an Option or Result", "enum", "body", r"\((Option|Result)<"),
    (1, "flag with a value beside it", "struct", "body", r"\b\w+: bool\b"),
    (1, "flag handed in beside values", "fn", "head", r"\b\w+: bool\b"),
    (1, "refusal as a number", "struct", "body", r"\bnumber: u8\b"),
    (1, "refusal as a number", "enum", "body", r"\(u8\)"),
    (1, "refusal as a number", "fn", "head", r"\bn: u8\b"),
    (1, "refusal as a number", "fn", "body",
     r"\b(number: \d+|no_\w+\(\d+)|\br\.number (as|\|)|\(r\.number\)|_line\(out, at, (r\.number|n)|refused\", \d+\)"),
    (1, "kind as a number", "struct", "body", r"\bkind: u8\b"),
    (1, "kind as a number", "fn", "body", r"\bmatch \w+\.kind \{\n\s*0 =>|\bkind: \w+\[\d+\]"),
    (1, "type as a number", "fn", "body", r"0xFFFF_FFFF|\bty == 0x|\bty % 0x|\bty\) == 0x"),
    (1, "empty slice for a refusal", "fn", "body", r"Err\(_\) => &|\[0\.\.0\]|=> &\[\]"),
    (1, "zeros for none", "fn", "body", r"_ => \[0u8; \d+\]"),
    (1, "zeros for none", "struct", "body", r"answer: [^\n]*\n\s*(pub )?name: \[u8; \d+\]"),
    (3, "loop with a place or a count of its own", "fn", "body", r"\bloop \{|\bwhile (?!let Some\()"),
    (3, "for over indices", "fn", "body", r"\bfor \w+ in 0\.\.(?!turns|most)"),
    (4, "equality or order of the inner number", "fn", "body", r"\.0 (==|!=|<|<=|>|>=) \w+(\.\w+)*\.0|\.0 (==|<) "),
    (4, "equality of a type and an instance", "fn", "body", r"\.instance (==|!=) \w+(\.instance)?"),
    (4, "order of the inner number", "fn", "body", r"<= number\b|\.0 \+ 1"),
    (4, "equality with a blank", "fn", "body", r"\| \w+ as u64 == 0"),
    (4, "a default by hand", "fn", "body",
     r"^\s*\w+ \{\n(\s*\w+: (false|0|\w+\(0\)|\w+ \{ from: 0, bytes: 0 \}),?\n)+\s*\}\s*$"),
    (4, "a number from bytes by arithmetic", "fn", "body", r"0x1?_?0*100?(_0000)* \* \w+|\+ 0x1\w* \*"),
    (4, "a conversion by a function", "fn", "head", r"^(pub )?fn (wide\w*|stage_of|list_of|state_of)\((x|o|q|self): "),
    (4, "a conversion by fields", "fn", "body", r"to: p\.from \+ p\.bytes|end: l\.end,\n\s*more: l\.more"),
    (4, "fields put into an array of numbers", "fn", "body",
     r"\[\n?\s*\w+(\.\w+)+( as u64)?,[^\]]*\.\w+( as u64)?,?\s*\]"),
    (4, "digits by hand", "fn", "body", r"b'0' \+|/ 10\b|% 10\b|/ 100\b"),
    (4, "printing by hand", "fn", "head", r"\b(fn (put|tell|say)_?\w*|fn \w+_line)\b[\s\S]*\bout: &mut"),
    (6, "array with a count beside it", "struct", "body",
     r"\[\w+; \d+\],(\n[^\n]*)*\bcount: usize|count: usize(\n[^\n]*)*\[\w+; \d+\]"),
    (6, "a count beside a lent list", "struct", "body", r"\bcount: usize\b|\bend: usize\b"),
    (6, "a fixed array beside the answer that tells its length", "struct", "body",
     r"answer: [^\n]*\n\s*(pub )?name: \[u8; \d+\]"),
    (6, "a lent buffer and its end", "fn", "head", r"\bout: &(\'\w+ )?mut \[u8\],\s*\w+: usize"),
    (6, "a lent buffer that is filled", "fn", "head", r"\b(out|space): &(\'\w+ )?mut \[u8\][,)]"),
    (6, "records as rows of plain numbers", "fn", "head", r"\bnumbers: &(\'\w+ )?(mut )?\[u64\]"),
    (6, "a local array with a count beside it", "fn", "body", r"= \[\w[^;\[\]]*; \d+\]"),
    (6, "a count by hand", "fn", "body", r"\bcount \+= 1"),
    (6, "a search by halves", "fn", "body", r"\(to - from\) / 2|\(\w+ - \w+\) / 2"),
    (6, "an index for a record", "enum", "body", r"\(usize\)"),
    (6, "an index for a record", "fn", "head", r"-> Option<usize>|\bi: usize\b"),
    (7, "a switch on the step", "fn", "body", r"\bmatch \w+(\.\w+)*\.(stage|kind) \{"),
    (7, "a switch on the step", "fn", "body", r"\bif \w+\.list\.is \{\n\s*return \w+\(|\bm\.shown < m\.count"),
    (7, "a switch on the step", "fn", "head", r"\b\w+: bool\b"),
    (7, "the names of steps", "enum", "shape", r"^(0 1|1 0|0 0 .*)$"),
    (7, "a function pointer or a dyn value", "fn", "all", r"\bfn\(|\bdyn \w"),
]
TYPE_WORDS = {"u8", "u16", "u32", "u64", "usize", "bool", "str", "mut", "pub", "fn", "let", "match", "if", "else",
              "return", "loop", "for", "in", "while", "break", "as", "Ok", "Err", "Some", "None", "Result", "Option",
              "self", "Self", "impl"}
# A function or a type begins here: how deep, what stands before its kind, its kind and its name.
BEGINS = r"^(\s*)((?:pub(?:\(\w+\))? )?(?:const )?(?:unsafe )?(?:extern \"C\" )?)(fn|struct|enum) (\w+)"
# What a clause on what is handed in says, and what is handed in: its name and its type.
REQUIRED = r"requires (?:\w+ )?\{([\s\S]*?)\}\s*(?=\n\s*(?:requires|ensures|decreases)|$)"
HANDED_IN = (r"[(,] ?(?:mut )?(\w+): "
             r"((?:&(?:'\w+ )?(?:mut )?)?[\w:]+(?:<[^>]*>)?|&(?:'\w+ )?(?:mut )?\[\w+\])")
# The files of proofs by hand that are no lemmas.
BY_HAND = {"Answers.antt": "answers", "Invariants.antt": "invariants"}


class Item:
    def __init__(self, crate, file, line, kind, name, depth, head, clauses, body):
        self.crate, self.file, self.line, self.kind, self.name, self.depth = crate, file, line, kind, name, depth
        self.head, self.clauses, self.body = head, clauses, body
        self.all = "\n".join([head, clauses, body])
        self.shape = ""
        if kind == "enum":
            inner = body[body.find("{") + 1:body.rfind("}")]
            inner = re.sub(r"#\[[^\n]*\n|//[^\n]*", "", inner)
            counts, depth, cut = [], 0, ""
            for c in inner + ",":
                depth += c in "(<{["
                depth -= c in ")>}]"
                if c == "," and depth == 0:
                    if cut.strip():
                        counts.append("1" if re.search(r"[({]", cut) else "0")
                    cut = ""
                else:
                    cut += c
            self.shape = " ".join(counts)

    def where(self):
        return f"{self.crate} {self.file}:{self.line} ({self.name})"


def files_of(tree):
    """Each file under crates/ of a commit or a folder: its path and text."""
    if os.path.isdir(tree):
        for here, folders, names in os.walk(os.path.join(tree, "crates")):
            folders[:] = sorted(f for f in folders if f not in ("target", "out"))
            for name in sorted(names):
                if name.endswith((".rt", ".antt")):
                    path = os.path.join(here, name)
                    with open(path, encoding="utf-8") as f:
                        yield os.path.relpath(path, tree), f.read()
        return
    packed = subprocess.run(["git", "archive", tree, "crates"], check=True, stdout=subprocess.PIPE).stdout
    with tarfile.open(fileobj=io.BytesIO(packed)) as tar:
        for member in sorted(tar.getmembers(), key=lambda m: m.name):
            if member.name.endswith((".rt", ".antt")) and member.isfile():
                yield member.name, tar.extractfile(member).read().decode("utf-8")


def last_line(lines, start, indent, kind):
    """The last line of the function or type that begins at a line."""
    if kind != "fn" and lines[start].rstrip().endswith(";"):
        return start
    end = start
    while end + 1 < len(lines):
        if end > start and re.match("^" + indent + r"(\}|\{\})$", lines[end]):
            break
        if end == start and re.search(r"\{.*\}$", lines[end]):
            break
        if kind == "fn" and lines[end].rstrip().endswith(";") and "{" not in "".join(lines[start:end + 1]):
            break
        end += 1
    return end


def parts_of(lines, indent):
    """The lines of a function without comments: those of its head, of its clauses and of its body."""
    head, clauses, body, state = [], [], [], "head"
    for line in lines:
        code = line.split("//")[0].rstrip()
        if state != "body" and re.match(r"^\s*(requires|ensures|decreases|where)\b", line):
            state = "clauses" if not line.strip().startswith("where") else state
        if state != "body" and (re.match("^" + indent + r"\{", line) or (state == "head" and code.endswith("{"))):
            if state == "head" and not re.match("^" + indent + r"\{", line):
                head.append(code[:-1])
            state = "body"
            continue
        {"head": head, "clauses": clauses, "body": body}[state].append(code)
    head[:1] = [line.strip() for line in head[:1]]
    if body and body[-1].strip() == "}":
        body.pop()
    return head, clauses, body


def items_of(path, text):
    """The functions and types of a file, laid out as `rt fmt` lays them out."""
    crate, file = path.split("/")[1], "/".join(path.split("/")[2:])
    lines = text.split("\n")
    i = 0
    while i < len(lines):
        m = re.match(BEGINS, lines[i])
        if not m:
            i += 1
            continue
        indent, kind, name = m.group(1), m.group(3), m.group(4)
        end = last_line(lines, i, indent, kind)
        taken = lines[i:end + 1]
        # a type is all body
        parts = parts_of(taken, indent) if kind == "fn" else ([], [], [line.split("//")[0].rstrip() for line in taken])
        yield Item(crate, file, i + 1, kind, name, len(indent), *map("\n".join, parts))
        # Functions nested in an impl block stand at a deeper indent, so only what was taken is passed over.
        i = end + 1


def by_pattern(items):
    found = collections.defaultdict(lambda: collections.OrderedDict())
    for point, name, kind, part, form in PATTERNS:
        for item in items:
            if item.kind == kind and re.search(form, getattr(item, part), re.M):
                found[point].setdefault(item.where(), []).append(name)
    return found


def bare(text):
    """What is left of a text when names, numbers and words in quotes don't count."""
    text = re.sub(r"b?\"[^\"]*\"|b?'[^']'", " Q ", text)
    text = re.sub(r"'\w+", " ", text)
    words = re.findall(r"[A-Za-z_]\w*|0x[\dA-Fa-f_]+|\d[\d_]*|[^\s\w]", text)
    out = []
    for w in words:
        if w in ("pub", "const") or w == ",":
            continue
        if re.match(r"[A-Z]\w*$", w) and w not in TYPE_WORDS:
            out.append("T")
        elif re.match(r"[a-z_]\w*$", w) and w not in TYPE_WORDS:
            out.append("n")
        elif re.match(r"\d|0x", w):
            out.append("1")
        elif w in ("u8", "u16", "u32", "u64", "usize"):
            out.append("u")
        else:
            out.append(w)
    return " ".join(out)


def twins(items):
    """Functions that are the same but for names, types and constants; functions of one name that are no methods; types
    with the same fields."""
    groups = collections.defaultdict(list)
    for item in items:
        if item.kind == "fn":
            # methods of one name are told apart by their type
            if item.depth == 0 and item.name != "main":
                groups[("one name", item.name)].append(item)
            same = bare(item.head.split("fn ", 1)[-1]) + " { " + bare(item.body)
            if len(same.split()) >= 14:
                groups[("one shape", same)].append(item)
            flow = bare(item.body)
            if len(flow.split()) >= 24:
                groups[("one body", flow)].append(item)
            for loop in re.findall(r"(?m)^(\s*)(?:let \w+ = )?(?:'\w+: )?loop \{\n([\s\S]*?)^\1\}", item.body):
                kept = re.sub(r"\{\s*n+ \( [^;]*; ", "{ ", bare(loop[1]))
                groups[("one loop", " ".join(kept.split()[:24]))].append(item)
        elif item.kind == "struct":
            fields = re.findall(r"(?m)^\s*(?:pub )?(\w+): ", item.body)
            kept = tuple(f for f in fields if f in ("answer", "reads", "left", "next", "kind", "count", "end", "more"))
            if len(kept) >= 2:
                groups[("fields", "reads" if "reads" in kept else " ".join(kept))].append(item)
        elif item.kind == "enum" and item.shape in ("0 1", "1 0", "1 1"):
            groups[("enum", item.shape)].append(item)
    places = collections.OrderedDict()
    for (how, _), members in groups.items():
        if len({m.where() for m in members}) > 1:
            for m in members:
                others = ", ".join(
                    o.name if o.crate == m.crate else o.crate + " " + o.name for o in members if o is not m)
                places.setdefault(m.where(), []).append(f"{how}: {others}")
    return places


def facts(items):
    """Clauses on what is handed in that stand in three functions or more, and parameters that travel together in three
    or more."""
    clauses, pairs = collections.defaultdict(list), collections.defaultdict(list)
    for item in items:
        if item.kind != "fn":
            continue
        for clause in re.findall(REQUIRED, item.clauses):
            for fact in clause.split("×"):
                fact = re.sub(r"\b\w+\.list\.", "list.", " ".join(fact.strip(" ()").split()))
                fact = re.sub(r"\b[lc]\.(list\.)?(from|to)\b", r"list.\2", fact).replace(".now", "").replace(".old", "")
                fact = re.sub(r"\b[st]\b", "base", re.sub(r"\b\d+\b", "N", fact))
                fact = re.sub(r"\+ \(?length \w+ \+ N( \* length \w+)?\)?|\+ N( \* length \w+)?", "+ N", fact)
                fact = re.sub(r"Lies .*|list\.from ≤ list\.to|list\.to ≤ .*", "a list lies inside", fact)
                fact = re.sub(r"at < length out", "at + N ≤ length out", fact)
                fact = re.sub(r"Inside .*|h\.offset \+ h\.length ≤ N", "an attribute lies inside", fact)
                clauses[fact].append(item)
        head = re.sub(r"\s+", " ", item.head)
        names = [(n, re.sub(r"'\w+ ", "", t)) for n, t in re.findall(HANDED_IN, head)]
        names = [(n, t) for n, t in names if t not in ("&mut impl", "&mut W", "&mut R")]
        for pair in itertools.combinations(names, 2):
            pairs[pair].append(item)
    places = collections.OrderedDict()
    for fact, members in sorted(clauses.items(), key=lambda c: -len(c[1])):
        if len({m.where() for m in members}) >= 3:
            for m in members:
                places.setdefault(m.where(), []).append("fact: " + fact)
    together = collections.OrderedDict()
    for pair, members in pairs.items():
        if len({m.where() for m in members}) >= 3:
            for m in members:
                together.setdefault(m.where(), collections.OrderedDict()).update((n, 1) for n, _ in pair)
    for where, names in together.items():
        places.setdefault(where, []).append("together: " + " ".join(names))
    return places


def names_of(text):
    """The lemmas that a file states: names with a type, but for the fields of records and data types."""
    names, inside = [], None
    for line in text.split("\n"):
        depth = len(line) - len(line.lstrip())
        if inside is not None and line.strip() and depth <= inside:
            inside = None
        stated = re.match(r"\s*(?:abbrev )?(?:pub )?([^\s:=()]+) :( |$)", line)
        if inside is None and re.match(r"\s*(abbrev )?(pub )?(record|data)\b.*\bwhere", line):
            inside = depth
        elif inside is None and depth <= 2 and stated:
            names.append(stated.group(1))
    return names


def proofs(tree):
    """For each crate: answers and invariants by hand, and lemmas, with their files and lines; how many answers have a
    shape that two others have too, and how many lemmas nothing cites."""
    rows, shapes, lemmas, words = collections.OrderedDict(), collections.defaultdict(list), [], collections.Counter()
    for path, text in tree:
        words.update(set(re.findall(r"[^\s(){}.,;:]+", text)) if not path.endswith("/Lib.antt") else [])
        parts = path.split("/")
        if len(parts) < 4 or parts[2] != "proofs" or not path.endswith(".antt"):
            continue
        row = rows.setdefault(parts[1], collections.Counter())
        kind = BY_HAND.get(parts[-1], "lemmas") if len(parts) > 4 else "lemmas"
        row[kind + " files"] += 1
        row[kind + " lines"] += text.count("\n")
        if kind == "lemmas":
            names = names_of(text)
            row[kind] += len(names)
            for name in names:
                here = re.findall(r"(?<![^\s(){}.,;:])" + re.escape(name) + r"(?![^\s(){}.,;:])", text)
                lemmas.append((parts[1], name, len(here)))
        else:
            goals = re.split(r"(?m)^(?=(?:abbrev )?pub \S+ : goal\.)", text)[1:]
            row[kind] += len(goals)
            if kind == "answers":
                for goal in goals:
                    said = re.split(r"(?m)^[\w-]+(?: \w+)* =", goal)[-1]
                    shapes[" ".join(re.findall(r"(?<![.\w-])[a-z]\w*(?:-\w+)*(?![.\w])", said)[:2])].append(parts[1])
    for crates in shapes.values():
        for crate in crates if len(crates) > 2 else []:
            rows[crate]["alike"] += 1
    for crate, name, here in lemmas:
        # cited in no other file, and in its own only where it is stated and where it is defined
        if words[name] <= 1 and here <= 2:
            rows[crate]["uncited"] += 1
    return rows


def order(where):
    """What places are ordered by: the crate and the file, then the line."""
    return where.split(":")[0], int(re.search(r":(\d+)", where).group(1))


def main():
    args = [a for a in sys.argv[1:] if a != "--count"]
    if len(args) != 1:
        sys.exit(__doc__)
    tree = list(files_of(args[0]))
    sources = [(path, text) for path, text in tree if path.split("/")[2] == "src" and path.endswith(".rt")]
    items = [i for path, text in sources for i in items_of(path, text)]
    found = by_pattern(items)
    found[2], found[5] = twins(items), facts(items)
    if "--count" not in sys.argv:
        for point in sorted(found):
            print(f"\n## {point}\n")
            for where in sorted(found[point], key=order):
                print(f"{where}: {'; '.join(dict.fromkeys(found[point][where]))}")
    rows = proofs(tree)
    print("\n## counts\n")
    print(f"functions {sum(i.kind == 'fn' for i in items)}, types {sum(i.kind != 'fn' for i in items)}")
    for point in (1, 2, 3, 4, 5, 6, 7):
        print(f"point {point}: {len(found[point])}")
    total = sum(rows.values(), collections.Counter())
    for crate, row in list(rows.items()) + [("all", total)]:
        print(f"point 8, {crate}: "
              f"answers {row['answers']} ({row['answers files']} files, {row['answers lines']} lines; "
              f"alike {row['alike']}), "
              f"invariants {row['invariants']} ({row['invariants files']} files, {row['invariants lines']} lines), "
              f"lemmas {row['lemmas']} ({row['lemmas files']} files, {row['lemmas lines']} lines; "
              f"cited nowhere {row['uncited']})")


main()
