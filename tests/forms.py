"""Each form that docs/ARCHITECTURE.md names under "Where each form stands" is in the code, where the page says.

A form is found by patterns over the text of a function or type, so that a rewriting that drops one is noticed: that the
walk became one flat loop, say, or that a lookup hands out an index.
"""
import os
import re
import sys

import lib  # which ends a run under -O: the checks' own tests are asserts

ROOT = os.path.dirname(os.path.dirname(os.path.abspath(__file__)))


def source(path):
    with open(os.path.join(ROOT, path), encoding="utf-8") as file:
        return file.read()


def item(text, head):
    """The function or type whose head is told, to the brace that ends it, without its comments; empty where there is
    none."""
    start = re.search(head, text)
    if not start:
        return ""
    # a function's body begins at a brace alone on its line, behind its contract; a type's behind its head
    begin = re.compile(r"^ *\{$" if "fn " in start.group() else r"\{", re.MULTILINE).search(text, start.end() - 1)
    depth = 0
    for end in range(begin.end() - 1 if begin else len(text), len(text)):
        depth += (text[end] == "{") - (text[end] == "}")
        if depth == 0:
            return re.sub(r"//[^\n]*", "", text[start.start():end + 1])
    return ""


def layers(text):
    """Each crate of crates.txt with those that it is proved from."""
    found = {}
    for line in text.split("\n"):
        name, colon, over = line.split("#")[0].partition(":")
        if colon:
            found[name.split()[0]] = set(over.split())
    return found


# what the page says, the file, the head of the function or type, and what has to stand in it, one behind the other
FORMS = [
    (
        "a record number is a tuple struct over u64", "crates/fields/src/lib.rt",
        r"pub struct RecordNumber\(pub u64\);", None),
    ("a VCN is a tuple struct over u64", "crates/fields/src/lib.rt", r"pub struct Vcn\(pub u64\);", None),
    (
        "an entry names both", "crates/list/src/lib.rt", r"pub struct Entry \{",
        [r"lowest: Vcn,", r"file: RecordNumber,"]),
    ("a part names both", "crates/parts/src/lib.rt", r"pub struct Part \{", [r"file: RecordNumber,", r"lowest: Vcn,"]),
    ("an entry loop inside the raw loop, left by label", "crates/items/src/walk.rt", r"fn next_inside\(",
     [
         r"'raw: loop \{", r"'entries: while let Some\(\w+\) = at\.list \{", r"list::named\(", r"break 'raw Err\(",
         r"continue 'entries;",
      r"break 'raw Ok\(Some\(Item \{", r"self\.base\.step\(at\.raw\)", r"Ok\(None\) => break 'raw Ok\(None\)"]),
    ("the list step is handed the rest of the list", "crates/list/src/lib.rt", r"pub fn header\(rest: &\[u8\],",
     [r"entry_of rest\.now ", r"let left = rest\.len\(\);"]),
    (
        "the walk hands it", "crates/items/src/walk.rt", r"fn next_inside\(",
        [r"&self\.base\.bytes\[list\.from\.\.list\.to\]", r"list::named\(rest,"]),
    (
        "the parts hand it", "crates/parts/src/lib.rt", r"fn fill_inside\(",
        [r"&file\.base\.bytes\[at\.from\.\.at\.to\]", r"list::named\(rest,"]),
    ("a lookup borrows a slice from one of two lent ones, its view stated", "crates/items/src/lib.rt",
     r"fn held\(&self, wanted: RecordNumber\) -> Option<&'a \[u8\]>",
     [
         r"option_copied result ≡ of_file held_by self\.now wanted", r"if wanted == self\.base\.number",
         r"self\.base\.bytes", r"self\.table\.get\(wanted\)"]),
    (
        "a record is looked up by the search", "crates/table/src/lib.rt", r"pub fn get\(&self, wanted: RecordNumber\)",
        [
            r"\{\s+(//.*\s+)?let row = Directory::of\(self\)\.find::<Brand>\(wanted, Blank::new\(1\)\)\?;"
            r"\s+Some\(self\.record\(row\)\)\s+\}"]),
    (
        "it is the search whose looks are counted", "crates/table/src/search.rt", r"fn find<L: Ledger>\(",
        [r"\n *self\.search\(wanted, &mut Looks::<L>::none\(blank\)\)\n"]),
    (
        "the search halves, and sees rows by looks", "crates/table/src/search.rt", r"fn search<L: Ledger>\(",
        [
            r"first_row self\.now\.table\.bytes\.now", r"FewLooks self\.now\.table\.header\.count ",
            # its whole body: no second count is begun
            r"\{\s+let mut from: usize = 0;\s+let mut to = self\.count\(\);\s+'search: while from < to \{"
            r"\s+let i = from \+ \(to - from\) / 2;\s+let row = self\.look\(i, looks\);"
            r"\s+match row\.number\.cmp\(&wanted\) \{[^{}]*\}\s+\}\s+None\s+\}"]),
    (
        "a directory shows no table", "crates/table/src/look.rt", r"struct Directory<'a>",
        [r"\{\n    table: Table<'a>,\n\}"]),
    (
        "a look counts one", "crates/table/src/look.rt", r"fn look<L: Ledger>\(",
        [r"looks\.new ≡ looks\.old \+ 1", r"looks\.add_one\(\);", r"self\.table\.row\(i\)"]),
    (
        "the count has no bytes", "crates/table/src/look.rt",
        r"const _: \(\) = prove!\(size_of::<Looks<Brand>>\(\) == 0\);", None),
    (
        "one is added in the ledger", "crates/table/src/look.rt", r"fn add_one\(&mut self\)",
        [r"self\.book\.add\(&mut self\.share, 1\);"]),
    (
        "a name is cut out of the list at its own offset", "crates/list/src/lib.rt", r"fn name_bytes<'a>\(",
        [r"result\.now ≡ name_at rest\.now ", r"&rest\[usize::from\(e\.name_offset\)\.\."]),
    ("who wants a name has it from there", "crates/list/src/lib.rt", r"pub fn named<'a>\(", [r"name_bytes\(rest, &"]),
    ("a name in 510 bytes", "crates/list/src/lib.rt", r"pub const MOST_NAME: usize = 510;", None),
    (
        "its first bytes are filled, the rest is proved zero", "crates/list/src/named_entry.rt", r"fn padded\(&self\)",
        [r"result ≡ padded self\.now\.name\.now", r"\[0; MOST_NAME\]", r"\]\.copy_from_slice\(self\.name\)"]),
    (
        "the rest is zeros", "crates/list/specs/Named.antt",
        r"\npadded name = name \+\+ replicate \(most_name - length name\) 0", None),
    (
        "a key says what continues its stream", "crates/items/src/key.rt",
        r"pub fn is_continued_by\(&self, e: &NamedEntry\)",
        [r"result ≡ continues self\.now ", r"e\.entry\.ty == self\.ty", r"e\.entry\.lowest != Vcn\(0\)",
         r"e\.name == &self\.name\["]),
    (
        "the walk asks it", "crates/items/src/walk.rt", r"fn skips\(&self, e: &NamedEntry\)",
        [r"key\.is_continued_by\(e\)"]),
    ("the parts ask it", "crates/parts/src/lib.rt", r"fn fill_inside\(", [r"key\.is_continued_by\(&named\)"]),
    ("FILE is a fixed byte string", "crates/record/src/lib.rt", r"const SIGNATURE: &\[u8; 4\] = b\"FILE\";", None),
    (
        "a record's first bytes are compared with it", "crates/record/src/lib.rt", r"pub fn is_file\(",
        [r"starts_with\(SIGNATURE\)"]),
    (
        "a reader is a record and a place", "crates/record/src/reader.rt", r"pub struct Reader<'a> \{",
        [r"within: Record<'a>,", r"at: usize,"]),
    (
        "it takes by the raw step", "crates/record/src/reader.rt", r"pub fn take\(&mut self\)",
        [r"self\.within\.step\(self\.at\)"]),
    ("parts go one by one into a lent slice of structs", "crates/parts/src/lib.rt", r"fn fill_inside\(",
     [
         r"list: &mut \[Part\]", r"filled list\.new result ≡ told_parts list\.old", r"list\[count\] = next;",
         r"count \+= 1;"]),
    (
        "the tail is unchanged", "crates/parts/specs/Filled.antt",
        r"\nput xs k \(g ∷ gs\) = put \(slice_set xs k g\.part\) \(k \+ 1\) gs\n", None),
    (
        "the rows of two tables are compared by their numbers", "crates/merge/src/lib.rt", r"fn by_number\(",
        [r"result ≡ nat_cmp ", r"ours\.0\.number\.cmp\(&theirs\.0\.number\)"]),
    (
        "two directories side by side, and what both have compared once", "crates/merge/src/lib.rt",
        r"fn judge\(&self\)",
        [r"result ≡ judged_of self\.now", r"self\.first\.rows\(\)",
         r"\.merge_join_by\(self\.second\.rows\(\), by_number\)", r"EitherOrBoth::Both\(", r"if record != other"]),
    (
        "the same walk writes", "crates/merge/src/lib.rt", r"fn fill\(&self,",
        [r"table\.new ≡ table_of_merge ", r"self\.first\.rows\(\)",
         r"\.merge_join_by\(self\.second\.rows\(\), by_number\)"]),
    (
        "no byte is written before all refusals are known", "crates/merge/src/lib.rt", r"pub fn write\(&self, table",
        [r"self\.judge\(\)", r"Shape::of\(", r"\.check_room\(", r"self\.fill\("]),
]

# which crate must be proved from which: each layer through what the one below it promises
ABOVE = [
    ("list", "fields"), ("record", "fields"), ("items", "record"), ("items", "list"), ("items", "table"),
    ("parts", "items"), ("lines", "parts"), ("listing", "lines"), ("written", "table"), ("merge", "written")]


def missing(read):
    """What is not there; `read` gives a file's text."""
    found = []
    for what, path, head, inside in FORMS:
        text = read(path)
        if inside is None:
            if not re.search(head, text):
                found.append("%s: no %s in %s" % (what, head, path))
            continue
        rest = item(text, head)
        if not rest:
            found.append("%s: no %s in %s" % (what, head, path))
        for part in inside:
            there = re.search(part, rest)
            if not there:
                found.append("%s: no %s, or too early, in %s of %s" % (what, part, head, path))
                break
            rest = rest[there.end():]
    over = layers(read("crates.txt"))
    for upper, lower in ABOVE:
        if lower not in over.get(upper, ()) or upper in over.get(lower, ()):
            found.append("%s is not proved from %s in crates.txt" % (upper, lower))
    return found


def self_test():
    """A search that finds everything everywhere shows nothing: each form is missed where one of its marks is gone."""
    texts = {path: source(path) for path in {path for _, path, _, _ in FORMS} | {"crates.txt"}}
    for what, path, head, inside in FORMS:
        for mark in [head] + (inside or []):
            without = dict(texts, **{path: re.sub(mark, "\n", texts[path])})
            assert missing(without.get), "%s is found without %s" % (what, mark)


def main():
    found = missing(source)
    for fault in found:
        print("forms: %s" % fault)
    if found:
        return 1
    self_test()
    print("forms: %d forms, %d layers; each is missed where it is gone" % (len(FORMS), len(ABOVE)))
    return 0


if __name__ == "__main__":
    sys.exit(main())
