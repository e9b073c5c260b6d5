"""A public call asks nothing of its caller: no `requires` on a function that another crate can name, but for those in
ASKS, each with its reason.

Whoever need not prove anything may then make the call with any input. A call that is in ASKS and asks nothing any
more is a fault too. The calls found here are those that tests/promises.py wants a row for in docs/PROMISES.md.
"""
import collections
import glob
import os
import re
import sys

import lib  # which ends a run under -O: the checks' own tests are asserts

ROOT = os.path.dirname(os.path.dirname(os.path.abspath(__file__)))

# the calls that ask something of their callers, and why no type carries it
ASKS = dict.fromkeys(
    ("fields::bytes::u16_at", "fields::bytes::u32_at", "fields::bytes::u48_at", "fields::bytes::u64_at"),
    "a number in bytes that are not there is no number, and a test in each of these would be made again for each field "
    "of a layout",
) | dict.fromkeys(
    ("text::put_byte", "text::put_words", "lines::put_line"),
    "the room in a lent buffer is the caller's to know: a line asks once for all that is put in it",
)

# Comments and literals are taken whole, so that no word in them counts; then labels and lifetimes, words, and single
# signs.
TOKEN = re.compile(
    r"""//[^\n]*|/\*.*?\*/|b?"(?:\\.|[^"\\])*"|b?'(?:\\u\{\w*\}|\\.|[^'\\\n])'|'\w+|\w+|[^\w\s]""", re.DOTALL)


# whether a function has a `requires`, and the words of its `ensures`; of an iterator's `next` these stand in the impl
Contract = collections.namedtuple("Contract", "asks says")


def tokens(text):
    """Each token of the source that is no comment."""
    for found in TOKEN.finditer(text):
        if not found.group().startswith(("//", "/*")):
            yield found.group()


def after_brackets(words, at, opening, closing):
    """The place behind the bracket that closes the one at `at`."""
    depth = 0
    while at < len(words):
        depth += (words[at] == opening) - (words[at] == closing)
        at += 1
        if depth == 0:
            break
    return at


def after_angles(words, at):
    """The place behind the type parameters at `at`, if there are any; `->` closes nothing."""
    if at >= len(words) or words[at] != "<":
        return at
    depth = 0
    while at < len(words):
        depth += (words[at] == "<") - (words[at] == ">" and words[at - 1] != "-")
        at += 1
        if depth == 0:
            break
    return at


def signature(words, at):
    """The contract of the function whose `fn` stands at `at`, and the place of its body or its `;`."""
    at, asks, says = after_angles(words, at + 2), False, set()
    at = after_brackets(words, at, "(", ")")
    while at < len(words) and words[at] not in ("{", ";"):
        if words[at] in ("requires", "ensures"):
            # a clause may have a name before its braces, which hold antt and no code
            end = after_brackets(words, words.index("{", at), "{", "}")
            asks = asks or words[at] == "requires"
            says.update(words[at:end] if words[at] == "ensures" else ())
            at = end
        elif words[at] == "[":
            at = after_brackets(words, at, "[", "]")
        else:
            at += 1
    return Contract(asks, says), at


def is_public(words, at):
    """Whether `pub` stands before the item at `at`, as in `pub fn` or `pub extern "C" fn`, and not `pub(crate)`."""
    before = at - 1
    while before >= 0 and (words[before] in ("extern", "const", "ghost", "unsafe") or words[before].startswith('"')):
        before -= 1
    return before >= 0 and words[before] == "pub"


def impl_of(words, at):
    """The trait, if there is one, the type, and the place of the `{` of the `impl` at `at`."""
    at, trait, name = after_angles(words, at + 1), None, None
    while words[at] not in ("{", "where"):
        if words[at] == "for":
            trait = name
        elif words[at] == "<":
            at = after_angles(words, at)
            continue
        elif re.match(r"[^\W\d]", words[at]):
            name = words[at]
        at += 1
    return trait, name, words.index("{", at)


class Module:
    """What a file of source has, or a `mod name { .. }` in it."""

    def __init__(self):
        self.modules = {}   # name: (whether it is public, the Module, or None where it is a file of its own)
        self.uses = []      # the paths that `pub use` hands on
        self.types = set()  # public ones
        self.calls = []     # (type or None, name, Contract), public ones

    def all(self):
        """This module and those in it."""
        yield self
        for _, inner in self.modules.values():
            yield from inner.all()

    def inside(self, path):
        """The module that a path leads to, or None where it leads out of this crate."""
        here = self
        for name in path:
            if name in ("crate", "self"):
                continue
            here = here.modules[name][1] if here and name in here.modules else None
        return here


def used(words):
    """The paths of a `use`, each a tuple of names, from the words between `use` and `;`."""
    if "{" not in words:
        names = tuple(word for word in words if word != ":")
        return [names[:names.index("as")] if "as" in names else names]
    front, paths, part, depth = words[:words.index("{")], [], [], 0
    for word in words[words.index("{") + 1:-1] + [","]:
        if word == "," and depth == 0:
            paths += used(front + part) if part else []
            part = []
        else:
            depth += (word == "{") - (word == "}")
            part.append(word)
    return paths


def read(text):
    """The module that a file's text is."""
    words, top = list(tokens(text)), Module()
    # for each open brace: the module that stands in it, and the trait and the type of an `impl`
    stack, at = [(top, None, None)], 0
    while at < len(words):
        word, (here, trait, owner) = words[at], stack[-1]
        if word == "use":
            end = words.index(";", at)
            here.uses += used(words[at + 1:end]) if is_public(words, at) else []
            at = end
        elif word == "mod" and words[at + 2] in ("{", ";"):
            inner = Module() if words[at + 2] == "{" else None
            here.modules[words[at + 1]] = (is_public(words, at), inner)
            if inner:
                stack.append((inner, None, None))
            at += 2
        elif word in ("struct", "enum", "trait") and is_public(words, at):
            here.types.add(words[at + 1])
        elif word == "impl" and (at == 0 or words[at - 1] in ("}", ";", "]")):
            trait, owner, at = impl_of(words, at)
            stack.append((here, trait, owner))
        elif word == "fn" and words[at + 2] in ("(", "<"):
            contract, end = signature(words, at)
            # an iterator's `next` is its trait's, and as public as the type
            if is_public(words, at) or trait == "Iterator":
                here.calls.append((owner, words[at + 1], Contract(False, None) if trait == "Iterator" else contract))
            at = after_brackets(words, end, "{", "}") if words[end] == "{" else end + 1
            continue
        elif word == "{":
            stack.append((here, trait, owner))
        elif word == "}":
            stack.pop()
        at += 1
    return top


def public_of(top, crate):
    """{name: Contract} for each call of a crate that another crate can name: `crate::call` or `crate::Type::call`."""
    found, types = {}, set().union(*(module.types for module in top.all()))

    def reach(module, front):
        for owner, name, contract in module.calls:
            if owner is None:
                found["::".join(front + (name,))] = contract
        for path in module.uses:
            source = top.inside(path[:-1])
            for owner, name, contract in source.calls if source else ():
                if owner is None and path[-1] in (name, "*"):
                    found["::".join(front + (name,))] = contract
        for name, (public, inner) in module.modules.items():
            if public:
                reach(inner, front + (name,))

    reach(top, (crate,))
    for module in top.all():
        for owner, name, contract in module.calls:
            if owner in types:
                found["%s::%s::%s" % (crate, owner, name)] = contract
    return found


def load(path):
    """The module of a file, with those that are files of their own."""
    with open(path, encoding="utf-8") as source:
        module = read(source.read())
    folder, name = os.path.split(os.path.splitext(path)[0])
    if name not in ("lib", "main", "mod"):
        folder = os.path.join(folder, name)
    for name, (public, inner) in module.modules.items():
        if inner is None:
            file = os.path.join(folder, name + ".rt")
            file = file if os.path.exists(file) else os.path.join(folder, name, "mod.rt")
            module.modules[name] = (public, load(file))
    return module


def public_calls():
    """{name: Contract} for each public call of each library crate."""
    found = {}
    for path in sorted(glob.glob(os.path.join(ROOT, "crates", "*", "src", "lib.rt"))):
        crate = path.split(os.sep)[-3]
        found.update(public_of(load(path), crate))
    return found


EXAMPLE = """
//! pub fn told(x: u8) requires { ⌜ x < 1 ⌝ } {}
ghost use Rattle.std.specs.Prelude.{◌≡◌, ◌≤◌};
pub mod bytes {
    pub fn first(s: &[u8]) -> u8 { s[0] }
}
mod own {
    pub fn step(x: u8) -> u8 requires small { x < 9 } { if x < 3 { x } else { 0 } }
    pub fn shown(x: u8) -> u8 { x }
    pub(crate) fn near(x: u8) requires { x < 9 } {}
}
pub use own::{shown, Absent};
use own::step;
#[derive(Clone, Copy)]
pub struct Cursor<'a> {
    pub bytes: &'a [u8],
    pub ghost most: { length bytes.now ≤ 4096 },
}
struct Hidden { x: u8 }
impl<'a> Cursor<'a> {
    ghost use Rattle.std.specs.Prelude.{length};
    pub fn last<T: Drop>(self) -> u8
        ensures { result ≡ g {self} }
    { let a = b"pub fn requires {"; if a[0] == b'{' { '}' as u8 } else { 0 } }
    fn inner(&self) requires { 1 ≤ length self.now.bytes.now } {}
}
impl Hidden {
    pub fn far(x: u8) requires { x < 9 } {}
}
impl<'a> Iterator for Cursor<'a> {
    type Item = u8;
    ghost remaining = { item_count rest };
    fn next(&mut self) -> Option<u8> { None }
}
impl fmt::Display for Cursor {
    fn fmt<W: fmt::Write>(&self, f: &mut fmt::Formatter<W>) -> fmt::Result { write!(f, "{}", self.x) }
}
"""

BAD = """
pub fn bad(x: u8) -> [u8; 2]
    ensures { g {result} }
    requires { x < 9 }
{ [x; 2] }
"""


def self_test():
    """A check that finds nothing anywhere shows nothing: each fault, put into an example without any, must be found."""
    def asking(text):
        return {name: contract.asks for name, contract in public_of(read(text), "c").items()}

    good = {"c::bytes::first": False, "c::shown": False, "c::Cursor::last": False, "c::Cursor::next": False}
    assert asking(EXAMPLE) == good, asking(EXAMPLE)
    assert "g" in public_of(read(EXAMPLE), "c")["c::Cursor::last"].says
    for text, name in (
        (BAD, "c::bad"),
        (BAD.replace("pub fn", 'pub extern "C" fn'), "c::bad"),
        (BAD.replace("requires {", "requires small {"), "c::bad"),
        (BAD.replace("(x: u8)", "<'a, T: Fn() -> u8>(x: &'a [u8; 4])"), "c::bad"),
        ("pub mod other {" + BAD + "}", "c::other::bad"),
        ("mod other {" + BAD + "} pub use other::*;", "c::bad"),
        ("impl<'a> Cursor<'a> {" + BAD + "}", "c::Cursor::bad"),
        ("pub use crate::own::{shown, step};", "c::step"),
    ):
        assert asking(EXAMPLE + text) == {**good, name: True}, (name, asking(EXAMPLE + text))
    assert asking(EXAMPLE + "mod other {" + BAD + "}") == good


def main():
    self_test()
    calls = public_calls()
    if not calls:
        sys.exit("public: no public call below crates/")
    asking = {name for name, contract in calls.items() if contract.asks}
    bad = ["%s has a `requires`" % name for name in sorted(asking - set(ASKS))]
    bad += ["%s is said to ask, and asks nothing" % name for name in sorted(set(ASKS) - asking)]
    if bad:
        sys.exit("public: %s" % "; ".join(bad))
    print("public: %d public calls, %d of them ask something of their callers, each for a reason"
          % (len(calls), len(ASKS)))


if __name__ == "__main__":
    main()
