"""Tests of ./list itself: that it hands on words, streams and statuses as they are, its own options, and what it
builds when.

What the program decides is tested in tests/nomutanku_*.py. Here it is asked by way of ./list and must answer the same;
where another program or another `rt` is needed, in a small copy of the repository (tests/lib/trees.py).
"""
import itertools
import os
import re
import shutil
import signal
import threading

from lib import suite, trees
from lib.programs import ROOT, command
from lib.reading.listing import listing as listing_of
from lib.running import CASES, case, headed, read
from lib.running import kept as listing
from lib.trees import LOG, PROGRAM, TOLD, Rooms, Tree, write

LIST = os.path.join(ROOT, "list")
EXAMPLE = os.path.join(ROOT, "example", "springs.tab")
NOBODY = 65534

BUILDING = "list: proving and building nomutanku, which may take minutes. Crates proved, of 2:"
BUILT = re.compile(re.escape(BUILDING) + r" 1 2, in \d+ seconds\n")
ALL = ["low: lib", "nomutanku: run -- --version"]
ALREADY = "list: %s is built already\n" % PROGRAM
NO_RT = "list: %s is not built from these sources, and there is no rt to build it with\n" % PROGRAM
NOT_BUILT = "list: nomutanku list --help has the options, once it is built: ./list --build\n"


def run(*words, at=LIST, **given):
    """(status, standard output, standard error)."""
    return trees.run(*words, at=at, **given)


def built(test, found, *expected):
    """The same where a program is built first, and that is told in one line."""
    status, out, said = found
    line = BUILT.match(said)
    assert line, said
    test.same((status, out, said[line.end():]), *expected)


def told(*words):
    """What the program that stands in prints of its words."""
    return "".join(["told\n"] + ["<%s>\n" % word for word in words]).encode("utf-8", "surrogateescape")


# With the program as built.

def test_a_difference_is_noticed(test):
    """A comparison that never fails shows nothing."""
    test.notices(run(case("whole")))


def test_handed_on(test):
    """./list answers as `nomutanku list` does: files, options, standard input, refusals, bad usage."""
    program, *rest = command("nomutanku")
    closed = {"preexec_fn": lambda: os.close(0)}
    for words, given in (
        ([case("whole")], {}), ([case("stopped-13")], {}), ([case("empty")], {}), ([case("no-base-row")], {}),
        ([case("no such")], {}), ([case("whole"), case("stopped-13"), case("no such")], {}),
        (["--base", "41", case("parts-2")], {}), (["-"], {"input": read(case("parts-2"))}),
        ([], {"input": read(case("whole"))}), (["--"], {"input": read(case("stopped-3"))}), ([], {}), ([], closed),
        (["-"], closed), ([case("whole")], closed), ([""], {}), (["--halp"], {}), (["-x", case("whole")], {}),
        ([case("whole"), "--help"], {}), ([case("whole"), "--example"], {}), ([case("whole"), "--build"], {}),
        (["--", "--example"], {}), (["--", "--build"], {}), (["--", "--help"], {}), (["/"], {}),
    ):
        test.same(run(*words, **given), *run(*rest, "list", *words, at=program, **given))
    # literal answers
    test.same(run(case("parts-156")), 0, listing("parts-156"), "")
    test.same(run("-", input=read(case("stopped-13")))[:2], 1, listing("stopped-13"))
    test.same(run(case("empty"))[:2], 2, b"table refused 21\n")
    test.same(run(case("no such"))[:2], 3, b"")
    test.same(run("--halp")[:2], 64, b"")
    # the worst status, not the last
    for names, status in ((("whole", "parts-2"), 0), (("stopped-13", "whole"), 1), (("empty", "stopped-13"), 2)):
        expected = b"".join(b"table %s\n%s" % (case(name).encode(), listing(name)) for name in names)
        test.same(run(*map(case, names))[:2], status, expected)
    # the second has nothing left to read
    expected = b"table -\n" + listing("parts-2") + b"table -\ntable refused 21\n"
    test.same(run("-", "-", input=read(case("parts-2")))[:2], 2, expected)


# what stands in a page for runs that it leaves out
LEFT_OUT = ".."


def shown_of(lines):
    """These lines as a page shows them: of many runs under one line the first two, and that more are left out."""
    shown = []
    for under, some in itertools.groupby(lines, lambda line: line.startswith(("run ", "hole "))):
        some = list(some)
        shown += [*some[:2], LEFT_OUT] if under and len(some) > 3 else some
    return shown


def test_the_example(test):
    """The bundled example is listed by its option alone."""
    expected = listing_of(read(EXAMPLE))
    assert b" value parts 3 size " in expected and expected.count(b"\npart ") == 3
    shown = shown_of(expected.decode().splitlines())
    assert shown.count(LEFT_OUT) == 3
    for page in ("README.md", os.path.join("example", "README.md")):
        assert "".join("    %s\n" % line for line in shown) in read(ROOT, page).decode(), page
    test.same(run("--example"), 0, expected, "")
    test.same(run(EXAMPLE), 0, expected, "")
    test.same(run("--example", input=read(case("stopped-3"))), 0, expected, "")
    test.same(run("--example", cwd="/"), 0, expected, "")
    test.same(run("--example", case("whole")), 64, b"", "list: usage: ./list --example, and nothing else\n")


def test_the_options(test):
    """--build and --help."""
    for words in (["--build", case("whole")], ["--build", "--x"], ["--build", "--build"], ["--build", "--"]):
        test.same(run(*words), 64, b"", "list: usage: ./list --build, and nothing else\n")
    test.same(run("--example", "--build"), 64, b"", "list: usage: ./list --example, and nothing else\n")
    test.same(run("--build"), 0, b"", ALREADY)
    program, *rest = command("nomutanku")
    for word in ("--help", "-h"):
        status, out, said = run(word)
        test.same((status, said), 0, "")
        own, end = out.decode().split("\n\n", 2)[:2]
        for name in ("--example", "--build", "--help"):
            assert "./list " + name in own, own
        assert end.startswith("Exit status: ") and "69 not built" in end
        assert out.endswith(b"\n\n" + run(*rest, "list", "--help", at=program)[1])
        assert max(map(len, out.decode().split("\n"))) <= 120
    assert os.path.exists(os.path.join(ROOT, "docs", "REFERENCE.md"))


def test_outputs(test):
    """What cannot be written is no success."""
    with open("/dev/full", "wb") as full:
        for words in ([case("parts-156")], ["--example"], [case("whole"), case("stopped-13")], ["--help"]):
            status, _, said = run(*words, stdout=full)
            test.same((status, "No space left on device" in said, said.count("\n")), 74, True, 1)
    # a pipe without a reader, for a caller that lets the signal end its programs and for one that does not
    for restored in (True, False):
        for words in ([case("parts-156")], [case("stopped-13"), case("whole")], ["--help"]):
            reader, writer = os.pipe()
            os.close(reader)
            status, _, said = run(*words, stdout=writer, restore_signals=restored)
            test.same((status, said if words != ["--help"] or restored else ""), 74, "")
            os.close(writer)
    for words in ([case("whole")], ["--example"], ["--help"]):
        status, _, said = run(*words, stdout=None, preexec_fn=lambda: os.close(1))
        test.same((status, "Bad file descriptor" in said), 74, True)


def test_other_places(test):
    """Called by another path: from elsewhere, relative, by a link, by sh. A file's name is the caller's."""
    room = test.fresh()
    test.same(run("whole.tab", cwd=CASES), 0, listing("whole"), "")
    test.same(run("tests/cases/whole.tab", at="./list", cwd=ROOT), 0, listing("whole"), "")
    test.same(run("whole.tab", at="../../list", cwd=CASES), 0, listing("whole"), "")
    os.symlink(LIST, os.path.join(room, "linked"))
    test.same(run(case("whole"), at=os.path.join(room, "linked"), cwd="/"), 0, listing("whole"), "")
    for shell in ("sh", "dash", "bash"):
        if shutil.which(shell):
            test.same(run("list", case("whole"), at=shell, cwd=ROOT), 0, listing("whole"), "")
    # a pipe with a name is opened once
    os.mkfifo(os.path.join(room, "pipe"))
    writer = threading.Thread(target=pour, args=(read(case("parts-2")), os.path.join(room, "pipe")))
    writer.start()
    test.same(run("pipe", cwd=room), 0, listing("parts-2"), "")
    writer.join()
    os.symlink("nowhere", os.path.join(room, "broken"))
    test.same(run("broken", cwd=room), 3, b"", "broken: No such file or directory (os error 2)\n")
    # standard input's name is no file's
    for name in ("standard input", "-"):
        shutil.copy(case("whole"), os.path.join(room, name))
    test.same(run("standard input", "./-", "-", cwd=room, input=b"")[:2], 2,
         b"table standard input\n%stable ./-\n%stable -\ntable refused 21\n" % (listing("whole"), listing("whole")))


def pour(text, path):
    """Writes to a pipe."""
    with open(path, "wb") as out:
        out.write(text)


# With a program that stands in.

def test_words_as_they_are(test):
    """Each word comes to the program as it was given, byte for byte, and so does standard input."""
    room = test.fresh()
    tree = Tree(room, "words").build()
    here = os.path.join(room, "here")
    os.makedirs(here)
    for name in ("with space", " ", "", "-name", "-", "--", "*", "a\"b'c$HOME`d`\\e", "ü", "a\nb", "%s%d",
                 "\udcff\udcfe", "--json", "--base", "-e"):
        test.same(tree.run("list", name, cwd=here), 0, told("list", name), "")
        test.same(tree.run("list", "--", name, name, cwd=here), 0, told("list", "--", name, name), "")
    test.same(tree.run("list"), 0, told("list"), "")
    test.same(tree.run("list", "--example"), 0, told("list", tree.at("example/springs.tab")), "")
    tree = Tree(room, "through", program="pwd\ncat\necho said >&2\n").build()
    found = tree.run("list", "-", cwd=here, input=b"a\0b\xff\r\n")
    test.same(found, 0, here.encode() + b"\na\0b\xff\r\n", "said\n")
    assert tree.asked() == []


def test_statuses_as_they_are(test):
    """Each status of the program is that of ./list, and so is a signal that ends it."""
    room = test.fresh()
    for status in (0, 1, 2, 3, 4, 64, 69, 74, 126, 127, 255):
        tree = Tree(room, "status%d" % status, program="echo end reads 0\nexit %d\n" % status)
        # rt runs what it builds, so that one that fails is not built: here it is noted as if ./test had built it
        stand_in(test, tree, "echo end reads 0\nexit %d\n" % status)
        test.same(tree.run("list", "x"), status, b"end reads 0\n", "")
    tree = Tree(room, "killed")
    stand_in(test, tree, "echo record 40 size 64\nkill -9 $$\n")
    test.same(tree.run("list", "x"), -signal.SIGKILL, b"record 40 size 64\n", "")


def noting(tree, text=""):
    """Runs the functions that the scripts share."""
    words = 'self=test; root=$PWD; . tools/built.sh; %s' % (text or 'note "$program" "$(sources_of nomutanku)"')
    return run("-c", words, at="sh", cwd=tree.top, env=tree.env)


def stand_in(test, tree, text):
    """Puts a program there that is noted as built from the sources as they are."""
    trees.script(tree.at(PROGRAM), text)
    test.same(noting(tree), 0, b"", "")


def test_no_other_program(test):
    """No variable of the user's names another program or another place."""
    room = test.fresh()
    tree = Tree(room, "other").build()
    names = {name: tree.at(PROGRAM) for name in ("program", "PROGRAM", "LIST_PROGRAM", "NOMUTANKU", "archive", "log")}
    folders = ("root", "here", "ROOT", "OLDPWD", "PWD", "CDPATH", "self", "asked", "status")
    names.update({name: tree.top for name in folders})
    test.same(run(case("whole"), env={**os.environ, **names}), 0, listing("whole"), "")


def test_closed_to_others(test):
    """A file that may not be read, for a user who is not root; that user may run what another one built."""
    room = test.fresh()
    tree = Tree(room, "nobody")
    os.makedirs(os.path.dirname(tree.at(PROGRAM)))
    shutil.copy(os.path.join(ROOT, PROGRAM), tree.at(PROGRAM))
    test.same(noting(tree), 0, b"", "")
    closed = os.path.join(room, "closed.tab")
    shutil.copy(case("whole"), closed)
    os.chmod(closed, 0)
    user = {"user": NOBODY} if os.geteuid() == 0 else {}
    for folder in (tree.top, tree.tools):
        for path, _, _ in os.walk(folder):
            os.chmod(path, 0o755)
    test.same(tree.run("list", closed, cwd="/", **user), 3, b"", "%s: Permission denied (os error 13)\n" % closed)
    os.chmod(closed, 0o444)
    test.same(tree.run("list", closed, cwd="/", **user), 0, listing("whole"), "")


def test_emulated(test):
    """On another machine the program runs by the toolchain's emulator, which stands beside its guide."""
    room = test.fresh()
    rt = "[ $1 != doc ] || exec echo %s/kit/docs/START-HERE.md\n" % room + trees.RT
    tree = Tree(room, "emulated", rt=rt).build()
    trees.script(os.path.join(tree.tools, "uname"), "echo aarch64\n")
    tools = os.path.join(room, "kit", "on", "aarch64", "toolchain")
    trees.script(os.path.join(tools, "bin", "qemu-x86_64"), TOLD + "exit 1\n")
    test.same(tree.run("list", "x y"), 1, told(
        tools + "/lib/ld-linux-x86-64.so.2", "--library-path", tools + "/lib", tree.at(PROGRAM), "list", "x y"), "")
    trees.script(os.path.join(tree.tools, "rt"), "case $1 in version) echo kit 1 ;; *) exit 1 ;; esac\n")
    test.same(tree.run("list", "x"), 69, b"", "list: there is no rt, whose emulator this machine needs\n")


# What is built when.

def test_building(test):
    """Builds where nothing is built, says so in one line, and runs then. Built sources are not built again."""
    room = test.fresh()
    tree = Tree(room, "new")
    # standard input is the program's, not rt's; what rt says is in the log
    built(test, tree.run("list", "-", input=b"x\n", cwd=CASES), 0, told("list", "-"), "")
    assert tree.asked() == ALL
    notes = read(tree.at(LOG))
    for words in (b"notes of lib in low\n", b"notes of run -- --version in nomutanku\n", b"words on the other\n"):
        assert words in notes, notes
    assert b"x\n" not in notes
    test.same(tree.run("list", "x"), 0, told("list", "x"), "")
    test.same(tree.run("list", "--build"), 0, b"", ALREADY)
    tree = Tree(room, "ahead")
    built(test, tree.run("list", "--build", cwd=CASES), 0, b"", "")
    test.same(tree.run("list", "--build"), 0, b"", ALREADY)
    assert tree.asked() == ALL
    # the time is that of the build
    said = Tree(room, "slow", rt=trees.RT + "sleep 1\n").run("list", "--build")[2]
    assert BUILT.fullmatch(said) and int(said.split()[-2]) >= 2, said
    # bad usage of its own options, and help, build nothing
    tree = Tree(room, "unasked")
    test.same(tree.run("list", "--build", "x"), 64, b"", "list: usage: ./list --build, and nothing else\n")
    test.same(tree.run("list", "--example", "x"), 64, b"", "list: usage: ./list --example, and nothing else\n")
    status, out, said = tree.run("list", "--help")
    test.same((status, said), 0, NOT_BUILT)
    assert out.startswith(b"./list TABLE..") and tree.asked() == []
    # with it built the program's own help stands behind it
    tree.build()
    test.same(tree.run("list", "--help"), 0, out + b"\n" + told("list", "--help"), "")


def test_other_sources(test):
    """What was built from other sources or by another toolchain, or is another program, never runs."""
    room = test.fresh()
    tree = Tree(room, "sources").build()

    def changed(what, change):
        """Builds anew, once."""
        change()
        found = tree.run("list", "x")
        assert BUILT.match(found[2]), (what, found)
        built(test, found, 0, told("list", "x"), "")
        assert tree.asked() == ALL, what
        test.same(tree.run("list", "x"), 0, told("list", "x"), "")
        assert tree.asked() == [], what

    for path in ("crates/low/src/lib.rt", "crates/low/src/deep/er.rt", "crates/low/specs/Lib.antt",
                 "crates/low/proofs/with space.antt", "crates/nomutanku/src/main.rt"):
        changed(path, lambda: write(tree.at(path), "other\n"))
    changed("a crate below", lambda: write(tree.at("crates.txt"), trees.CRATES + "\n"))
    changed("a new file", lambda: write(tree.at("crates/low/src/new.rt"), "new\n"))
    changed("a renamed file", lambda: os.rename(tree.at("crates/low/src/new.rt"), tree.at("crates/low/src/newer.rt")))
    changed("a lost file", lambda: os.remove(tree.at("crates/low/src/newer.rt")))
    changed("another program", lambda: trees.script(tree.at(PROGRAM), "echo end reads 5\n"))
    changed("no program", lambda: os.remove(tree.at(PROGRAM)))
    changed("no stamp", lambda: os.remove(tree.at(PROGRAM + ".from")))
    changed("an empty stamp", lambda: write(tree.at(PROGRAM + ".from"), ""))
    changed("half a stamp", lambda: write(tree.at(PROGRAM + ".from"), read(tree.at(PROGRAM + ".from")).decode()[:70]))
    changed("another toolchain", lambda: tree.env.update(RT_VERSION="kit 2"))
    # ./list --build says so too, and builds
    write(tree.at("crates/low/src/lib.rt"), "yet other\n")
    built(test, tree.run("list", "--build"), 0, b"", "")
    assert tree.asked() == ALL


def test_same_sources(test):
    """What the program is not built from may change, and a copy elsewhere is built from the same sources."""
    tree = Tree(test.fresh(), "sources").build()
    for path in ("crates/low/must-fail/wrong.edit", "crates/above/src/main.rt", "crates/cabi/src/lib.rt", "README.md"):
        write(tree.at(path), "other\n")
        test.same(tree.run("list", "x"), 0, told("list", "x"), "")
    assert tree.asked() == []
    shutil.copytree(tree.top, tree.top + " copy")
    test.same(tree.run("list", "x", at=tree.top + " copy/list"), 0, told("list", "x"), "")
    assert tree.asked() == []


def test_failing(test):
    """A build that fails, leaves nothing, or whose sources change meanwhile: 69, with what to read; nothing runs."""
    room = test.fresh()
    log = "what it said is in %s\n" % LOG
    for name, crate, words, said in (
        ("lib", "low", "lib", 'list: "rt lib" in crates/low failed; ' + log),
        ("run", "nomutanku", "run -- --version", 'list: "rt run -- --version" in crates/nomutanku failed; ' + log),
    ):
        rt = 'if [ "${PWD##*/} $*" = "%s %s" ]; then echo no, by this; exit 1; fi\n%s' % (crate, words, trees.RT)
        tree = Tree(room, name + "-fails", rt=rt)
        for asked in (["x"], ["--build"], ["--example"]):
            before = " 1" if crate == "nomutanku" else ""
            test.same(tree.run("list", *asked), 69, b"", BUILDING + before + "\n" + said)
            assert b"no, by this\n" in read(tree.at(LOG))
            assert not os.path.exists(tree.at(PROGRAM + ".from"))
        # once it passes it is built
        trees.script(os.path.join(tree.tools, "rt"), trees.RT)
        built(test, tree.run("list", "x"), 0, told("list", "x"), "")
    # what was there before a failed build is not run
    tree = Tree(room, "stays").build()
    write(tree.at("crates/low/src/lib.rt"), "wrong\n")
    trees.script(os.path.join(tree.tools, "rt"), "case $1 in version) echo kit 1 ;; *) exit 1 ;; esac\n")
    for _ in range(2):
        test.same(tree.run("list", "x")[:2], 69, b"")
    tree = Tree(room, "empty", rt="case $1 in version) echo kit 1 ;; esac\n")
    status, out, said = tree.run("list", "x")
    test.same((status, out, BUILT.sub("", said)), 69, b"", "list: rt left no %s; %s" % (PROGRAM, log))
    tree = Tree(room, "changing", rt=trees.RT + "echo more >>../low/src/lib.rt\n")
    status, out, said = tree.run("list", "x")
    expected = "list: the sources changed while they were built: start again\n"
    test.same((status, out, BUILT.sub("", said)), 69, b"", expected)
    assert not os.path.exists(tree.at(PROGRAM + ".from"))
    tree = Tree(room, "unwritable")
    write(tree.at("crates/nomutanku/out"), "")
    test.same(tree.run("list", "x"), 69, b"", "list: cannot write %s\n" % LOG)


def test_no_rt(test):
    """Without a toolchain what is built runs, from these sources alone; nothing else does."""
    room = test.fresh()
    tree = Tree(room, "without")
    alone = tree.without_rt()
    for words in (["x"], ["--build"], ["--example"]):
        test.same(tree.run("list", *words, env=alone), 69, b"", NO_RT)
    tree.build()
    test.same(tree.run("list", "x", env=alone), 0, told("list", "x"), "")
    test.same(tree.run("list", "--build", env=alone), 0, b"", ALREADY)
    # without readlink, from the folder above, where CDPATH knows another folder of that name
    os.remove(os.path.join(alone["PATH"], "readlink"))
    os.makedirs(os.path.join(room, "elsewhere", "without"))
    misled = {**alone, "CDPATH": os.path.join(room, "elsewhere")}
    test.same(run("x", at="without/list", cwd=room, env=misled), 0, told("list", "x"), "")
    for path in ("crates/low/src/lib.rt", PROGRAM):
        kept = read(tree.at(path)).decode()
        write(tree.at(path), kept + "\n")
        test.same(tree.run("list", "x", env=alone), 69, b"", NO_RT)
        write(tree.at(path), kept)
        test.same(tree.run("list", "x", env=alone), 0, told("list", "x"), "")
    # a sum that cannot be made is none
    os.remove(os.path.join(alone["PATH"], "sha256sum"))
    test.same(tree.run("list", "x", env=alone)[:2], 69, b"")


def test_after_the_gate(test):
    """What ./test has proved and built runs without a build; where the sources changed meanwhile it is built anew."""
    room = test.fresh()
    gate = """case $1 in
ci)
    mkdir -p crates/nomutanku/out
    printf '#!/bin/sh\\necho by the gate\\n' >crates/nomutanku/out/nomutanku
    chmod +x crates/nomutanku/out/nomutanku
    MEANWHILE
    echo 7 passed, 0 failed
    exit
    ;;
esac
""" + trees.RT
    for name, meanwhile, expected in (
            ("gate", ":", b"by the gate\n"), ("gate-late", "echo more >>crates/low/src/lib.rt", None),
            ("gate-fails", "exit 1", None)):
        tree = Tree(room, name, rt=gate.replace("MEANWHILE", meanwhile))
        trees.script(tree.at("tests/run"), "echo ran $1\n")
        status, out, said = tree.run("test")
        if name == "gate-fails":
            test.same((status, out, said), 1, b"ran --sources\ntest: FAILED: rt ci\n", "")
        else:
            verdict = b"7 passed, 0 failed\n"
            test.same((status, out, said), 0, b"ran --sources\n" + verdict + b"ran --programs\n" + verdict, "")
        if expected:
            test.same(tree.run("list", "x"), 0, expected, "")
            assert tree.asked() == []
        else:
            # also where the sources are again what they were before
            for path, text in trees.FILES.items():
                write(tree.at(path), text)
            built(test, tree.run("list", "x"), 0, told("list", "x"), "")
            assert tree.asked() == ALL


def made():
    """What each test is handed. Where `rt run` alone built the program, ./list notes that once."""
    command("nomutanku")
    rooms = Rooms("./list")
    rooms.same(run("--build")[:2], 0, b"")
    return rooms


main = suite.of(made, Rooms.finish)

if __name__ == "__main__":
    main()
