"""Tests of ./install: what it puts where, a second run, and each way to fail, which leaves no file half there.

In small copies of the repository, with a toolchain that stands in (tests/lib/trees.py), below folders of the test's
own.
"""
import os
import re
import resource
import signal
import stat

from lib import suite
from lib.trees import ARCHIVE, INSTALLING, LOG, PROGRAM, RT, Rooms, Tree, write

# where each file goes, from which, and with which rights
PLACES = {
    "bin/nomutanku": (PROGRAM, 0o755),
    "share/man/man1/nomutanku.1": ("share/nomutanku.1", 0o644),
    "share/bash-completion/completions/nomutanku": ("share/nomutanku.bash", 0o644),
    "share/zsh/site-functions/_nomutanku": ("share/_nomutanku", 0o644),
    "include/nomutanku.h": ("include/nomutanku.h", 0o644),
    "lib/libnomutanku.a": (ARCHIVE, 0o644),
}
USAGE = "install: usage: ./install [--prefix DIR] | ./install --help\n"
BUILDING = re.compile(
    "install: proving and building nomutanku, which may take minutes. Crates proved, of 2: 1 2, in \\d+ seconds\n"
    "install: proving and building cabi, which may take minutes. Crates proved, of 2: 1 2, in \\d+ seconds\n")
ALL = ["low: lib", "nomutanku: run -- --version", "low: lib", "cabi: lib"]
FAILED = 'install: "rt lib" in crates/%s failed; what it said is in %s'
NOBODY = 65534


def read(path):
    """A file's bytes."""
    with open(path, "rb") as given:
        return given.read()


def said_of(top, *changed, again=False):
    """What it says of each place: put there, or in a second run there already, but for what was changed."""
    words = {place: "in place already" if again and place not in changed else "put in place" for place in PLACES}
    return "".join("%s: %s/%s\n" % (words[place], top, place) for place in PLACES).encode()


def files_below(top):
    """place -> (bytes, rights, when and as which file it was written)."""
    found = {}
    for path, _, names in os.walk(top):
        for name in names:
            at = os.path.join(path, name)
            about = os.lstat(at)
            found[os.path.relpath(at, top)] = (read(at), stat.S_IMODE(about.st_mode), about.st_ino, about.st_mtime_ns)
    return found


def in_place(test, tree, top):
    """All is there, nothing else is, and each folder can be entered."""
    found = files_below(top)
    wanted = {place: (read(tree.at(source)), mode) for place, (source, mode) in PLACES.items()}
    test.same(({place: of[:2] for place, of in found.items()},), wanted)
    for path, _, _ in os.walk(top):
        assert stat.S_IMODE(os.stat(path).st_mode) & 0o755 == 0o755, path
    return found


def test_builds_and_puts(test):
    """What is not built is built first; then all is put in place, and what was put is what was built."""
    room = test.fresh()
    tree, top = Tree(room, "new"), os.path.join(room, "put here")
    status, out, said = tree.run("install", "--prefix", top, cwd="/", preexec_fn=lambda: os.umask(0o077))
    test.same((status, out, bool(BUILDING.fullmatch(said))), 0, said_of(top), True)
    assert tree.asked() == ALL
    before = in_place(test, tree, top)
    assert before["lib/libnomutanku.a"][0] == b"archive of cabi\n"
    # a second run changes nothing, and says so
    test.same(tree.run("install", "--prefix", top), 0, said_of(top, again=True), "")
    test.same((files_below(top),), before)
    # and a newer one what differs alone
    write(tree.at("share/nomutanku.1"), "new\n")
    os.chmod(os.path.join(top, "include", "nomutanku.h"), 0o600)
    changed = ("share/man/man1/nomutanku.1", "include/nomutanku.h")
    test.same(tree.run("install", "--prefix", top), 0, said_of(top, *changed, again=True), "")
    after = in_place(test, tree, top)
    assert {place for place in after if after[place] != before[place]} == set(changed)
    # other sources are built, and put there
    write(tree.at("crates/cabi/src/lib.rt"), "newer\n")
    status, out, said = tree.run("install", "--prefix", top)
    test.same((status, out), 0, said_of(top, "lib/libnomutanku.a", again=True))
    assert tree.asked() == ALL[2:] and in_place(test, tree, top)["lib/libnomutanku.a"][0] == b"archive of newer\n"


def test_prefixes(test):
    """The ways to name a folder, and DESTDIR in front of it."""
    room = test.fresh()
    tree = Tree(room, "tree").build()
    here = os.path.join(room, "here")
    os.mkdir(here)
    for words, top in (
            (["--prefix=" + room + "/a=b"], room + "/a=b"), (["--prefix", room + "/slash/"], room + "/slash"),
            (["--prefix", "of this"], here + "/of this"), (["--prefix", "-x"], here + "/-x"),
            (["--prefix", room + "/first", "--prefix", room + "/last"], room + "/last")):
        test.same(tree.run("install", *words, cwd=here), 0, said_of(top), "")
        in_place(test, tree, top)
    assert not os.path.exists(os.path.join(room, "first"))
    for words, below in (([], "/usr/local"), (["--prefix", "/opt/it"], "/opt/it")):
        stage = os.path.join(room, "stage" + str(len(words)))
        test.same(tree.run("install", *words, env={**tree.env, "DESTDIR": stage}), 0, said_of(stage + below), "")
        in_place(test, tree, stage + below)
    test.same((sorted(os.listdir(stage)),), ["opt"])


def test_what_stands_there(test):
    """A link is replaced and what it leads to is not written; a folder in a file's place is left."""
    room = test.fresh()
    tree, top, other = Tree(room, "tree").build(), os.path.join(room, "top"), os.path.join(room, "other")
    write(other, "mine\n")
    os.makedirs(os.path.join(top, "bin"))
    os.symlink(other, os.path.join(top, "bin", "nomutanku"))
    test.same(tree.run("install", "--prefix", top), 0, said_of(top), "")
    assert not os.path.islink(os.path.join(top, "bin", "nomutanku"))
    test.same((in_place(test, tree, top)["bin/nomutanku"][0], read(other)), read(tree.at(PROGRAM)), b"mine\n")
    # a link to a file that is the same is no file in place
    at = os.path.join(top, "include", "nomutanku.h")
    os.remove(at)
    os.symlink(tree.at("include/nomutanku.h"), at)
    test.same(tree.run("install", "--prefix", top), 0, said_of(top, "include/nomutanku.h", again=True), "")
    assert not os.path.islink(at)
    os.remove(at)
    os.mkdir(at)
    status, out, said = tree.run("install", "--prefix", top)
    test.same((status, said, os.listdir(at)), 73, "install: %s is a folder\n" % at, [])


def test_not_writable(test):
    """What can't be put in place: 73, told before anything is built where that can be seen, and no file half there."""
    room = test.fresh()
    tree = Tree(room, "tree")
    write(os.path.join(room, "file"), "")
    for top in (room + "/file", room + "/file/below/it"):
        status, out, said = tree.run("install", "--prefix", top)
        test.same((status, out, said.count("\n"), tree.asked()), 73, b"", 1, [])
    if os.geteuid() == 0:
        tree.build()
        for path, _, _ in os.walk(tree.tools):
            os.chmod(path, 0o755)
        os.mkdir(os.path.join(room, "roots"), 0o755)
        test.same(tree.run("install", "--prefix", room + "/roots", cwd="/", user=NOBODY), 73, b"",
             "install: %s/roots: nothing can be put there\n" % room)
        assert os.listdir(os.path.join(room, "roots")) == []
    # a folder in it may not be made: a file stands there
    top = os.path.join(room, "half")
    write(os.path.join(top, "share"), "")
    status, out, said = tree.build().run("install", "--prefix", top)
    test.same((status, out), 73, b"put in place: %s/bin/nomutanku\n" % top.encode())
    test.same((said[:16], said.count("\n")), "install: mkdir: ", 1)
    test.same((sorted(files_below(top)),), ["bin/nomutanku", "share"])


def test_disk_full(test):
    """A write that fails leaves what stood there, and nothing beside it."""
    room = test.fresh()
    def short():
        signal.signal(signal.SIGXFSZ, signal.SIG_IGN)
        resource.setrlimit(resource.RLIMIT_FSIZE, (5000, 5000))

    tree, top = Tree(room, "tree").build(), os.path.join(room, "top")
    write(tree.at("share/nomutanku.1"), "old\n")
    test.same((tree.run("install", "--prefix", top)[0],), 0)
    before = in_place(test, tree, top)
    write(tree.at("share/nomutanku.1"), "long\n" * 5000)
    status, out, said = tree.run("install", "--prefix", top, preexec_fn=short)
    test.same((status, out), 73, b"in place already: %s/bin/nomutanku\n" % top.encode())
    test.same(("File too large" in said, said.count("\n")), True, 1)
    test.same((files_below(top),), before)


def test_outputs(test):
    """Its own output that can't be written: 74."""
    room = test.fresh()
    tree = Tree(room, "tree").build()
    for words in (["--help"], ["--prefix", room + "/top"], ["--prefix", room + "/top"]):
        with open("/dev/full", "wb") as full:
            test.same((tree.run("install", *words, stdout=full)[0],), 74)
    # what was to be told was done before
    test.same((sorted(files_below(room + "/top")),), ["bin/nomutanku"])


def test_usage(test):
    """The options; none of these builds or puts anything."""
    room = test.fresh()
    tree = Tree(room, "tree")
    for word in ("--help", "-h"):
        status, out, said = tree.run("install", word)
        test.same((status, said), 0, "")
        for place in PLACES:
            assert "DIR/" + place in out.decode(), place
        for named in ("--prefix DIR", "/usr/local", "DESTDIR", "64", "69", "73", "74"):
            assert named in out.decode(), named
        assert max(map(len, out.decode().split("\n"))) <= 120
    for words in (["--prefix"], ["--prefix", ""], ["--prefix="]):
        test.same(tree.run("install", *words), 64, b"", USAGE)
    for words in (["x"], ["--halp"], ["--prefix", "/x", "y"], [""], ["--"]):
        test.same(tree.run("install", *words), 64, b"", "install: what is %s?\n" % words[-1] + USAGE)
    assert tree.asked() == []


def test_not_built(test):
    """Where nothing can be built nothing is put in place: 69."""
    room = test.fresh()
    top = os.path.join(room, "top")
    tree = Tree(room, "fails", rt="case $1 in version) echo kit 1 ;; *) echo no; exit 1 ;; esac\n")
    status, out, said = tree.run("install", "--prefix", top)
    test.same((status, out, said.split("\n")[1]), 69, b"", FAILED % ("low", LOG))
    # the archive alone fails
    tree = Tree(room, "half", rt='[ "${PWD##*/} $*" != "cabi lib" ] || exit 1\n' + RT)
    status, out, said = tree.run("install", "--prefix", top)
    test.same((status, out, said.split("\n")[2]), 69, b"", FAILED % ("cabi", "crates/cabi/out/build.log"))
    tree = Tree(room, "without")
    test.same(tree.run("install", "--prefix", top, env=tree.without_rt(*INSTALLING)), 69, b"",
         "install: %s is not built from these sources, and there is no rt to build it with\n" % PROGRAM)
    assert not os.path.exists(top)
    # what is built is put in place without one
    test.same(tree.build().run("install", "--prefix", top, env=tree.without_rt(*INSTALLING)), 0, said_of(top), "")
    in_place(test, tree, top)


def test_a_difference_is_noticed(test):
    """A comparison that never fails shows nothing."""
    room = test.fresh()
    tree, top = Tree(room, "tree").build(), os.path.join(room, "top")
    test.notices(tree.run("install", "--prefix", top))
    in_place(test, tree, top)
    for place in PLACES:
        at = os.path.join(top, place)
        kept, mode = read(at), stat.S_IMODE(os.stat(at).st_mode)
        os.chmod(at, 0o700)
        assert test.fails(in_place, test, tree, top), place
        os.remove(at)
        assert test.fails(in_place, test, tree, top), place
        write(at, kept.decode())
        os.chmod(at, mode)
        in_place(test, tree, top)
    write(os.path.join(top, "bin", "nomutanku.part.1"), "")
    assert test.fails(in_place, test, tree, top)


main = suite.of(lambda: Rooms("./install"), Rooms.finish)

if __name__ == "__main__":
    main()
