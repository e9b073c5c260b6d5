"""Small copies of the repository, in which ./list, ./install and ./test run with a toolchain that stands in for `rt`.

A copy has the scripts, the example, share/ and include/, and four crates: `low`, then `nomutanku` and `cabi` over it,
and `above` over `nomutanku`.
"""
import os
import shutil

from lib import running
from lib.programs import ROOT

PROGRAM = os.path.join("crates", "nomutanku", "out", "nomutanku")
ARCHIVE = os.path.join("crates", "cabi", "out", "libcabi.a")
LOG = os.path.join("crates", "nomutanku", "out", "build.log")

CRATES = "# lowest first\nlow: thiserror\nnomutanku: low clap\ncabi staticlib: low\nabove: low nomutanku\n"
FILES = {
    "crates/low/src/lib.rt": "low\n", "crates/low/src/deep/er.rt": "deep\n", "crates/low/specs/Lib.antt": "specs\n",
    "crates/low/proofs/with space.antt": "proofs\n", "crates/low/must-fail/wrong.edit": "edit\n",
    "crates/nomutanku/src/main.rt": "main\n", "crates/cabi/src/lib.rt": "cabi\n",
    "crates/above/src/main.rt": "above\n", "README.md": "readme\n"}

# The program that the stand-in builds: what it was handed, a word a line, and what it reads.
TOLD = "echo told\nfor word; do printf '<%s>\\n' \"$word\"; done\n"
# Builds what the real one would, and notes each call. $RT_CALLS is a file, $RT_PROGRAM what is built.
RT = """case $1 in
version)
    echo "${RT_VERSION-kit 1}"
    exit
    ;;
esac
echo "${PWD##*/}: $*" >>"$RT_CALLS"
echo "notes of $* in ${PWD##*/}"
echo "words on the other" >&2
cat
case $1 in
lib | run) mkdir -p out ;;
esac
case ${PWD##*/},$* in
cabi,lib) echo "archive of $(cat src/lib.rt)" >out/libcabi.a ;;
nomutanku,'run -- --version') printf '#!/bin/sh\\n%s' "$RT_PROGRAM" >out/nomutanku && chmod +x out/nomutanku ;;
*,lib) ;;
*) exit 9 ;;
esac
"""


def script(path, text):
    """A program in sh."""
    write(path, "#!/bin/sh\n" + text)
    os.chmod(path, 0o755)


def write(path, text):
    """A file with what it needs above it."""
    os.makedirs(os.path.dirname(path), exist_ok=True)
    with open(path, "w", encoding="utf-8") as out:
        out.write(text)


class Rooms(running.Comparer):
    """What the tests of a script are handed: the comparison, and a folder of its own for each test."""

    def __init__(self, name):
        """`name` is what is told of a difference."""
        super().__init__(name)
        # as a script sees it, without links, and open to other users
        self.top = os.path.realpath(self.folder.name)
        os.chmod(self.top, 0o755)

    def fresh(self):
        """A new folder."""
        path = os.path.join(self.top, str(len(os.listdir(self.top))))
        os.mkdir(path)
        return path


class Tree:
    """A copy, with an `rt` of its own in front of the PATH."""

    def __init__(self, room, name, rt=RT, program=TOLD):
        """Makes it, below a folder."""
        self.top = os.path.join(room, name)
        self.calls = os.path.join(room, name + ".calls")
        self.tools = os.path.join(room, name + ".tools")
        for path in ("list", "install", "test", "tools", "share", "include", "example"):
            copy = shutil.copytree if os.path.isdir(os.path.join(ROOT, path)) else shutil.copy
            os.makedirs(self.top, exist_ok=True)
            copy(os.path.join(ROOT, path), os.path.join(self.top, path))
        write(self.at("crates.txt"), CRATES)
        for path, text in FILES.items():
            write(self.at(path), text)
        script(os.path.join(self.tools, "rt"), rt)
        path = self.tools + ":" + os.environ["PATH"]
        self.env = {**os.environ, "PATH": path, "RT_CALLS": self.calls, "RT_PROGRAM": program}

    def at(self, path):
        """Where a file of it is."""
        return os.path.join(self.top, path)

    def run(self, *words, at=None, **given):
        """(status, standard output, standard error) of a script of it; its name is the first word."""
        given.setdefault("env", self.env)
        return run(*words[1:], at=at or self.at(words[0]), **given)

    def asked(self):
        """What `rt` was asked for since the last time, but its version."""
        if not os.path.exists(self.calls):
            return []
        with open(self.calls, encoding="utf-8") as given:
            lines = given.read().splitlines()
        os.remove(self.calls)
        return lines

    def build(self):
        """Builds all, as ./list and ./install do."""
        done = self.run("install", "--prefix", self.top + ".built")
        assert done[0] == 0, done
        shutil.rmtree(self.top + ".built")
        self.asked()
        return self

    def without_rt(self, *more):
        """An environment that has the tools that ./list needs, and more, and no rt."""
        tools = self.top + ".without"
        os.makedirs(tools, exist_ok=True)
        for tool in (*LISTING, *more):
            if not os.path.lexists(os.path.join(tools, tool)):
                os.symlink(shutil.which(tool), os.path.join(tools, tool))
        return {"PATH": tools}


# All that ./list needs, besides the program.
LISTING = ("sh", "awk", "cat", "cut", "dirname", "find", "readlink", "sha256sum", "sort", "uname", "xargs")
# And ./install besides.
INSTALLING = ("chmod", "cmp", "cp", "mkdir", "mv", "rm", "stat")


def run(*words, at, **given):
    """(status, standard output, standard error). A script may build for minutes, and so has no deadline."""
    return running.run(at, *words, timeout=None, **given)
