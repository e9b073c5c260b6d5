"""The built programs, and how they are run.

`rt ci` leaves each program at crates/NAME/out/NAME, built from what it proved, or had proved before and kept, and
sets aside what was there. `rt run` in crates/NAME leaves it there too.
"""
import os
import platform
import subprocess
import sys
import tempfile

TESTS = os.path.dirname(os.path.dirname(os.path.abspath(__file__)))
ROOT = os.path.dirname(TESTS)

# The program that is asked one question after another (crates/ask).
ASKED = "ask"


def command(name, folder=None):
    """How a built program is run, that of this repository or the one in a folder. Programs are for x86-64; on another
    machine the toolchain has an emulator."""
    path = os.path.join(folder or os.path.join(ROOT, "crates", name, "out"), name)
    if not os.path.exists(path):
        sys.exit("no %s: run `rt ci`, or `rt run` in crates/%s, first" % (os.path.relpath(path, ROOT), name))
    if platform.machine() == "x86_64":
        return [path]
    # `rt doc` prints a file of the toolchain's own folder: KIT/docs/START-HERE.md
    guide = subprocess.run(["rt", "doc"], stdout=subprocess.PIPE, check=True, text=True).stdout.strip()
    tools = os.path.join(os.path.dirname(os.path.dirname(guide)), "on", platform.machine(), "toolchain")
    return [
        os.path.join(tools, "bin", "qemu-x86_64"), os.path.join(tools, "lib", "ld-linux-x86-64.so.2"),
        "--library-path", os.path.join(tools, "lib"), path,
    ]


def run(name, text):
    """What a built program writes to this input. Files and no pipes, so that neither side waits for the other."""
    with tempfile.TemporaryFile() as given, tempfile.TemporaryFile() as written:
        given.write(text)
        given.seek(0)
        status = subprocess.run(command(name), stdin=given, stdout=written).returncode
        if status != 0:
            sys.exit("%s ended with status %d" % (name, status))
        written.seek(0)
        # a character for each byte: the bytes of a name or a value are written as they are
        return written.read().decode("latin-1")
