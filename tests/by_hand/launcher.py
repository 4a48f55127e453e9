"""Checks the script `klsm` at the root of the repository, with a stand-in for `rt` that builds at once.

    python3 launcher.py ../../klsm

It says nothing and ends with status 0 where all is as it has to be: what the script passes on, when it
builds, and status 70 where it cannot.
"""

import os
import re
import shutil
import stat
import subprocess
import sys
import tempfile
import time

# What `rt run` leaves: a program that shows its words, one a line, and its input, and ends with status 3.
PROGRAM = """#!/bin/sh
printf '%s\\n' "$@"
cat
exit 3
"""

BUILDS = f"""#!/bin/sh
echo "$1 ${{PWD##*/}}" >> "$ROOM/builds"
[ "$1" = run ] || exit 0
mkdir -p out
cat > out/klsm << 'END'
{PROGRAM}END
chmod +x out/klsm
"""

FAILS = """#!/bin/sh
echo "no proof" >&2
exit 1
"""

# A build that is interrupted has perhaps written the program.
IS_STOPPED = BUILDS + "kill -TERM $PPID\nexit 1\n"


# The libraries that the script builds before the program.
LIBRARIES = ("klsm_board", "klsm_instance", "klsm_progress")


class Checkout:
    """A folder with the script, one source file and the folders of libraries, and a folder with the stand-in."""

    def __init__(self, room, script):
        self.room = room
        self.root = f"{room}/root"
        self.source = f"{self.root}/crates/klsm/src/main.rt"
        os.makedirs(os.path.dirname(self.source))
        os.makedirs(f"{room}/path")
        for library in LIBRARIES:
            os.makedirs(f"{self.root}/crates/{library}/src")
        for file in (self.source, f"{self.root}/crates.txt"):
            with open(file, "w"):
                pass
        shutil.copy(script, f"{self.root}/klsm")

    def use(self, rt):
        """Puts a stand-in for `rt` on the path."""
        file = f"{self.room}/path/rt"
        with open(file, "w") as out:
            out.write(rt)
        os.chmod(file, stat.S_IRWXU)

    def run(self, *words, path=None):
        """The status, the output and the errors of the script."""
        path = path or f"{self.room}/path:{os.environ['PATH']}"
        ran = subprocess.run(
            [f"{self.root}/klsm", *words],
            env=os.environ | {"PATH": path, "ROOM": self.room},
            input="rows\n",
            capture_output=True,
            text=True,
            cwd="/",
        )
        return ran.returncode, ran.stdout, ran.stderr

    def asked(self):
        """What `rt` was asked for, and in which folder."""
        if not os.path.exists(f"{self.room}/builds"):
            return []
        with open(f"{self.room}/builds") as lines:
            return lines.read().splitlines()

    def builds(self):
        """How often the program was built."""
        return self.asked().count("run klsm")


def check_passing_on(checkout):
    checkout.use(BUILDS)
    for _ in range(2):
        assert checkout.run("replay", "--k", "1 2") == (3, "replay\n--k\n1 2\nrows\n", "")
    assert checkout.builds() == 1


def check_libraries_first(checkout):
    checkout.use(BUILDS)
    assert checkout.run()[0] == 3
    asked = checkout.asked()
    assert sorted(asked[:-1]) == [f"lib {library}" for library in LIBRARIES] and asked[-1] == "run klsm"


def check_newer_source(checkout):
    checkout.use(BUILDS)
    checkout.run()
    time.sleep(0.05)
    os.utime(checkout.source)
    checkout.run()
    assert checkout.builds() == 2


def check_failed_build(checkout):
    checkout.use(FAILS)
    status, output, errors = checkout.run()
    said = re.fullmatch(r"(no proof\n){1,3}klsm: the program could not be built; \S+ has all that was said\n", errors)
    assert (status, output) == (70, "") and said


def check_no_rt(checkout):
    tools = f"{checkout.room}/tools"
    os.makedirs(tools)
    for tool in ("sh", "dirname", "readlink", "find", "date", "mkdir", "touch"):
        os.symlink(shutil.which(tool), f"{tools}/{tool}")
    status, output, errors = checkout.run(path=tools)
    assert (status, output) == (70, "") and "the command rt" in errors


def check_folder_that_cannot_be_written(checkout):
    checkout.use(BUILDS)
    with open(f"{checkout.root}/crates/klsm/out", "w"):
        pass
    status, output, errors = checkout.run()
    assert (status, output) == (70, "") and errors.startswith("klsm: cannot write into ")
    assert checkout.builds() == 0


def check_stopped_build(checkout):
    checkout.use(IS_STOPPED)
    assert checkout.run()[0] != 3
    checkout.use(BUILDS)
    assert checkout.run()[0] == 3
    assert checkout.builds() == 2


def main(script):
    checks = (
        check_passing_on,
        check_libraries_first,
        check_newer_source,
        check_failed_build,
        check_no_rt,
        check_folder_that_cannot_be_written,
        check_stopped_build,
    )
    for check in checks:
        with tempfile.TemporaryDirectory() as room:
            check(Checkout(room, script))


main(*sys.argv[1:])
