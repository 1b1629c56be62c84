"""A room outside the repository in which a crate is checked with edits. The crate is proved as it stands before: what that leaves in out/ is
what the checks begin with, so that each proves again no more than an edit changes."""

import shutil
import subprocess
import sys
import threading
from pathlib import Path

PARTS = ("src", "specs", "proofs")
# the check of one crate writes what another room copies
ALONE = threading.Lock()


def room_for(crate, room):
    """A copy of the crates, with what was built of each and what was kept of this one."""
    with ALONE:
        said = rt_check(crate).stdout
        if "logic=proved" not in said:
            sys.exit(f"{crate.name}: not proved as it stands\n" + said[-2000:])
        for other in Path("crates").iterdir():
            for part in (*PARTS, "out/rlib", *(["out/incremental"] if other == crate else [])):
                if (other / part).is_dir():
                    shutil.copytree(other / part, room / other / part)
    shutil.copy("crates.txt", room)


def rt_check(crate):
    return subprocess.run(["rt", "check"], cwd=crate, stdout=subprocess.PIPE, stderr=subprocess.STDOUT, text=True)


def renew(crate, room):
    """Takes the edits out again."""
    for part in PARTS:
        shutil.rmtree(room / crate / part, ignore_errors=True)
        if (crate / part).is_dir():
            shutil.copytree(crate / part, room / crate / part)


def checked(crate):
    """What a check of a crate says that does not find it proved. One that ends with no verdict, as where it was killed for memory, is made once more."""
    for _ in range(2):
        ran = rt_check(crate)
        if "logic=not-proved" in ran.stdout:
            return ran.stdout
        print(f"{crate.name}: a check ended with {ran.returncode} and no verdict that it is not proved", file=sys.stderr)
    sys.exit(ran.stdout[-2000:])
