"""Type-checks the crate in this folder, from the sources of the crates that it stands on. It proves nothing and builds nothing."""
import os
import re
import subprocess
import sys

from kit import module_of_rt


def main():
    rtlib = module_of_rt().rtlib
    here = os.getcwd()
    crate = rtlib.Crate(here, rtlib.root_above(here), {})
    words = crate.words(["--jobs", "1", "--only", ""], as_source=True)
    done = subprocess.run([*rtlib.guarded(), rtlib.RATTLE, "check", *words], cwd=here, stdin=subprocess.DEVNULL, stdout=subprocess.PIPE,
                          stderr=subprocess.STDOUT, text=True, errors="replace", check=False)
    # The last line of a crate that compiles says how many functions were asked for: none.
    if done.returncode == 0 and re.search(r"^only=.*\n\Z", done.stdout, re.MULTILINE) and not re.search(r"error[\[:]", done.stdout):
        return 0
    sys.stderr.write(done.stdout)
    return 1


if __name__ == "__main__":
    sys.exit(main())
