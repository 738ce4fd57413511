"""The built programs, for the tools and checks of this folder."""
import os
import shutil
import subprocess
import sys

ROOT = os.path.dirname(os.path.dirname(os.path.abspath(__file__)))


def built(check, name):
    """The path of the program of that name, which is built where it is missing or older than a source. Without one the check
    ends: with status 0 and a word where rt is missing, else with what the build said and status 1."""
    # the program answers 2 to no words
    words, passes = ([os.path.join(ROOT, "tools", "built"), name], 0) if name != "syswcet" else ([os.path.join(ROOT, name)], 2)
    done = subprocess.run(words, capture_output=True, text=True, check=False)
    if done.returncode == passes:
        return os.path.join(ROOT, "crates", name, "out", name)
    if not shutil.which("rt"):
        print(f"{check}: skipped, since {name} isn't built from these sources and rt is not here")
        sys.exit(0)
    sys.exit(f"{check}: {name} doesn't build:\n{done.stderr}")


def set_up(name):
    """The path of the program of that name in the folder that SYSWCET_PROGRAMS names, or of an installed tree; None where it
    isn't there."""
    path = os.path.join(os.environ.get("SYSWCET_PROGRAMS") or os.path.join(ROOT, "programs"), name)
    return path if os.access(path, os.X_OK) else None


def found(name):
    """The path of the program of that name, set up or as it was built last; None where it isn't there."""
    path = os.path.join(ROOT, "crates", name, "out", name)
    return set_up(name) or (path if os.access(path, os.X_OK) else None)


def shared(*names):
    """The path of a shared file, in the source tree or in an installed one."""
    paths = [os.path.join(ROOT, "share", *names), os.path.join(os.path.dirname(os.path.dirname(ROOT)), "share", "syswcet", *names)]
    return next((path for path in paths if os.path.exists(path)), paths[0])
