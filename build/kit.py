"""What both builds share: the kit and what else they need, the crates that the program stands on, and where a program goes."""
import errno
import os
import shutil
import subprocess
import sys
import tempfile

TOP = os.path.dirname(os.path.dirname(os.path.realpath(__file__)))
PROGRAM = "wcspsolve"
# The status of a run for which there is no program.
NO_PROGRAM = 70
# The bytes that a build takes in the folder for temporary files: of the quick one, and of one that proves.
QUICK_SPACE, PROVE_SPACE = 300 * 2**20, 3 * 2**30


class Missing(Exception):
    """What a build lacks, and what to do, in one line."""


def say(text):
    print(f"{PROGRAM}: {text}", file=sys.stderr, flush=True)


def wanted_logic():
    """The logic of the kit that the sources are proved with."""
    with open(f"{TOP}/build/LOGIC", encoding="ascii") as file:
        return file.read().strip()


def find_kit():
    """The kit's folder, where `rt` is on the PATH and has the logic that the sources are proved with."""
    if not shutil.which("rt"):
        raise Missing("the command rt is missing: install the Rattle kit, and put its bin/ on the PATH")
    words = subprocess.run(["rt", "version"], capture_output=True, text=True, check=False).stdout.split()
    if wanted_logic() not in words:
        has = words[words.index("logic") + 1] if "logic" in words[:-1] else "none"
        raise Missing(f"rt has another logic ({has}): install the Rattle kit with logic {wanted_logic()}")
    return os.path.dirname(subprocess.run(["rt", "doc"], capture_output=True, text=True, check=True).stdout.strip())


def lines_of_crates():
    """The lines of crates.txt, by crate, and what each crate names."""
    lines, names = {}, {}
    with open(f"{TOP}/crates.txt", encoding="utf-8") as file:
        for line in file:
            name, colon, rest = line.partition("#")[0].partition(":")
            if colon:
                lines[name.split()[0]], names[name.split()[0]] = line, rest.split()
    return lines, names


def need_space(size):
    """Sees that so many bytes are free where temporary files go."""
    folder = tempfile.gettempdir()
    if shutil.disk_usage(folder).free < size:
        raise Missing(f"there is no space left in {folder}: make {size >> 20} MB free, or name another folder by TMPDIR")


def call(*words):
    """Runs a tool of a build."""
    done = subprocess.run(words, capture_output=True, text=True, errors="replace", check=False)
    if done.returncode:
        said = (done.stderr.strip() or done.stdout.strip() or f"status {done.returncode}").splitlines()
        raise Missing(f"{os.path.basename(words[0])} failed: {said[-1]}")


def put_program(made, out, began):
    """Puts a program in its place at once. It counts as made when its build began, so that a source that changed since is newer."""
    os.makedirs(os.path.dirname(out), exist_ok=True)
    shutil.copy2(made, f"{out}.new")
    os.utime(f"{out}.new", (began, began))
    os.replace(f"{out}.new", out)


def status_of(build):
    """The exit status of a build. What it lacks is said in one line."""
    try:
        return build()
    except KeyboardInterrupt:
        return 130
    except Missing as missing:
        say(str(missing))
    except OSError as error:
        what = error.filename or error.strerror
        if error.errno in (errno.ENOSPC, errno.EDQUOT):
            say(f"there is no space left for {what}: make some free")
        elif error.errno in (errno.EROFS, errno.EACCES, errno.EPERM):
            say(f"{what} can't be written ({error.strerror}): make {TOP} writable, or copy it to where it is")
        else:
            say(f"{error.strerror}: {what}")
    return NO_PROGRAM
