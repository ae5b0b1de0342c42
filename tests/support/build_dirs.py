"""Build directories: copies of a crate and of the crates below it, in which `rt` works.

While `rt` works on a crate, every other `rt` waits that needs one of the crates below it. In build directories of their
own, several work side by side, also on copies that an edit changes.
"""
import functools
import importlib
import os
import shutil
import subprocess
import sys

TOP = os.path.abspath(f"{__file__}/../../..")

# The maximum memory of a check, in KB.
MEMORY = 3 << 20

# The folders that a check reads of a crate, and of a crate below it also the built library.
READ = ("src", "specs", "proofs")
BUILT = "out/rlib"


def crates_listed():
    """Returns the crates that each crate uses, from crates.txt."""
    with open(f"{TOP}/crates.txt", encoding="utf-8") as file:
        lines = [line.partition("#")[0].partition(":") for line in file]
    return {name.split()[0]: below.split() for name, colon, below in lines if colon}


def crates_below(crate, listed):
    """Returns the crates of the repository below a crate."""
    direct = [it for it in listed[crate] if it in listed]
    return set(direct).union(*[crates_below(it, listed) for it in direct])


def made_at(crate):
    """Returns the time at which a crate's library or program was built, or 0 if there is none or a source is newer."""
    folder = f"{TOP}/crates/{crate}"
    made = next((it for it in (f"{folder}/out/rlib/{crate}.rlib", f"{folder}/out/{crate}") if os.path.exists(it)), None)
    read = (f"{at}/{name}" for part in READ for at, _, names in os.walk(f"{folder}/{part}") for name in names)
    newest = max((os.stat(it).st_mtime for it in (f"{TOP}/crates.txt", *read)), default=0)
    return os.stat(made).st_mtime if made and os.stat(made).st_mtime > newest else 0


@functools.lru_cache(maxsize=None)
def kit_module():
    """Returns the kit's private module `rtlib`, which knows the words of a check."""
    kit = subprocess.run(["rt", "doc"], stdout=subprocess.PIPE, check=False).stdout.decode().strip()
    sys.path.append(f"{os.path.dirname(kit)}/bin")
    return importlib.import_module("rtlib")


def check_command(crate, room):
    """Returns the command that checks a crate in a build directory: the call of the prover that `rt check` makes.

    `rt check` would first build again what `rt ci` has built below the crate, since `rt ci` leaves no sum of its
    sources next to a library. In the gate that would take longer than the checks. No public command prints the call.
    If the private module has changed, the command is `rt check`.
    """
    jobs = ["--jobs", "1"]
    try:
        found = next(it for it in kit_module().crates_below(room) if it.name == crate)
        return [kit_module().RATTLE, "check", *found.words(jobs), *kit_module().KEPT]
    except (ImportError, AttributeError, StopIteration):
        return ["rt", "check", *jobs]


def proved_crates():
    """Returns the crates whose libraries or programs are newer than their sources and than what is built below them."""
    listed = crates_listed()
    made = {name: made_at(name) for name in listed}
    return {name for name in listed if all(0 < made[it] <= made[name] for it in {name, *crates_below(name, listed)})}


def processors():
    """Returns the number of checks that may run at once: one for each processor with enough memory."""
    with open("/proc/meminfo", encoding="ascii") as lines:
        free = next(int(line.split()[1]) for line in lines if line.startswith("MemAvailable:"))
    return max(1, min(len(os.sched_getaffinity(0)), free // MEMORY))


def link(source, target):
    """Links a file, or copies it if the folders are on different file systems."""
    try:
        os.link(source, target)
    except OSError:
        shutil.copy2(source, target)


def copy_parts(crate, parts, room, how):
    """Copies folders of a crate to a build directory."""
    for part in parts:
        source = f"{TOP}/crates/{crate}/{part}"
        if os.path.isdir(source):
            shutil.copytree(source, f"{room}/crates/{crate}/{part}", copy_function=how)


def room_for(crate, room):
    """Copies a crate, which may be changed there, and what is built below it. Returns the crate's folder."""
    listed = crates_listed()
    below = crates_below(crate, listed)
    for name in sorted(below):
        # a link to a source would look like a change of it to an `rt ci` that runs at the same time
        copy_parts(name, READ, room, shutil.copy2)
        copy_parts(name, (BUILT,), room, link)
    os.makedirs(f"{room}/crates/{crate}", exist_ok=True)
    copy_parts(crate, READ, room, shutil.copy2)
    if os.path.exists(f"{TOP}/HANDLES"):
        shutil.copy(f"{TOP}/HANDLES", room)
    with open(f"{room}/crates.txt", "w", encoding="utf-8") as file:
        file.writelines(f"{name}: {' '.join(listed[name])}\n" for name in listed if name in below or name == crate)
    return f"{room}/crates/{crate}"
