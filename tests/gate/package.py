#!/usr/bin/env python3
"""Builds the packages, and uses them as somebody who has nothing else.

Both are built twice, and are the same bytes; their checksums are right. The archive is unpacked into an empty folder,
and the Debian package into another one. There each command of the README and of the examples' page writes what the
page shows, with the packaged program and a few shell commands on the path, and no file of this repository. Each link
of a packed page leads to a packed file. An existing folder stays as it was if the archive is unpacked as
docs/BUILDING.md says. The program needs the C library alone. It packs what `rt ci` has built. Completions and manual
pages are those of the command line's definition, and have the options that `--help` shows. The last line is `N passed, M failed`.
"""
import filecmp
import glob
import os
import re
import shutil
import stat
import subprocess
import sys
import tempfile

sys.dont_write_bytecode = True
sys.path.insert(0, os.path.abspath(f"{__file__}/../../.."))

from tests.support.command import PROGRAM, TOP
from tests.support.documents import LINK, commands
from tests.support.serve_peers import free_port

# What the commands of the pages call besides.
SHELL = "sh cat head tail sed sleep cut tr sort uniq grep wc awk printf seq env od mktemp".split()

PAGES = ["README.md", "examples/README.md"]

# How a folder is open that is there before the archive is unpacked.
MODE = 0o711


def made(folder):
    """Makes the packages into a folder, and answers their names."""
    subprocess.run([f"{TOP}/contrib/package", folder], check=True)
    return sorted(os.listdir(folder))


def unpacked(room, folder, names):
    """Unpacks both packages, each into a root of its own, and answers the roots."""
    archive = next(name for name in names if name.endswith(".tar.gz"))
    package = next(name for name in names if name.endswith(".deb"))
    of_archive, of_package = f"{room}/archive", f"{room}/package"
    os.makedirs(f"{of_archive}/usr")
    os.chmod(f"{of_archive}/usr", MODE)
    unpacking = ["tar", "-xzf", f"{folder}/{archive}", "-C", of_archive, "--strip-components=1", "--no-overwrite-dir"]
    subprocess.run(unpacking, check=True)
    subprocess.run(["dpkg-deb", "-x", f"{folder}/{package}", of_package], check=True)
    return of_archive, of_package


def wrote(root, words, command, room):
    """What a command of a page writes, from the folder of the pages. Its variables are as for transcripts.py."""
    env = {"PATH": f"{root}/usr/bin:{words}", "LC_ALL": "C.UTF-8", "d": room, "p": str(free_port())}
    ended = subprocess.run(
        ["sh", "-c", command], cwd=f"{root}/usr/share/doc/hsms", env=env,
        stdin=subprocess.DEVNULL, stdout=subprocess.PIPE, stderr=subprocess.STDOUT, timeout=120, check=False,
    )
    return ended.stdout.decode(errors="replace").rstrip("\n")


def path_of_words(room):
    """A folder with the words of the shell alone."""
    folder = f"{room}/words"
    os.mkdir(folder)
    for word in SHELL:
        if shutil.which(word):
            os.symlink(shutil.which(word), f"{folder}/{word}")
    return folder


def libraries(program):
    """The libraries that a program needs."""
    told = subprocess.run(["objdump", "-p", program], capture_output=True, text=True, check=True).stdout
    return set(re.findall(r"NEEDED\s+(\S+)", told))


def links(folder):
    """Yields each link of the packed pages to a file, and whether that is packed."""
    for page in sorted(glob.glob(f"{folder}/**/*.md", recursive=True)):
        with open(page, encoding="utf-8") as file:
            found = LINK.findall(file.read())
        for link in found:
            path = link.partition("#")[0]
            if path and not link.startswith(("http:", "https:")):
                target = os.path.realpath(f"{os.path.dirname(page)}/{path}")
                is_packed = os.path.exists(target) and target.startswith(f"{os.path.realpath(folder)}/")
                yield f"{page}: ({link})", is_packed


def completed(line, begun=""):
    """What bash completes for a line and the beginning of its last word."""
    words = line.split(" ")
    script = f'. contrib/hsms.bash; COMP_WORDS=({line} "{begun}") COMP_CWORD={len(words)}; _hsms; echo "${{COMPREPLY[@]}}"'
    ended = subprocess.run(["bash", "-c", script], cwd=TOP, capture_output=True, text=True, check=True)
    return set(ended.stdout.split())


def completions():
    """Yields whether what follows from the command line's definition is that, and has the options that the help shows."""
    written = subprocess.run([f"{TOP}/contrib/command-line", "--check"], stdout=subprocess.DEVNULL, check=False)
    yield "completions and manual pages as they are generated", written.returncode == 0
    for command in sorted(it for it in completed("hsms") if not it.startswith("-") and it != "help"):
        shown = subprocess.run([PROGRAM, command, "--help"], capture_output=True, text=True, check=True).stdout
        options = set(re.findall(r"^ +(?:-\w, )?(--[\w-]+)", shown, re.M))
        yield f"completion of hsms {command}: {sorted(options)}", completed(f"hsms {command}", "--") == options
        takes_files = "[FILE]" in shown
        yield f"completion of hsms {command}: files", (completed(f"hsms {command}") == set()) == takes_files


def checks(room):
    """Yields what was tried, and whether it is well."""
    yield from completions()
    one, other = f"{room}/one", f"{room}/other"
    names = made(one)
    yield "three files", len(names) == 3
    same = made(other) == names and filecmp.cmpfiles(one, other, names, shallow=False)[0] == names
    yield "made twice, the same octets", same
    summed = subprocess.run(["sha256sum", "-c", "--quiet", "SHA256SUMS"], cwd=one, check=False)
    yield "checksums", summed.returncode == 0
    words = path_of_words(room)
    roots = unpacked(room, one, names)
    yield "a folder that was there", stat.S_IMODE(os.stat(f"{roots[0]}/usr").st_mode) == MODE
    for root in roots:
        program = f"{root}/usr/bin/hsms"
        yield f"{root}: the C library alone", libraries(program) <= {"libc.so.6", "libm.so.6", "ld-linux-x86-64.so.2"}
        yield f"{root}: the program as it was built", filecmp.cmp(program, PROGRAM, shallow=False)
        yield f"{root}: what proved it", open(f"{root}/usr/share/doc/hsms/PROVED-BY").read().startswith("rattle-kit")
        yield from links(f"{root}/usr/share/doc/hsms")
        for page in PAGES:
            with open(f"{root}/usr/share/doc/hsms/{page}") as file:
                shown = list(commands(file.read()))
            for command, wanted in shown:
                answer = wrote(root, words, command, room)
                yield f"{root}, {page}: $ {command}\nwanted:\n{wanted}\nwrote:\n{answer}", answer == wanted


def main():
    with tempfile.TemporaryDirectory(prefix="hsms-package-") as room:
        tried = list(checks(room))
    for what, is_well in tried:
        if not is_well:
            print(f"failed: {what}")
    failed = sum(not is_well for _, is_well in tried)
    print(f"{len(tried) - failed} passed, {failed} failed")
    return 1 if failed else 0


if __name__ == "__main__":
    sys.exit(main())
