"""Runs of a program: its processor time, the most memory that it held, and the instructions that it took."""
import os
import re
import shutil
import subprocess

TOP = os.path.dirname(os.path.dirname(os.path.abspath(__file__)))
PROGRAM = f"{TOP}/crates/hsms_tool/out/hsms_tool"
MB = 1_000_000

# Linux counts to a program's most memory that of the process that it was started from. So a small one starts it.
LAUNCHER = r"""
#include <stdio.h>
#include <sys/resource.h>
#include <sys/wait.h>
#include <unistd.h>
int main(int argc, char **argv) {
    struct rusage used;
    int status;
    pid_t child = fork();
    if (child == 0) { execv(argv[2], argv + 2); _exit(127); }
    if (child < 0 || wait4(child, &status, 0, &used) < 0) return 1;
    FILE *told = fopen(argv[1], "w");
    if (!told) return 1;
    fprintf(told, "%d %ld.%06ld %ld.%06ld %ld\n", status, used.ru_utime.tv_sec, used.ru_utime.tv_usec,
            used.ru_stime.tv_sec, used.ru_stime.tv_usec, used.ru_maxrss);
    return fclose(told) != 0;
}
"""


class Runner:
    """Runs programs over files; `room` is a folder for its own files."""

    def __init__(self, room):
        self.room = room
        self.launcher = f"{room}/launcher"
        with open(f"{room}/launcher.c", "w") as file:
            file.write(LAUNCHER)
        subprocess.run(["cc", "-O2", "-static", "-o", self.launcher, f"{room}/launcher.c"], check=True)

    def run(self, words, path, times=1):
        """The processor time in seconds, of several runs the middle one, and the most memory in MB."""
        told = f"{self.room}/told"
        seconds, held = [], []
        for _ in range(times):
            with open(path, "rb") as given, open(os.devnull, "wb") as taken:
                words_at = [shutil.which(words[0]), *words[1:]]
                subprocess.run([self.launcher, told, *words_at], stdin=given, stdout=taken, check=True)
            with open(told) as file:
                status, user, system, kilobytes = file.read().split()
            if status != "0":
                raise SystemExit(f"{words}: status {status}")
            seconds.append(float(user) + float(system))
            held.append(int(kilobytes) * 1024 / MB)
        return sorted(seconds)[times // 2], max(held)

    def instructions(self, words, path):
        """How many instructions a run takes, or None where valgrind isn't installed."""
        if not shutil.which("valgrind"):
            return None
        counter = ["valgrind", "--tool=cachegrind", "--cache-sim=no", "--cachegrind-out-file=/dev/null"]
        with open(path, "rb") as given:
            done = subprocess.run([*counter, *words], stdin=given, stdout=subprocess.DEVNULL, stderr=subprocess.PIPE)
        if done.returncode != 0:
            raise SystemExit(f"{words}: status {done.returncode}\n{done.stderr.decode()}")
        return int(re.search(rb"I\s+refs:\s+([\d,]+)", done.stderr)[1].replace(b",", b""))


def write(path, make, size):
    """Writes an input piece by piece."""
    with open(path, "wb") as file:
        for piece in make(size):
            file.write(piece)


def lines_of(path):
    """How many lines an input has."""
    with open(path, "rb") as file:
        return sum(block.count(b"\n") for block in iter(lambda: file.read(MB), b""))
