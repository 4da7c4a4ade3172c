"""Runs of a program under strace: its calls in their order, with what they write, and stops before one of them."""
import functools
import os
import re
import shutil
import subprocess
import tempfile

LINE = re.compile(rb"^\d+ +(\w+)\((.*)\) += (\?|-?\d+|0x[0-9a-f]+)")
HEX = re.compile(rb'"((?:\\x[0-9a-f]{2})*)"')


@functools.cache
def is_there():
    """Whether strace is there and may follow a program."""
    if not shutil.which("strace"):
        return False
    return subprocess.run(["strace", "-o", os.devnull, "true"], capture_output=True).returncode == 0


class Call:
    """A call: its name, how many of this name there were up to it, its words, the first text among them, and its answer."""

    def __init__(self, name, number, words, answer):
        self.name, self.number = name, number
        text = HEX.search(words)
        self.text = bytes.fromhex(text[1].replace(b"\\x", b"").decode()) if text else b""
        self.words = HEX.sub(b"_", words).decode().split(", ")
        self.answer = None if answer == b"?" else int(answer, 0)


def calls_of(log):
    """The calls of a log of strace."""
    counts, calls = {}, []
    for line in log.splitlines():
        found = LINE.match(line)
        if found:
            name = found[1].decode()
            counts[name] = counts.get(name, 0) + 1
            calls.append(Call(name, counts[name], found[2], found[3]))
    return calls


def traced(words, names, folder=None, env=None, stop=None, source=b"", fault=None, by="SIGKILL"):
    """The program's calls of these names, and what it prints and its status, where it may read these bytes. It is stopped before
    the call `stop` by a signal, and `fault` is what happens to a call in its place, as strace has it."""
    with tempfile.TemporaryDirectory() as place:
        log = os.path.join(place, "log")
        tracer = ["strace", "-f", "-o", log, "-xx", "-s", "1048576", "-e", "signal=none", "-e", f"trace={','.join(names)}"]
        if stop:
            tracer += ["-e", f"inject={stop.name}:signal={by}:when={stop.number}"]
        if fault:
            tracer += ["-e", f"inject={fault}"]
        done = subprocess.run([*tracer, *words], cwd=folder, env=env, input=source, capture_output=True, timeout=120)
        with open(log, "rb") as file:
            return calls_of(file.read()), done
