"""The built program, run on the images of a folder."""
import os
import subprocess

TOP = os.path.dirname(os.path.dirname(os.path.abspath(__file__)))
PROGRAM = os.path.join(TOP, "crates/lvm_cli/out/lvm_cli")
# So many seconds a run may take.
LIMIT = 60


def words(names, line, *before):
    """The words of a command on these disks; some words stand before all others."""
    return [PROGRAM, *before, *(word for name in names for word in ("-d", name)), *line.split()]


def run(folder, names, line, *before, source=b""):
    """A run of a command on these disks, which may read this text."""
    return subprocess.run(words(names, line, *before), cwd=folder, input=source, capture_output=True, timeout=LIMIT)


def said(folder, names, line, *before, source=b""):
    """What a command prints, and its status."""
    done = run(folder, names, line, *before, source=source)
    return done.stdout.decode(errors="replace"), done.returncode


def image(folder, name):
    with open(os.path.join(folder, name), "rb") as file:
        return file.read()


def images(folder, names):
    """What stands on these disks, by their names."""
    return {name: image(folder, name) for name in names}


def blank(folder, names, size):
    """Makes blank images of so many bytes."""
    for name in names:
        with open(os.path.join(folder, name), "wb") as file:
            file.truncate(size)


def put(folder, every):
    """Puts this onto the disks."""
    for name, data in every.items():
        with open(os.path.join(folder, name), "wb") as file:
            file.write(data)
