"""Commands on two and on three images, each with what it runs on, and what the reports say before it and after it."""
import tempfile

import program

# How many bytes an image has: room for 16 extents behind the metadata, which hold something from the start.
SIZE, DATA, EXTENT = 2 << 20, 1 << 20, "64k"
REPORTS = ("pvs", "vgs", "lvs", "vgck", "pvck a", "vgcfgbackup vg0")


def state(folder, names):
    """What stands on these disks: what the reports say of physical volumes, of the group and of volumes."""
    return tuple(program.said(folder, names, line) for line in ("pvs", "vgs", "lvs"))


class Scene:
    """A command on these disks, the images on which it runs, the text that it reads, and the states before it and after it."""

    def __init__(self, names, line, images, source=b""):
        self.names, self.line, self.images, self.source = names, line, images, source
        with tempfile.TemporaryDirectory() as folder:
            self.begin(folder)
            self.old = state(folder, names)
            done = self.run(folder)
            if done.stdout != b"1: ok\n":
                raise RuntimeError(f"{line}: {done}")
            self.new = state(folder, names)

    def __str__(self):
        return f"{self.line}, on {len(self.names)} disks"

    def begin(self, folder):
        program.put(folder, self.images)

    def words(self):
        return program.words(self.names, self.line)

    def run(self, folder):
        return program.run(folder, self.names, self.line, source=self.source)


def made(names, lines):
    """The images of blank disks with data after these commands."""
    with tempfile.TemporaryDirectory() as folder:
        program.put(folder, {name: bytes(DATA) + name.encode() * (SIZE - DATA) for name in names})
        for line in lines:
            found = program.said(folder, names, line)
            if found != ("1: ok\n", 0):
                raise RuntimeError(f"{line}: {found}")
        return program.images(folder, names)


def backup(names, images):
    with tempfile.TemporaryDirectory() as folder:
        program.put(folder, images)
        return program.run(folder, names, "vgcfgbackup vg0").stdout


def scenes_of(names):
    """The scenes on these disks, of which the second of three has no metadata area."""
    *most, last = names
    labels = [f"pvcreate {'--metadatacopies 0 ' if name in most[1:] else ''}{name}" for name in names]
    some = [f"vgcreate -s {EXTENT} vg0 {' '.join(most)}", "lvcreate -n data -l 3 vg0 a"]
    free = made(names, labels)
    joined = made(names, [*labels, f"vgcreate -s {EXTENT} vg0 {' '.join(names)}"])
    full = made(names, [*labels, f"vgcreate -s {EXTENT} vg0 {' '.join(names)}", some[1]])
    yield Scene(names, f"pvcreate {last}", made(names, [*labels[:-1], *some]))
    yield Scene(names, f"vgcreate -s {EXTENT} vg0 {' '.join(names)}", free)
    yield Scene(names, f"vgextend vg0 {last}", made(names, [*labels, *some]))
    yield Scene(names, f"vgreduce vg0 {last}", full)
    yield Scene(names, f"lvcreate -n new -l 6 -i {len(names)} vg0", full)
    yield Scene(names, "lvcreate -n new -l 9 -m 1 vg0", full)
    yield Scene(names, f"lvextend -l +2 vg0/data {last}", full)
    yield Scene(names, "lvreduce -l 1 vg0/data", full)
    yield Scene(names, "lvremove vg0/data", full)
    yield Scene(names, "lvrename vg0 data files", full)
    yield Scene(names, "vgrename vg0 vg1", full)
    yield Scene(names, "vgcfgrestore vg0", full, backup(names, full))
    yield Scene(names, "vgremove vg0", joined)


def scenes():
    return [it for names in ("ab", "abc") for it in scenes_of(names)]


def on_group(names):
    """The images of a group of these disks with a volume."""
    return next(it.images for it in scenes_of(names) if it.line.startswith("vgreduce"))
