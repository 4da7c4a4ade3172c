"""Lines of a session that run one after another, and what they answer where one of their calls fails."""
from disks import SECTOR
from volumes import PLACES, WAIT, Model, fill, flush, read

# Lines that run one after another, each with one piece on each of its disks, and each read on sectors of its own.
SINGLE = [it for line in (
    fill("wide", 4, 8, 1000), read("wide", 0, 16), fill("last", 60, 4, 2000), flush("wide"), fill("data", 188, 8, 3000, True),
    read("data", 0, 4), fill("wide", 412, 8, 4000), fill("twin", 1, 2, 5000), fill("last", 8, 8, 6000, True), flush("wide"),
    read("last", 0, 8), fill("data", 190, 4, 7000), flush("twin"), flush("data"), read("wide", 408, 16), read("twin", 0, 8))
    for it in (line, WAIT)]


def disks_of(line):
    return {PLACES[line.volume()][it][0] for it in line.sectors()}


def synced_by(lines):
    """The lines that sync a disk, in order: each as often as there are disks that it syncs."""
    dirty, found = set(), []
    for number, it in enumerate(lines):
        own = disks_of(it) if it.values else set()
        if it.through or it.kind == "flush":
            synced = own or {disk for name, disk in dirty if name == it.volume()}
            found += [number] * len(synced)
            dirty = {(name, disk) for name, disk in dirty if disk not in synced}
        else:
            dirty |= {(it.volume(), disk) for disk in own}
    return found


class Fault:
    """A call of a session that fails: its kind, its disk, and the number of the line that it is of."""

    def __init__(self, kind, disk, line):
        self.kind, self.disk, self.line = kind, disk, line


class Failing(Model):
    """Lines that run one after another, of which one meets a fault."""

    def __init__(self, opening, fault):
        super().__init__(opening)
        self.fault, self.failed, self.dirty = fault, False, set()

    def is_done(self, number, place):
        """Whether this sector of the line is read or written."""
        met = self.failed or number == self.fault.line and self.fault.kind == "pwrite64"
        return place[0] != self.fault.disk or not met

    def put(self, number, line):
        """Does what can be done of a fill, and says whether that is all."""
        places = [PLACES[line.volume()][it] for it in line.sectors()]
        done = [self.is_done(number, it) for it in places]
        for (name, at), value, well in zip(places, line.values, done):
            if well:
                self.images[name][at * SECTOR:at * SECTOR + SECTOR] = value
                self.dirty.add((line.volume(), name))
        return all(done)

    def sync(self, line):
        """Does what can be done of what a line syncs, and says whether that is all."""
        synced = disks_of(line) if line.through else {disk for name, disk in self.dirty if name == line.volume()}
        lost = {self.fault.disk} if self.failed else set()
        self.dirty = {(name, disk) for name, disk in self.dirty if disk not in synced - lost}
        return not synced & lost

    def line(self, number, line):
        """What the line answers."""
        met, failed = number == self.fault.line, f"pv failed {self.fault.disk}"
        if line.kind == "read":
            if self.failed and self.fault.disk in disks_of(line):
                return failed
            return f"read failed {self.fault.disk}" if met else self.answer(line)
        if line.kind not in ("fill", "flush"):
            return self.answer(line)
        well = line.kind == "flush" or self.put(number, line)
        self.failed |= met
        well = (self.sync(line) if line.through or line.kind == "flush" else True) and well
        return "ok" if well else failed


def fault_of(call, disk, syncs, lines):
    """This call of a session as a fault. Behind so many syncs of its lines it is the next one, if it is one."""
    if call.name == "fsync":
        return Fault(call.name, disk, synced_by(lines)[syncs])
    first, count = int(call.words[-1]) // SECTOR, int(call.words[-2]) // SECTOR
    sectors = {(disk, first + at) for at in range(count)}
    its = [number for number, it in enumerate(lines) if it.path and sectors & {PLACES[it.volume()][sector] for sector in it.sectors()}]
    is_own = (lambda it: it.kind == "read") if call.name == "pread64" else (lambda it: call.text[:SECTOR] in it.values)
    return Fault(call.name, disk, next(number for number in its if is_own(lines[number])))
