"""A group on three disks with volumes of each kind, where their sectors lie, and what a plain model answers to lines of a session."""
from disks import PE_START, SECTOR, Disk, group, lv, mirror, pv, striped

NAMES = ("a", "b", "c")
EXTENT, EXTENTS = 64, 32
SECTORS = PE_START + EXTENT * EXTENTS
VISIBLE, READ_ONLY, HIDDEN = '"READ", "WRITE", "VISIBLE"', '"READ", "VISIBLE"', '"READ", "WRITE"'
MOVING, MOVE = '"READ", "WRITE", "VISIBLE", "LOCKED"', '"READ", "WRITE", "PVMOVE", "LOCKED"'
LAST = (1 << 64) - 1


class Segment:
    """So many extents over these legs, each a physical volume or a volume with the extent there: in stripes, as a mirror, or as a
    move of which so many extents are done."""

    def __init__(self, count, *legs, stripe=None, is_mirror=False, moved=None):
        self.count, self.legs, self.stripe, self.is_mirror, self.moved = count, legs, stripe, is_mirror, moved

    def text(self, start):
        if self.is_mirror:
            return mirror(start, self.count, self.legs, moved=self.moved)
        return striped(start, self.count, self.legs, self.stripe)

    def place(self, sector):
        """What has this sector of it, and which sector there: of a mirror the first leg, or the second once all is moved."""
        leg = int(self.moved == self.count)
        if self.stripe:
            unit, within = divmod(sector, self.stripe)
            leg, sector = unit % len(self.legs), unit // len(self.legs) * self.stripe + within
        on, first = self.legs[leg]
        return on, first * EXTENT + sector


# In the order of the text, with the status of each.
VOLUMES = {
    "data": (VISIBLE, [Segment(3, ("pv0", 0)), Segment(2, ("pv1", 5)), Segment(1, ("pv0", 3))]),
    "left": (HIDDEN, [Segment(2, ("pv1", 20))]),
    "wide": (VISIBLE, [Segment(6, ("pv0", 4), ("pv1", 8), ("pv2", 0), stripe=8), Segment(4, ("pv2", 2), ("pv0", 6), stripe=32)]),
    "right": (HIDDEN, [Segment(1, ("pv2", 20)), Segment(1, ("pv0", 28))]),
    "twin": (VISIBLE, [Segment(2, ("pv1", 0), ("pv2", 10), is_mirror=True), Segment(1, ("pv2", 12))]),
    "over_mimage_0": (HIDDEN, [Segment(2, ("pv2", 16)), Segment(1, ("pv0", 20))]),
    "over_mimage_1": (HIDDEN, [Segment(3, ("pv1", 16))]),
    "over": (VISIBLE, [Segment(3, ("over_mimage_0", 0), ("over_mimage_1", 0), is_mirror=True)]),
    "deep": (VISIBLE, [Segment(4, ("left", 0), ("right", 0), stripe=16)]),
    "pvmove0": (MOVE, [Segment(2, ("pv0", 12), ("pv1", 24), is_mirror=True, moved=2),
                       Segment(2, ("pv0", 14), ("pv2", 24), is_mirror=True, moved=1)]),
    "moving": (MOVING, [Segment(3, ("pvmove0", 0)), Segment(1, ("pv1", 28)), Segment(1, ("pvmove0", 3))]),
    "fixed": (READ_ONLY, [Segment(1, ("pv0", 24))]),
    "last": (VISIBLE, [Segment(1, ("pv2", 31))]),
}
LENGTHS = {name: EXTENT * sum(it.count for it in segments) for name, (status, segments) in VOLUMES.items() if "VISIBLE" in status}
LIST = " ".join(["list", *(f"{name}={length}" for name, length in LENGTHS.items())])


def place(on, sector):
    """The disk of this sector of a volume or a physical volume, and the sector there."""
    if on not in VOLUMES:
        return NAMES[int(on[2:])], PE_START + sector
    for it in VOLUMES[on][1]:
        if sector < it.count * EXTENT:
            return place(*it.place(sector))
        sector -= it.count * EXTENT
    raise ValueError(f"{on} has no such sector")


PLACES = {name: [place(name, sector) for sector in range(length)] for name, length in LENGTHS.items()}


def group_text():
    """The text of the group."""
    pvs = [pv(f"pv{at}", it, pe_count=EXTENTS, dev_size=SECTORS) for at, it in enumerate(NAMES)]
    lvs = []
    for name, (status, segments) in VOLUMES.items():
        starts = [sum(it.count for it in segments[:at]) for at in range(len(segments))]
        lvs.append(lv(name, name.replace("_", ""), [it.text(start) for start, it in zip(starts, segments)], status))
    return group(pvs, lvs, extent_size=EXTENT)


def opening(rng):
    """The images of the group, whose data are numbers and bytes at random."""
    data = [b"".join(rng.randbytes(8) * 64 if rng.randrange(4) else rng.randbytes(SECTOR) for _ in range(EXTENT * EXTENTS)) for _ in NAMES]
    return {name: Disk(SECTORS).label(name).text(group_text()).put(PE_START * SECTOR, it).bytes() for name, it in zip(NAMES, data)}


class Line:
    """A line of a script: its words, what it does, to which sectors of which volume, and what it writes to them."""

    def __init__(self, text, kind=None, path=None, start=0, count=0, values=(), through=False):
        self.text, self.kind, self.path, self.start, self.count = text, kind, path, start, count
        self.values, self.through = values, through

    def volume(self):
        return self.path.partition("/")[2]

    def sectors(self):
        return range(self.start, self.start + self.count)

    def refusal(self):
        """Why it isn't done, or None."""
        if not self.path:
            return None
        vg, _, name = self.path.partition("/")
        if vg != "vg0":
            return f"refused UnknownGroup {vg}"
        if self.values and name in LENGTHS and "WRITE" not in VOLUMES[name][0]:
            return "refused ReadOnly"
        if name not in LENGTHS:
            return f"refused UnknownVolume {name}"
        end = min(self.start + self.count, LAST)
        return f"refused PastEnd {end} {LENGTHS[name]}" if end > LENGTHS[name] else None


def token(sector):
    """A sector as an answer has it."""
    return f"={int.from_bytes(sector[:8], 'little'):016x}" if sector == sector[:8] * 64 else sector.hex()


class Model:
    """The disks, and the lines done on them one after another."""

    def __init__(self, images):
        self.images = {name: bytearray(it) for name, it in images.items()}

    def images_now(self):
        """A copy of the disks."""
        return {name: bytes(it) for name, it in self.images.items()}

    def sector(self, name, at):
        return bytes(self.images[name][at * SECTOR:at * SECTOR + SECTOR])

    def answer(self, line):
        """What the line answers, or None where it asks for nothing."""
        refusal = line.refusal()
        if refusal or line.kind is None:
            return refusal
        places = [PLACES[line.volume()][it] for it in line.sectors()] if line.path else []
        for (name, at), value in zip(places, line.values):
            self.images[name][at * SECTOR:at * SECTOR + SECTOR] = value
        if line.kind == "read":
            return " ".join(["data", *(token(self.sector(*it)) for it in places)])
        return LIST if line.kind == "list" else "ok"

    def output(self, lines):
        """What a session of these lines prints, and its status."""
        answers = [(number, self.answer(it)) for number, it in enumerate(lines, 1)]
        said = [f"{number}: {it}\n" for number, it in answers if it]
        return "".join(said), 5 if any(it and it.startswith("refused") for _, it in answers) else 0


# ---- lines

def number_sectors(value, count):
    return tuple(((value + at) % (1 << 64)).to_bytes(8, "little") * 64 for at in range(count))


def fill(name, start, count, value, through=False):
    words = ["fill", "--through"] if through else ["fill"]
    text = " ".join([*words, f"vg0/{name}", str(start), str(count), str(value)])
    return Line(text, "fill", f"vg0/{name}", start, count, number_sectors(value, count), through)


def read(name, start, count):
    return Line(f"read vg0/{name} {start} {count}", "read", f"vg0/{name}", start, count)


def flush(name):
    return Line(f"flush vg0/{name}", "flush", f"vg0/{name}")


WAIT = Line("wait", "wait")


# ---- lines at random

def spaced(rng, words):
    """The words, with some more spaces between them now and then."""
    return "".join(word + " " * rng.choice((1, 1, 1, 1, 1, 3)) for word in words[:-1]) + words[-1]


def start_in(rng, length, count):
    """Where so many sectors may begin: often at an end of an extent or of the volume."""
    edge = rng.choice((0, length, EXTENT * rng.randrange(length // EXTENT + 1), rng.randrange(length)))
    return min(max(0, edge + rng.randrange(-count, 3)), length - count)


def reading(rng, path, start, count):
    return Line(spaced(rng, ["read", path, str(start).zfill(rng.choice((1, 1, 7))), str(count)]), "read", path, start, count)


def filling(rng, path, start, count, through):
    value = rng.choice((rng.getrandbits(64), rng.getrandbits(64), LAST - rng.randrange(3)))
    words = ["fill", path, str(start), str(count), str(value)]
    if through:
        words.insert(rng.randrange(1, 6), "--through")
    return Line(spaced(rng, words), "fill", path, start, count, number_sectors(value, count), through)


def writing(rng, path, start, count, through):
    values = tuple(rng.choice((rng.randbytes(SECTOR), rng.randbytes(8) * 64)) for _ in range(count))
    digits = b"".join(values).hex()
    words = ["write", path, str(start), rng.choice((digits, digits.upper()))]
    if through:
        words.insert(rng.randrange(1, 5), "--through")
    return Line(spaced(rng, words), "write", path, start, count, values, through)


def on_sectors(rng, path, start, count):
    """A read, a fill or a write of these sectors, of which a write takes 8 at most."""
    through = rng.randrange(3) == 0
    kind = rng.randrange(5)
    if kind < 2:
        return reading(rng, path, start, count)
    return filling(rng, path, start, count, through) if kind < 4 or count > 8 else writing(rng, path, start, count, through)


def on_volume(rng):
    name = rng.choice([it for it in LENGTHS if it != "fixed"])
    count = min(rng.choice((1, 2, 8, rng.randrange(1, 9), rng.randrange(1, 129))), LENGTHS[name])
    return on_sectors(rng, f"vg0/{name}", start_in(rng, LENGTHS[name], count), count)


def refused(rng):
    name, count = rng.choice(list(LENGTHS)), rng.randrange(1, 129)
    path, start = rng.choice((("vg1/" + name, 0), ("vg0/gone", 0), ("vg0/left", 3), ("vg0/fixed", LENGTHS["fixed"]), ("vg0/fixed", 5),
                              (f"vg0/{name}", LENGTHS[name] - count + 1), (f"vg0/{name}", LENGTHS[name]), (f"vg0/{name}", LAST),
                              (f"vg0/{name}", LAST - count), (f"vg0/{name}", LAST - count + 1)))
    if rng.randrange(6) == 0 and path != f"vg0/{name}":
        return Line(f"flush {path}", "flush", path)
    return on_sectors(rng, path, max(start, 0), count)


def any_line(rng):
    kind = rng.randrange(20)
    if kind < 14:
        return on_volume(rng)
    if kind == 14:
        return refused(rng)
    if kind < 18:
        name = rng.choice(list(LENGTHS))
        return Line(spaced(rng, ["flush", f"vg0/{name}"]), "flush", f"vg0/{name}")
    return rng.choice((WAIT, Line(" wait ", "wait"), Line("list", "list"), Line(""), Line("  "), Line("# read vg0/data 0 1")))


def script_of(lines):
    """The text of the lines, of which the last has a line feed too."""
    return "".join(it.text + "\n" for it in lines).encode()
