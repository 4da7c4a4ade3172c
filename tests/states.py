"""A row of disks with one group: what the reports are to say of it, and how commands change that."""
from collections import namedtuple
from itertools import combinations, product

NAMES = ("a", "b", "c", "d")
SIZE = 3 << 20
# The metadata area of a new physical volume, from its start to its end; the data follow.
AREA = (4096, 1 << 20)
EXTENT = 256 << 10
NEW_EXTENTS = (SIZE - AREA[1]) // EXTENT
# How many extents a region of a new mirror has: lvm2 takes no mirror that is shorter.
REGION_EXTENTS = 2
# With so many bytes of zeros a new volume begins.
ZEROS = 4096
# What groups and volumes may be called.
GROUPS = ("vg0", "vg1", "g.R+o-u_p." * 6)
VOLUMES = ("data", "both", "more", "v-0_1.+" * 9)


def joined(segments):
    """The segments, where those that follow each other on the same disks are one."""
    found = []
    for count, disks in segments:
        if found and found[-1][1] == disks:
            count += found.pop()[0]
        found.append((count, disks))
    return tuple(found)


class Volume(namedtuple("Volume", ("name", "kind", "segments"))):
    """A volume: its name, its kind, and its segments in their order, each as a pair of how many extents it has and the disks on
    which these lie, in equal parts or on each of a mirror's. Neighbours on the same disks are one."""

    def stripes(self, disks):
        """In how many parts a segment on these disks has its extents."""
        return 1 if self.kind == "mirror" else len(disks)

    @property
    def extents(self):
        return sum(count for count, _ in self.segments)

    @property
    def sectors(self):
        return self.extents * (EXTENT // 512)

    def used_of(self, disk):
        """How many extents it has on this disk."""
        return sum(count // self.stripes(disks) for count, disks in self.segments if disk in disks)

    def longer(self, extents, disks):
        """The volume with so many extents, and with those that make whole stripes, of which the new ones are on these disks."""
        stripes = self.stripes(disks)
        more = -(-(extents - self.extents) // stripes) * stripes
        return self._replace(segments=joined((*self.segments, (more, disks))))

    def first(self, extents):
        """The volume with so many of its first extents, and with those that make whole stripes of the segment that is cut."""
        kept = []
        for count, disks in self.segments:
            if extents > 0:
                stripes = self.stripes(disks)
                kept.append((min(count, -(-extents // stripes) * stripes), disks))
            extents -= count
        return self._replace(segments=tuple(kept))


class State:
    """The disks with a physical volume, and of the group its name, its sequence number, how many extents each member has, and
    its volumes."""

    def __init__(self, labels=(), group="vg0", seqno=0, members=(), volumes=()):
        self.labels, self.group, self.seqno = frozenset(labels), group, seqno
        self.members, self.volumes = dict(members), tuple(sorted(volumes))

    def reports(self):
        """What pvs, vgs and lvs print, the last with its lines sorted."""
        pvs = []
        for name in NAMES:
            if name in self.labels:
                group = self.group if name in self.members else "-"
                extents = self.members.get(name, 0)
                free = self.free_of(name) if name in self.members else 0
                pvs.append(f"{name:<20} {group:<16} {extents:>10} {free:>10}\n")
        extents = sum(self.members.values())
        free = sum(self.free_of(name) for name in self.members)
        counts = f"{len(self.members):>6} {len(self.volumes):>6} {self.seqno:>10} {extents:>10} {free:>10}"
        vgs = f"{self.group:<16} {counts}\n" if self.members else ""
        lvs = [f"{it.name:<16} {self.group:<16} {it.kind:<6} {it.sectors:>12}\n" for it in self.volumes]
        return {"pvs": "".join(pvs), "vgs": vgs, "lvs": "".join(sorted(lvs))}

    def is_same(self, other):
        return vars(self) == vars(other)

    def with_label(self, name):
        return State(**{**vars(self), "labels": self.labels | {name}})

    def next(self, **changed):
        """The next version of the group, with other values of what is given."""
        return State(**{**vars(self), "seqno": self.seqno + 1, **changed})

    def with_members(self, names, extents):
        """The next version with these disks too, which have so many extents, or those of a new physical volume."""
        return self.next(members={**self.members, **{name: extents.get(name, NEW_EXTENTS) for name in names}})

    def without_member(self, name):
        return self.next(members={it: extents for it, extents in self.members.items() if it != name})

    def without_group(self):
        return State(self.labels)

    def restored(self, saved):
        """The next version that is the group of that state."""
        return self.next(seqno=max(self.seqno, saved.seqno) + 1, members=saved.members, volumes=saved.volumes)

    def may_become(self, saved):
        """Whether the group may be restored to that state's: it has the same name and the same members."""
        return self.group == saved.group and self.members == saved.members

    def unused(self):
        """The members on which no volume lies."""
        return [name for name, extents in self.members.items() if self.free_of(name) == extents]

    def with_volume(self, name, *instead):
        """The next version with these volumes in the place of the one of this name."""
        return self.next(volumes=[it for it in self.volumes if it.name != name] + [*instead])

    def free_of(self, disk):
        """How many extents of this disk are free."""
        return self.members[disk] - sum(it.used_of(disk) for it in self.volumes)

    def volume(self, name):
        return next(it for it in self.volumes if it.name == name)

    def has_volume(self, name):
        return any(it.name == name for it in self.volumes)

    def may_be_wrong(self):
        """The lines that vgck may print of it after a stop."""
        strays = self.labels - self.members.keys()
        return {"ok", *(f"stale {name}" for name in self.members), *(f"stray {name}" for name in strays)}


class Command:
    """A command: its words, what it makes of a state, whether a state is the one after it already, and its answer then; the
    disks whose labels it writes, those of which it makes the area, the name of the volume that it creates, and the text from
    which it restores the group."""

    def __init__(self, words, change, is_done, again, disks=(), areas=(), creates=None, source=b""):
        self.words, self.change, self.is_done, self.again = words, change, is_done, again
        self.disks, self.areas, self.creates, self.source = disks, areas, creates, source

    def takes(self):
        """The disks that are to be free before it."""
        return self.disks if self.words.split()[0] in ("pvcreate", "vgcreate", "vgextend") else []

    def after(self, state):
        return state if self.is_done(state) else self.change(state)

    def answer(self, state):
        return self.again if self.is_done(state) else "1: ok\n"


def pvcreate(name, copies):
    words = f"pvcreate {'' if copies else '--metadatacopies 0 '}{name}"
    areas = [name] if copies else []
    return Command(words, lambda it: it.with_label(name), lambda it: name in it.labels, "1: ok\n", [name], areas)


def vgcreate(disks, extents={}):
    words = f"vgcreate -s {EXTENT >> 10}k vg0 {' '.join(disks)}"
    again = "1: refused GroupStands vg0\n"
    return Command(words, lambda it: it.with_members(disks, extents), lambda it: disks[0] in it.members, again, disks)


def vgextend(group, disks, extents={}):
    words = f"vgextend {group} {' '.join(disks)}"
    again = f"1: refused PvUsed {disks[0]}\n"
    return Command(words, lambda it: it.with_members(disks, extents), lambda it: disks[0] in it.members, again, disks)


def vgreduce(group, name):
    words = f"vgreduce {group} {name}"
    again = f"1: refused NotInGroup {name}\n"
    return Command(words, lambda it: it.without_member(name), lambda it: name not in it.members, again, [name])


def vgremove(group, disks):
    words = f"vgremove {group}"
    again = f"1: refused UnknownGroup {group}\n"
    return Command(words, lambda it: it.without_group(), lambda it: not it.members, again, disks)


def vgrename(group, new):
    words = f"vgrename {group} {new}"
    again = f"1: refused UnknownGroup {group}\n"
    return Command(words, lambda it: it.next(group=new), lambda it: it.group == new, again)


def vgcfgrestore(saved, text):
    """The group of that state, of which this is the backup."""
    return Command(f"vgcfgrestore {saved.group}", lambda it: it.restored(saved), lambda _: False, None, source=text)


def lvrename(group, volume, new):
    name, renamed = volume.name, volume._replace(name=new)
    words = f"lvrename {group} {name} {new}"
    again = f"1: refused UnknownVolume {name}\n"
    return Command(words, lambda it: it.with_volume(name, renamed), lambda it: not it.has_volume(name), again)


def said(extents, is_size):
    """So many extents as an option, or a size that takes as many."""
    return f"-L {extents * (EXTENT // 512) - 1}s" if is_size else f"-l {extents}"


def lvcreate(group, name, kind, extents, disks, is_size=False, is_named=True):
    new = Volume(name, kind, ()).longer(extents, disks)
    legs = {"linear": "", "stripe": f"-i {len(disks)}", "mirror": f"-m {len(disks) - 1}"}[kind]
    words = f"lvcreate -n {name} {said(extents, is_size)} {legs} {group} {' '.join(sorted(disks)) if is_named else ''}"
    again = f"1: refused NameTaken {name}\n"
    return Command(words, lambda it: it.with_volume(name, new), lambda it: it.has_volume(name), again, creates=name)


def lvextend(group, volume, extents, disks, is_size=False, is_named=True):
    name, more = volume.name, volume.longer(extents, disks)
    words = f"lvextend {said(extents, is_size)} {group}/{name} {' '.join(sorted(disks)) if is_named else ''}"
    again = f"1: refused NotLonger {more.extents} {more.extents}\n"
    return Command(words, lambda it: it.with_volume(name, more), lambda it: more in it.volumes, again)


def lvreduce(group, volume, extents):
    name, less = volume.name, volume.first(extents)
    words = f"lvreduce -l {extents} {group}/{name}"
    again = f"1: refused NotShorter {less.extents} {less.extents}\n"
    return Command(words, lambda it: it.with_volume(name, less), lambda it: less in it.volumes, again)


def lvremove(group, volume):
    name = volume.name
    words = f"lvremove {group}/{name}"
    again = f"1: refused UnknownVolume {name}\n"
    return Command(words, lambda it: it.with_volume(name), lambda it: not it.has_volume(name), again)


def creations(state):
    """Which volumes may be created in such a state: names, kinds, how many extents and of which disks, in the order of the text."""
    names = [it for it in VOLUMES if not state.has_volume(it)]
    for name, (kind, legs) in product(names, (("linear", 1), ("stripe", 2), ("stripe", 3), ("mirror", 2), ("mirror", 3))):
        for disks in combinations(state.members, legs):
            room = min(state.free_of(it) for it in disks) * (legs if kind == "stripe" else 1)
            least = REGION_EXTENTS if kind == "mirror" else 1
            yield from ((name, kind, extents, disks) for extents in range(least, min(room, 4) + 1))


def extensions(state):
    """How the volumes of such a state may grow: to how many extents, and of as many disks as the last segment has."""
    for volume in state.volumes:
        legs = len(volume.segments[-1][1])
        for disks in combinations(state.members, legs):
            room = min(state.free_of(it) for it in disks) * volume.stripes(disks)
            yield from ((volume, volume.extents + more, disks) for more in range(1, min(room, 3) + 1))


def edits(state, leaving=()):
    """What may be done to the names and the volumes of such a state, and to these members, which may leave: of each kind that goes,
    a list of its commands."""
    group, volumes = state.group, state.volumes
    shorter = [(it, extents) for it in volumes for extents in range(1, it.extents) if it.first(extents) != it]
    shorter = [(it, extents) for it, extents in shorter if it.kind != "mirror" or extents >= REGION_EXTENTS]
    kinds = ([vgrename(group, new) for new in GROUPS if new != group],
             [lvrename(group, it, new) for it in volumes for new in VOLUMES if not state.has_volume(new)],
             [lvcreate(group, *it, is_size) for it in creations(state) for is_size in (False, True)],
             [lvextend(group, *it, is_size) for it in extensions(state) for is_size in (False, True)],
             [lvreduce(group, it, extents) for it, extents in shorter],
             [lvremove(group, it) for it in volumes],
             [vgreduce(group, it) for it in leaving])
    return [it for it in kinds if it]
