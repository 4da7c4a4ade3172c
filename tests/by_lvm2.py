"""What lvm2 lists of a group on files that are loop devices."""
import reading
from states import State, Volume, joined


def rows(loops, line):
    """The columns of each line."""
    return [[column.strip() for column in it.split(",")] for it in loops.done(f"{line} --noheadings --separator ,")]


def state_of(loops):
    """The state of the disks."""
    labels, members = [], {}
    for name, group, extents in rows(loops, "pvs -o pv_name,vg_name,pv_pe_count"):
        labels.append(loops.named(name))
        if group:
            members[labels[-1]] = int(extents)
    groups = rows(loops, "vgs -o vg_name,vg_seqno")
    if not groups:
        return State(labels)
    [[group, seqno]] = groups
    members = {name: members[name] for name in reading.listed(loops.images())}
    return State(labels, group, int(seqno), members, volumes_of(loops))


def segments_of(loops, column):
    """The segments of all volumes in their order, each as this column of its volume, its kind, how many extents it has, and for each
    leg its disk and its first and last extent there."""
    columns = f"{column},segtype,seg_start_pe,seg_size_pe,seg_pe_ranges"
    for of, kind, _, extents, ranges in sorted(rows(loops, f"lvs -a --segments -o {columns}"), key=lambda it: int(it[2])):
        legs = [it.replace("-", ":").split(":") for it in loops.named(ranges).split()]
        yield of, kind, int(extents), [(disk, int(first), int(last)) for disk, first, last in legs]


def volumes_of(loops):
    """The volumes of the group."""
    found = {}
    for name, kind, extents, legs in segments_of(loops, "lv_name"):
        found.setdefault((name, kind.replace("striped", "stripe")), []).append((extents, tuple(disk for disk, _, _ in legs)))
    return [Volume(name, kind, joined(it)) for (name, kind), it in found.items()]


def places_of(loops):
    """Where each volume lies, by its id: for each of its extents, or of its rows of stripes, the kind of its segment and for each leg
    the disk and the extent there."""
    found = {}
    for uuid, kind, _, legs in segments_of(loops, "lv_uuid"):
        lines = [[(disk, it) for it in range(first, last + 1)] for disk, first, last in legs]
        found.setdefault(uuid, []).extend((kind, row) for row in zip(*lines, strict=True))
    return found
