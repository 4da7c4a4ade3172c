"""Reads the label, the metadata areas and their committed texts of an image."""
import re
import struct

SECTOR = 512
# A physical volume in a text.
LISTED = re.compile(rb'\bpv\d+ *\{\s*id *= *"([^"]*)"')
# A leg in a list of them.
LEG = re.compile(r'"([^"]*)", (\d+)')


def label_at(image):
    """Where the label's sector begins, or None."""
    return next((at for at in range(0, 4 * SECTOR, SECTOR) if image[at:at + 8] == b"LABELONE"), None)


def pairs(image, at):
    """The pairs of offset and size from there to the pair that ends them, and where that one ends."""
    found = []
    while True:
        offset, size = struct.unpack_from("<QQ", image, at)
        at += 16
        if offset == 0:
            return found, at
        found.append((offset, size))


def areas(image):
    """The metadata areas of the physical volume, each as offset and size in bytes."""
    at = label_at(image)
    if at is None:
        return []
    _, behind = pairs(image, at + 72)
    return pairs(image, behind)[0]


def is_marked(image):
    """Whether its label says that a group uses the physical volume."""
    at = label_at(image)
    if at is None:
        return False
    _, behind = pairs(image, at + 72)
    _, behind = pairs(image, behind)
    version, flags = struct.unpack_from("<II", image, behind)
    return version > 0 and flags & 1 == 1


def is_left(image):
    """Whether its label says that a group uses it and no area tells of one."""
    return is_marked(image) and not any(texts(image))


def text(image, area):
    """The committed text of the area, b"" where it has none, and None where the area is ignored."""
    start, size = area
    offset, length, _, flags = struct.unpack_from("<QQII", image, start + 40)
    if flags & 1:
        return None
    front = bytes(image[start + offset:start + size][:length])
    return front + bytes(image[start + 512:start + 512 + length - len(front)]) if offset else b""


def texts(image):
    """The committed texts of its areas that aren't ignored."""
    return [it for it in (text(image, area) for area in areas(image)) if it is not None]


def id_of(image):
    """The id of the physical volume, b"" where there is none."""
    at = label_at(image)
    return b"" if at is None else bytes(image[at + 32:at + 64])


def listed(images):
    """Of these images by their names the names of those that the first text among them lists, in its order."""
    names = {id_of(it): name for name, it in images.items()}
    first = next((it for image in images.values() for it in texts(image) if it), b"")
    return [names[it.replace(b"-", b"")] for it in LISTED.findall(first)]


def tree(text):
    """The sections of a text that has one item on each line, as a dictionary of what stands behind `=` and of sections."""
    stack = [{}]
    for line in text.splitlines():
        name, _, value = line.partition(" = ")
        if line == "}":
            stack.pop()
        elif line.endswith(" {"):
            stack.append(stack[-1].setdefault(line[:-2], {}))
        else:
            stack[-1][name] = value
    return stack[0]


def places(backup, group, images):
    """Where each volume of this group in a backup lies, by its id: for each of its extents, or of its rows of stripes, the kind of
    its segment and for each leg the disk among these images and the extent there."""
    top = tree(backup)[group]
    names = {id_of(it).decode(): name for name, it in images.items()}
    disks = {pv: names[it["id"].strip('"').replace("-", "")] for pv, it in top["physical_volumes"].items()}
    return {it["id"].strip('"'): [row for number in range(int(it["segment_count"])) for row in rows(it[f"segment{number + 1}"], disks)]
            for it in top.get("logical_volumes", {}).values()}


def beginning(backup, group, volume, images):
    """The disk of the first leg of this volume, and the extent there with which it begins."""
    uuid = tree(backup)[group]["logical_volumes"][volume]["id"].strip('"')
    _, legs = places(backup, group, images)[uuid][0]
    return legs[0]


def rows(segment, disks):
    """The same of one segment, whose legs lie on these disks."""
    is_mirror = segment["type"] == '"mirror"'
    legs = LEG.findall(segment["mirrors" if is_mirror else "stripes"])
    count = int(segment["extent_count"]) // (1 if is_mirror else len(legs))
    kind = "mirror" if is_mirror else "striped" if len(legs) > 1 else "linear"
    return [(kind, tuple((disks[pv], int(first) + at) for pv, first in legs)) for at in range(count)]
