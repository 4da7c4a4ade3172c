"""Disk images in lvm2's on-disk format, built field by field, and the texts of groups.

Sizes are in sectors of 512 bytes where they are called so, and else in bytes.
"""
import struct
import zlib

SECTOR = 512
# The metadata area and the data's start as lvm2 places them.
AREA = (4096, 1044480)
PE_START = 2048


def crc(data):
    """lvm2's checksum: a CRC-32 that begins with F597A6CF and ends without an inversion."""
    return zlib.crc32(data, 0xF597A6CF ^ 0xFFFFFFFF) ^ 0xFFFFFFFF


def plain(name):
    """The id of 32 characters that begins with this name."""
    return name.ljust(32, "0")


def hyphens(name):
    """The same id as it prints."""
    id = plain(name)
    return "-".join((id[:6], id[6:10], id[10:14], id[14:18], id[18:22], id[22:26], id[26:]))


def sealed(body, number):
    """The sector of a label with this number, whose bytes from 20 on are these."""
    body = body.ljust(SECTOR - 20, b"\0")
    return b"LABELONE" + struct.pack("<QI", number, crc(body)) + body


def label(name, sectors, areas=(AREA,), data=((PE_START * SECTOR, 0),), contents=32, kind=b"LVM2 001", number=1, flags=1):
    """The label of a physical volume with this id. The lowest of the flags says that a group uses it; without flags the header
    has no extension."""
    body = struct.pack("<I8s", contents, kind) + plain(name).encode() + struct.pack("<Q", sectors * SECTOR)
    for pairs in (data, areas):
        for offset, size in pairs:
            body += struct.pack("<QQ", offset, size)
        body += struct.pack("<QQ", 0, 0)
    return sealed(body if flags is None else body + struct.pack("<IIQQ", 2, flags, 0, 0), number)


def header(area, entry=None, ignored=False, said=None):
    """The header of a metadata area with this entry: an offset, a size and a sum. It may say another start and size."""
    start, size = said or area
    body = b" LVM2 x[5A%r0N*>" + struct.pack("<IQQ", 1, start, size)
    offset, length, total = entry or (0, 0, 0)
    body += struct.pack("<QQII", offset, length, total, 1 if ignored else 0)
    body = body.ljust(SECTOR - 4, b"\0")
    return struct.pack("<I", crc(body)) + body


class Disk:
    """A disk: its sectors that aren't zeros."""

    def __init__(self, sectors=131072):
        self.sectors = sectors
        self.parts = []

    def put(self, at, data):
        self.parts.append((at, data))
        return self

    def label(self, name, number=1, **fields):
        return self.put(number * SECTOR, label(name, self.sectors, number=number, **fields))

    def text(self, text, area=AREA, offset=512, total=None, size=None, **fields):
        """Commits the text in the area, with a zero byte behind it."""
        stored = text + b"\0"
        size = len(stored) if size is None else size
        entry = (offset, size, crc(stored[:size]) if total is None else total)
        front = area[1] - offset
        self.put(area[0], header(area, entry, **fields))
        self.put(area[0] + offset, stored[:front])
        return self.put(area[0] + 512, stored[front:]) if stored[front:] else self

    def empty(self, area=AREA, **fields):
        """An area without a committed text."""
        return self.put(area[0], header(area, **fields))

    def write(self, path):
        with open(path, "wb") as file:
            file.truncate(self.sectors * SECTOR)
            for at, data in self.parts:
                file.seek(at)
                file.write(data)

    def bytes(self):
        image = bytearray(self.sectors * SECTOR)
        for at, data in self.parts:
            image[at:at + len(data)] = data
        return bytes(image)


def pv(name, id, pe_count=15, pe_start=PE_START, dev_size=131072, status='"ALLOCATABLE"', flags=""):
    return (f"{name} {{\nid = \"{hyphens(id)}\"\ndevice = \"/dev/{id}\"\nstatus = [{status}]\nflags = [{flags}]\n"
            f"dev_size = {dev_size}\npe_start = {pe_start}\npe_count = {pe_count}\n}}\n")


def striped(start, count, legs, stripe=None):
    size = f"stripe_size = {stripe}\n" if stripe is not None else ""
    return (start, count, f"type = \"striped\"\nstripe_count = {len(legs)}\n{size}stripes = [{pairs(legs)}]\n")


def mirror(start, count, legs, region=1024, moved=None):
    done = f"extents_moved = {moved}\n" if moved is not None else ""
    return (start, count, f"type = \"mirror\"\nmirror_count = {len(legs)}\nregion_size = {region}\n{done}mirrors = [{pairs(legs)}]\n")


def pairs(legs):
    return ", ".join(f"\"{on}\", {first}" for on, first in legs)


def lv(name, id, segments, status='"READ", "WRITE", "VISIBLE"', count=None):
    parts = [f"{name} {{\nid = \"{hyphens(id)}\"\nstatus = [{status}]\nflags = []\ncreation_time = 1\ncreation_host = \"host\"\n"
             f"segment_count = {len(segments) if count is None else count}\n"]
    for number, (start, extents, rest) in enumerate(segments):
        parts.append(f"segment{number + 1} {{\nstart_extent = {start}\nextent_count = {extents}\n{rest}}}\n")
    return "".join(parts) + "}\n"


def group(pvs, lvs=(), name="vg0", id="group", seqno=1, extent_size=8192, max_lv=0, max_pv=0, status='"RESIZEABLE", "READ", "WRITE"', more=""):
    """The text of a group with these volumes."""
    volumes = "logical_volumes {\n" + "".join(lvs) + "}\n" if lvs else ""
    return (f"{name} {{\nid = \"{hyphens(id)}\"\nseqno = {seqno}\n{more}format = \"lvm2\"\nstatus = [{status}]\nflags = []\n"
            f"extent_size = {extent_size}\nmax_lv = {max_lv}\nmax_pv = {max_pv}\nmetadata_copies = 0\n"
            f"physical_volumes {{\n{''.join(pvs)}}}\n{volumes}}}\n"
            "contents = \"Text Format Volume Group\"\nversion = 1\ndescription = \"\"\ncreation_host = \"localhost\"\ncreation_time = 0\n").encode()
