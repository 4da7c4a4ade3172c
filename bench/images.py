"""Writes so many disks of a group with so many volumes of 16 segments each into a folder, and prints the size of the text.

    images.py FOLDER DISKS VOLUMES

The disks are called d0, d1 and so on, have metadata areas of 8 MiB and all the same text; their data are holes.
"""
import os
import sys

sys.path.insert(0, os.path.join(os.path.dirname(os.path.dirname(os.path.abspath(__file__))), "tests"))
from disks import SECTOR, Disk, group, lv, pv, striped  # noqa: E402

EXTENT, AREA, DATA = 2048, (4096, 8 * 1024 * 1024 - 4096), 16384


def volume(number, disks):
    """A volume whose neighbouring segments lie on different disks, so that no two are one."""
    extents = [number * 16 + at for at in range(16)]
    segments = [striped(at, 1, [(f"pv{extent % disks}", extent // disks)]) for at, extent in enumerate(extents)]
    return lv(f"volume{number}", f"v{number:031d}", segments)


def main(folder, disks, volumes):
    extents = volumes * 16 // disks + 1
    sectors = DATA + extents * EXTENT + EXTENT
    pvs = [pv(f"pv{number}", f"p{number:031d}", extents, DATA, sectors) for number in range(disks)]
    text = group(pvs, [volume(number, disks) for number in range(volumes)], extent_size=EXTENT)
    for number in range(disks):
        disk = Disk(sectors).label(f"p{number:031d}", areas=(AREA,), data=((DATA * SECTOR, 0),)).text(text, AREA)
        disk.write(os.path.join(folder, f"d{number}"))
    print(len(text) + 1)


main(sys.argv[1], int(sys.argv[2]), int(sys.argv[3]))
