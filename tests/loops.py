"""lvm2's commands on files, each of which is a loop device meanwhile. It needs root, lvm2 and losetup."""
import os
import re
import shutil
import subprocess
import tempfile

# What lvm2 says where it has no device mapper and writes no backup.
USUAL = ("Activation disabled. No device-mapper interaction will be attempted.", "This metadata update is NOT backed up.",
         "not zeroed.")
# What its vgcfgrestore says there, which asks whether a volume is active.
NO_MAPPER = re.compile("|".join((r"/dev/mapper/control: open failed: .*", r"Failure to communicate with kernel device-mapper driver\.",
                                r"Check that device-mapper is available in the kernel\.",
                                r"Incompatible libdevmapper .* and kernel driver \(.*\)\.",
                                r'WARNING: Failed to check for active volumes in volume group ".*"\.')))
# What it says of a disk whose label is marked as used by a group, where no group lists it.
MARKED = re.compile(r"WARNING: PV (\S+) (is marked in use but no VG was found using it|might need repairing)\.")


def wanting():
    """What isn't there for lvm2 to run on loop devices, or None."""
    if os.geteuid() != 0:
        return "no root"
    if not os.path.exists("/dev/loop-control"):
        return "no loop devices"
    return next((f"no {it}" for it in ("lvm", "losetup") if not shutil.which(it)), None)


class Complaint(Exception):
    """A command of lvm2 failed, or printed more to standard error than what is usual here."""


class Loops:
    """The files as loop devices, from its entry to its exit; `marked` are those that lvm2 finds marked and in no group."""

    def __init__(self, paths):
        self.paths = paths
        self.device, self.marked = {}, set()

    def __enter__(self):
        self.folder = tempfile.mkdtemp(prefix="lvm2-")
        try:
            for path in self.paths:
                done = subprocess.run(["losetup", "-f", "--show", path], check=True, capture_output=True, text=True)
                self.device[os.path.basename(path)] = done.stdout.strip()
            self.configure()
        except BaseException:
            self.__exit__()
            raise
        return self

    def __exit__(self, *_):
        for device in self.device.values():
            subprocess.run(["losetup", "-d", device], check=False)
        shutil.rmtree(self.folder)

    def configure(self):
        """Settings of our own: these devices alone, each write a call of its own, nothing in the system's folders."""
        allowed = "".join(f'"a|^{it}$|", ' for it in self.device.values())
        settings = (f'devices {{ use_devicesfile=0 hints="none" obtain_device_list_from_udev=0 filter=[{allowed}"r|.*|"] }}',
                    f'global {{ use_lvmpolld=0 use_aio=0 locking_dir="{self.folder}" }}',
                    "activation { udev_sync=0 udev_rules=0 }", "backup { backup=0 archive=0 }")
        with open(os.path.join(self.folder, "lvm.conf"), "w") as file:
            file.write("\n".join(settings))
        self.env = dict(os.environ, LVM_SYSTEM_DIR=self.folder, LVM_SUPPRESS_FD_WARNINGS="1", LC_ALL="C")

    def images(self):
        """What stands in the files, by their names."""
        found = {}
        for path in self.paths:
            with open(path, "rb") as file:
                found[os.path.basename(path)] = file.read()
        return found

    def words(self, line):
        """The words of a command, in which a file's name behind a `:` stands for its device."""
        given = [self.device[it[1:]] if it.startswith(":") else it for it in line.split()]
        return ["lvm", *given, "--driverloaded", "n"]

    def done(self, line):
        """The sorted lines of a command that has to go well."""
        done = subprocess.run(self.words(line), env=self.env, capture_output=True, text=True, timeout=60)
        complaints = [it.strip() for it in done.stderr.splitlines() if it.strip() and not it.strip().endswith(USUAL)]
        complaints = [it for it in complaints if not NO_MAPPER.fullmatch(it)]
        self.marked |= {self.named(MARKED.fullmatch(it)[1]) for it in complaints if MARKED.fullmatch(it)}
        complaints = [it for it in complaints if not MARKED.fullmatch(it)]
        if done.returncode or complaints:
            raise Complaint(f"lvm2's {line}: status {done.returncode}, {complaints}")
        return sorted(it.strip() for it in done.stdout.splitlines())

    def named(self, line):
        """The same line with the names of files in the place of their devices."""
        for name, device in self.device.items():
            line = re.sub(rf"{device}\b", name, line)
        return line
