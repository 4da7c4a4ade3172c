"""Files as disks: a cut of the power leaves in each sector what was flushed last, or what any later write put there."""
import os

SECTOR = 512


class Row:
    """The files of a folder: what is settled in each, and what was written to its sectors since, the oldest first."""

    def __init__(self, folder, names):
        self.folder, self.names = folder, names
        self.load()

    def path(self, name):
        return os.path.join(self.folder, name)

    def image(self, name):
        with open(self.path(name), "rb") as file:
            return file.read()

    def load(self):
        """Takes what stands in the files as settled."""
        self.settled = {name: bytearray(self.image(name)) for name in self.names}
        self.now = {name: bytearray(image) for name, image in self.settled.items()}
        self.later = {name: {} for name in self.names}

    def follow(self, calls):
        """Takes over what these calls wrote and flushed. Answers the files that were flushed."""
        opened, flushed = {}, set()
        for call in calls:
            if call.name == "openat" and call.answer is not None:
                opened[call.answer] = call.text.rstrip(b"\0").decode()
            elif call.answer is None or not call.words[0].isdigit():
                continue
            elif call.name == "pwrite64":
                self.write(opened[int(call.words[0])], int(call.words[-1]), call.text[:call.answer])
            elif call.name == "fsync" and call.answer == 0:
                flushed.add(opened[int(call.words[0])])
                self.settle(opened[int(call.words[0])])
        return flushed

    def write(self, name, at, data):
        if at % SECTOR or len(data) % SECTOR:
            raise ValueError(f"{len(data)} bytes were written to {name} at {at}")
        self.now[name][at:at + len(data)] = data
        for done in range(0, len(data), SECTOR):
            self.later[name].setdefault(at + done, []).append(data[done:done + SECTOR])

    def settle(self, name):
        for at in self.later[name]:
            self.settled[name][at:at + SECTOR] = self.now[name][at:at + SECTOR]
        self.later[name] = {}

    def is_followed(self):
        """Whether the files hold what the calls have written."""
        return all(self.image(name) == self.now[name] for name in self.names)

    def cut(self, rng):
        """Leaves in each sector that isn't settled one of its values, and answers how many there were of those."""
        count = 0
        for name in self.names:
            with open(self.path(name), "r+b") as file:
                for at, values in sorted(self.later[name].items()):
                    value = rng.choice([bytes(self.settled[name][at:at + SECTOR]), *values])
                    self.now[name][at:at + SECTOR] = value
                    file.seek(at)
                    file.write(value)
                    count += 1
            self.settle(name)
        return count
