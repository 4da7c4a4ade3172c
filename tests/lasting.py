"""What a session's calls may leave: of each sector what was acknowledged last, or a later value."""
from disks import SECTOR
from loose import Row
from volumes import EXTENT, EXTENTS, NAMES, PE_START, PLACES, Model


class Story:
    """What lines bring to each sector: the opening value, and each other one with the number of its line, and with that of the line whose
    answer says that it lasts, or None."""

    def __init__(self, opening, lines):
        model = Model(opening)
        self.values = {(name, PE_START + at): [(-1, model.sector(name, PE_START + at), -1)] for name in NAMES
                       for at in range(EXTENT * EXTENTS)}
        self.lines = lines
        self.waits = [number for number, it in enumerate(lines) if it.kind == "wait"]
        for number, it in enumerate(lines):
            if not it.refusal():
                for sector, value in zip(it.sectors(), it.values):
                    self.values[PLACES[it.volume()][sector]].append((number, value, self.acknowledged(number, it)))

    def acknowledged(self, number, line):
        """The line whose answer says that what this one writes lasts: itself where it is through, else a flush behind a wait."""
        if line.through:
            return number
        behind = range(next((it for it in self.waits if it > number), len(self.lines)), len(self.lines))
        return next((at for at in behind if (self.lines[at].kind, self.lines[at].path) == ("flush", line.path)), None)

    def candidates(self, place, answered):
        """What this sector may hold once all lines before this number are answered."""
        every = self.values[place]
        base = max(at for at, (_, _, by) in enumerate(every) if by is not None and by < answered)
        return [value for _, value, _ in every[base:]]


class Watch:
    """The calls of a session as they come, each on a disk with that: what is written belongs to a line, no line comes before a wait is
    over, and a cut of the power leaves candidates."""

    def __init__(self, folder, opening, lines):
        self.row, self.story, self.answered, self.wrong = Row(folder, NAMES), Story(opening, lines), 0, None
        self.opened, self.calls = {}, []

    def see(self, call):
        if call.answer is None:
            return
        if call.name == "openat":
            self.opened[str(call.answer)] = call.text.rstrip(b"\0").decode(errors="replace")
        name = self.opened.get(call.words[0])
        if name not in NAMES or call.name not in ("pread64", "pwrite64", "fsync"):
            return
        self.calls.append((call, name))
        if call.name == "fsync" and call.answer == 0:
            self.row.settle(name)
        elif call.name == "pwrite64" and call.answer > 0:
            self.write(name, int(call.words[-1]), call.text[:call.answer])

    def write(self, name, at, data):
        self.row.write(name, at, data)
        for done in range(0, len(data), SECTOR):
            value, place = data[done:done + SECTOR], (name, (at + done) // SECTOR)
            own = [number for number, it, _ in self.story.values[place] if it == value and number >= 0]
            if not own:
                self.wrong = self.wrong or f"{place} is given what no line brings there"
                continue
            passed = max((it for it in self.story.waits if it < min(own)), default=0)
            if passed > self.answered:
                self.answered = passed
                self.look()
            if max(own) < self.answered:
                self.wrong = self.wrong or f"line {max(own) + 1} writes behind the wait of line {self.answered + 1}"

    def look(self):
        """What a cut of the power may leave now."""
        for name in NAMES:
            for at, values in self.row.later[name].items():
                self.check((name, at // SECTOR), [bytes(self.row.settled[name][at:at + SECTOR]), *values])
        for place in self.story.values:
            if len(self.story.values[place]) > 1 and place[1] * SECTOR not in self.row.later[place[0]]:
                self.check(place, [bytes(self.row.settled[place[0]][place[1] * SECTOR:place[1] * SECTOR + SECTOR])])

    def check(self, place, values):
        allowed = self.story.candidates(place, self.answered)
        if any(it not in allowed for it in values):
            self.wrong = self.wrong or f"{place} may lose what was acknowledged before line {self.answered + 1}"
