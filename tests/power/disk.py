"""A file on a disk whose power is cut. Each sector that was written since the last flush is as it was then, as one of these writes left it,
or torn between the two. The size is one that it had since then."""

SECTOR = 512

# How a cut chooses among the writes since the last flush.
WAYS = ("none", "all", "few", "half", "most", "nearly all", "pages", "late", "early", "early", "without one", "without some", "some",
        "from one on")

SHARES = {"few": 0.1, "half": 0.5, "most": 0.9, "nearly all": 0.99}


def put(content, at, piece):
    """Writes into an array of bytes, which grows."""
    if len(content) < at + len(piece):
        content.extend(bytes(at + len(piece) - len(content)))
    content[at:at + len(piece)] = piece


def resize(content, size):
    if size < len(content):
        del content[size:]
    else:
        content.extend(bytes(size - len(content)))


def padded(piece):
    return bytes(piece) + bytes(SECTOR - len(piece))


def sector_of(content, number):
    return padded(content[number * SECTOR:(number + 1) * SECTOR])


def torn(rng, old, new):
    place = rng.randrange(1, SECTOR)
    return new[:place] + old[place:] if rng.random() < 0.5 else old[:place] + new[place:]


class File:
    """`flushed` is on the disk; `pending` are the calls since."""

    def __init__(self):
        self.flushed, self.pending = bytearray(), []

    def begin(self, content):
        self.flushed, self.pending = bytearray(content), []

    def note(self, record):
        self.pending.append(record)

    def flush(self):
        for record in self.pending:
            perform(self.flushed, record)
        self.pending = []

    def versions(self):
        """For each sector that was written, the calls that wrote it and what it was after each; and all sizes."""
        content, sectors, sizes = bytearray(self.flushed), {}, [len(self.flushed)]
        for number, record in enumerate(self.pending):
            perform(content, record)
            sizes.append(len(content))
            if record.kind != "T" and record.content:
                last = (record.at + len(record.content) - 1) // SECTOR
                for sector in range(record.at // SECTOR, last + 1):
                    sectors.setdefault(sector, []).append((number, sector_of(content, sector)))
        return sectors, sizes

    def cut(self, rng, way):
        """What a cut of power leaves."""
        sectors, sizes = self.versions()
        content = bytearray(self.flushed)
        new = chosen(rng, way, sectors, len(self.pending))
        share = max(0.03, 0.5 / (1 + len(new)))
        for sector, piece in new.items():
            if rng.random() < share:
                piece = torn(rng, sector_of(self.flushed, sector), piece)
            put(content, sector * SECTOR, piece)
        resize(content, size_after(rng, way, sizes))
        return content


def perform(content, record):
    if record.kind == "T":
        resize(content, record.at)
    else:
        put(content, record.at, record.content)


def size_after(rng, way, sizes):
    if way == "none":
        return sizes[0]
    if rng.random() < 0.3:
        return rng.choice(sizes)
    return max(sizes[0], sizes[-1]) if rng.random() < 0.9 else sizes[-1]


def last_before(versions, call):
    """What the last of the first calls left of a sector, or None."""
    before = [piece for number, piece in versions if number < call]
    return before[-1] if before else None


def chosen(rng, way, sectors, calls):
    """The new content of those sectors that a cut leaves new."""
    call = rng.randrange(calls) if calls else 0
    last = {sector: versions[-1][1] for sector, versions in sectors.items()}
    if way == "all":
        return last
    if way in SHARES:
        return {sector: rng.choice(versions)[1] if rng.random() < 0.3 else versions[-1][1] for sector, versions in sectors.items()
                if rng.random() < SHARES[way]}
    if way == "pages":
        kept = {page: rng.random() < 0.5 for page in {sector // 8 for sector in sectors}}
        return {sector: piece for sector, piece in last.items() if kept[sector // 8]}
    if way == "late":
        return {sector: versions[-1][1] for sector, versions in sectors.items() if versions[-1][0] >= call}
    if way in ("early", "from one on"):
        share = 0.5 if way == "from one on" else 0.0
        found = {sector: last[sector] if rng.random() < share else last_before(versions, call) for sector, versions in sectors.items()}
        return {sector: piece for sector, piece in found.items() if piece}
    if way == "without one":
        return {sector: versions[-1][1] for sector, versions in sectors.items() if all(number != call for number, _ in versions)}
    if way == "without some":
        lost = set(rng.sample(sorted(sectors), min(len(sectors), rng.choice([1, 1, 2, 5]))))
        return {sector: piece for sector, piece in last.items() if sector not in lost}
    if way == "some":
        kept = rng.sample(sorted(sectors), min(len(sectors), rng.choice([1, 2, 5, 20])))
        return {sector: rng.choice(sectors[sector])[1] for sector in kept}
    return {}


def cut_all(rng, files):
    """The images that a cut of power leaves, and the ways in which they were chosen: of half of the cuts one way."""
    way = rng.choice(WAYS)
    ways = [way if rng.random() < 0.5 else rng.choice(WAYS) for _ in files]
    return {name: file.cut(rng, way) for (name, file), way in zip(files.items(), ways)}, ways
