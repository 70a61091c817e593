"""A plain recovery: what the bytes of logs and checkpoints are as a store, or why they are none."""

from __future__ import annotations

from dataclasses import dataclass, field

LAST_STEP = 1 << 59
MOST_LOGS = 64
KEY_BYTES = 251
COLUMNS = 16
COLUMN_BYTES = 1_024

Row = list[bytes]
Named = dict[int, bytes]  # columns by their indexes
Owner = tuple[int, bytes]


class NotInFormat(Exception):
    """Bytes that are not what the format says."""


@dataclass
class StoreRefused(Exception):
    """A store that is refused, by the number of its refusal; of a bad log, from which byte on it is none."""

    number: int
    offset: int | None = None


class Fields:
    """The fields of some bytes, from the front."""

    def __init__(self, rest: bytes) -> None:
        self.rest = rest

    def take(self, count: int) -> bytes:
        if len(self.rest) < count:
            raise NotInFormat
        taken, self.rest = self.rest[:count], self.rest[count:]
        return taken

    def number(self, width: int) -> int:
        return int.from_bytes(self.take(width), "big")

    def text(self, limit: int) -> bytes:
        length = self.number(2)
        if length > limit:
            raise NotInFormat
        return self.take(length)

    def key(self) -> tuple[int, bytes]:
        return self.number(4), self.text(KEY_BYTES)

    def row(self) -> Row:
        count = self.number(1)
        if not 1 <= count <= COLUMNS:
            raise NotInFormat
        return [self.text(COLUMN_BYTES) for _ in range(count)]

    def named(self) -> Named:
        count = self.number(1)
        named = [(self.number(1), self.text(COLUMN_BYTES)) for _ in range(count)]
        indexes = [index for index, _ in named]
        if not indexes or indexes[-1] >= COLUMNS or any(a >= b for a, b in zip(indexes, indexes[1:])):
            raise NotInFormat
        return dict(named)


@dataclass
class Batch:
    """A batch of records, each with its stamp, its owner, and the row, the changed columns or none."""

    begin: int
    end: int
    kept: int | None
    records: list[tuple[int, Owner, Row | Named | None]] = field(default_factory=list)


@dataclass
class Log:
    """A worker's log of one generation, or such a log joined with the next one."""

    worker: int
    count: int
    generation: int = 0
    start: int = 0
    batches: list[Batch] = field(default_factory=list)

    @property
    def mark(self) -> int:
        return self.batches[-1].end if self.batches else self.start


def batch_of(version: int, body: bytes) -> Batch:
    fields = Fields(body)
    kind, begin, end = fields.number(1), fields.number(8), fields.number(8)
    if end > LAST_STEP:
        raise NotInFormat
    if kind == 1:
        batch = Batch(begin, end, fields.number(8))
    elif kind == 2 or kind == 0 and version == 1:
        batch = Batch(begin, end, None)
        for _ in range(fields.number(4)):
            stamp, key, write = fields.number(8), fields.key(), fields.number(1)
            if write > (2 if kind == 2 else 1):
                raise NotInFormat
            batch.records.append((stamp, key, (lambda: None, fields.row, fields.named)[write]()))
    else:
        raise NotInFormat
    if fields.rest:
        raise NotInFormat
    return batch


def batches_of(version: int, image: bytes, at: int) -> list[Batch]:
    """The batches from this byte on, up to the first gate that isn't open."""
    batches: list[Batch] = []
    while True:
        if at >= len(image):
            raise StoreRefused(12, at)
        if image[at] != 1:
            return batches
        length = int.from_bytes(image[at + 1:at + 5], "big")
        body = image[at + 5:at + 5 + length]
        if len(image) < at + 5 or len(body) < length:
            raise StoreRefused(12, at)
        try:
            batches.append(batch_of(version, body))
        except NotInFormat:
            raise StoreRefused(12, at) from None
        at += 5 + length


def plain_log(image: bytes) -> Log | None:
    """The log of generation 0, or none."""
    if image[:1] in (b"", b"\x00"):
        return None
    if len(image) < 8 or image[:5] != b"MTLOG" or image[5] not in (1, 2) or not image[6] < image[7] <= MOST_LOGS:
        raise StoreRefused(12, 0)
    return Log(image[6], image[7], batches=batches_of(image[5], image, 8))


def numbered_log(image: bytes, parity: int) -> Log | None:
    """The log in a numbered file, which is of a generation of this parity, or none."""
    if image[:1] != b"\x01":
        return None
    fields = Fields(image[1:])
    try:
        if fields.take(6) != b"MTLOG\x03":
            raise NotInFormat
        worker, count, generation, start = fields.number(1), fields.number(1), fields.number(8), fields.number(8)
    except NotInFormat:
        raise StoreRefused(12, 0) from None
    if not (worker < count <= MOST_LOGS and 1 <= generation <= LAST_STEP and start <= LAST_STEP and generation % 2 == parity):
        raise StoreRefused(12, 0)
    return Log(worker, count, generation, start, batches_of(3, image, 25))


@dataclass
class Checkpoint:
    """Its pairs have their stamps; in format 1 that is where it began."""

    first: int
    last: int
    pairs: dict[Owner, tuple[int, Row]]


def checkpoint_of(image: bytes) -> Checkpoint | None:
    """The checkpoint of a slot's file, or none."""
    if image[:6] != b"\x01MTCKP" or image[6:7] not in (b"\x01", b"\x02"):
        return None
    fields, pairs = Fields(image[7:]), {}
    try:
        first = fields.number(8)
        while (kind := fields.number(1)) == 1:
            key = fields.key()
            stamp = fields.number(8) if image[6] == 2 else first
            row = fields.row()
            if pairs and key <= next(reversed(pairs)):
                return None
            pairs[key] = stamp, row
        last = fields.number(8)
    except NotInFormat:
        return None
    stamps = (stamp for stamp, _ in pairs.values())
    return Checkpoint(first, last, pairs) if kind == 2 and first <= last <= LAST_STEP and max(stamps, default=0) <= last else None


def check_one(log: Log) -> None:
    """Batches join, and stamps rise within them."""
    mark = log.start
    for batch in log.batches:
        if batch.begin != mark or batch.end < batch.begin or batch.kept is not None and batch.kept > batch.end:
            raise StoreRefused(13)
        stamp = batch.begin
        for record in batch.records:
            if not stamp < record[0] <= batch.end:
                raise StoreRefused(13)
            stamp = record[0]
        mark = batch.end


def check_all(chains: list[Log]) -> None:
    """They are a set, each of them is in order, none is older than the others, and no stamp stands twice."""
    if any(log.count != len(chains) for log in chains) or len({log.worker for log in chains}) < len(chains):
        raise StoreRefused(15)
    for log in chains:
        check_one(log)
    served = [batch.end for log in chains for at, batch in enumerate(log.batches)
              if batch.kept is not None and any(later.kept is None for later in log.batches[at:])]
    last = max(served, default=0)
    if any(log.start < last and all(batch.kept is None or batch.end != last for batch in log.batches) for log in chains):
        raise StoreRefused(13)
    stamps = [record[0] for log in chains for batch in log.batches for record in batch.records]
    if len(set(stamps)) < len(stamps):
        raise StoreRefused(13)


@dataclass
class WorkerFiles:
    """The files of one worker's log. A numbered file that is missing is as one that is empty."""

    plain: bytes | None
    even: bytes = b""
    odd: bytes = b""

    @property
    def is_missing(self) -> bool:
        """There is no plain file, and no numbered one whose gate is open."""
        return self.plain is None and b"\x01" not in (self.even[:1], self.odd[:1])


Generations = dict[int, Log]  # of one worker


def chains_from(generation: int, workers: list[Generations]) -> list[Log] | None:
    """Each worker's log of a generation, joined with the next one if it has that. None if a worker has no such log."""
    chains = []
    for logs in workers:
        if not (first := logs.get(generation)):
            return None
        then = logs.get(generation + 1)
        chains.append(Log(first.worker, first.count, generation, first.start, first.batches + (then.batches if then else [])))
    return chains


def is_void(number: int, chains: list[Log]) -> bool:
    return any(batch.kept < number <= batch.end for log in chains for batch in log.batches if batch.kept is not None)


def bases_over(chains: list[Log], slots: list[bytes]) -> list[Checkpoint]:
    """The checkpoints that may be used over chains, and nothing at all if no chain begins after step 0."""
    start, cutoff = max(log.start for log in chains), min(log.mark for log in chains)
    found = [*filter(None, map(checkpoint_of, slots)), Checkpoint(0, 0, {})]
    return [one for one in found
            if start <= one.first and (start == 0 or one.first < one.last) and one.last <= cutoff and not is_void(one.last, chains)]


def last_generation(workers: list[Generations]) -> int | None:
    """The last generation of which each worker has a log."""
    return max(set.intersection(*(set(logs) for logs in workers)), default=None)


def can_begin(generation: int | None, workers: list[Generations], slots: list[bytes]) -> bool:
    chains = None if generation is None else chains_from(generation, workers)
    return bool(chains and bases_over(chains, slots))


def told_generation(image: bytes, parity: int) -> int | None:
    """The generation that a numbered file's header tells; none without a log, or if the header is none."""
    if image[:1] != b"\x01" or len(image) < 25:
        return None
    try:
        log = numbered_log(image[:25] + b"\x00", parity)
    except StoreRefused:
        return None
    return log and log.generation


def latest_told(each: WorkerFiles) -> int:
    return max(told_generation(each.even, 0) or 0, told_generation(each.odd, 1) or 0)


def counts_at_first(files: list[WorkerFiles], image: bytes, parity: int) -> bool:
    """Whether a numbered file is opened at first: its log isn't older than the latest one of some worker."""
    told = told_generation(image, parity)
    return told is None or told >= min(map(latest_told, files))


def numbered_of(files: list[WorkerFiles], counting: list[list[bool]]) -> list[Generations]:
    workers: list[Generations] = []
    for each, (even, odd) in zip(files, counting):
        logs = filter(None, [numbered_log(each.even, 0) if even else None, numbered_log(each.odd, 1) if odd else None])
        workers.append({log.generation: log for log in logs})
    return workers


def chosen(files: list[WorkerFiles], slots: list[bytes]) -> list[Log]:
    """The chains from which a store is recovered. Files are read only if none is missing, and plain ones only if they are needed."""
    if any(each.is_missing for each in files):
        raise StoreRefused(15)
    workers = numbered_of(files, [[counts_at_first(files, image, parity) for parity, image in enumerate((each.even, each.odd))] for each in files])
    last = last_generation(workers)
    if last is None or not (can_begin(last, workers, slots) or can_begin(last - 1, workers, slots)):
        workers = numbered_of(files, [[True, True] for _ in files])
    last = last_generation(workers)
    if last is None or last == 1 and not can_begin(1, workers, slots):
        for logs, each in zip(workers, files):
            if log := plain_log(each.plain or b""):
                logs[0] = log
        last = last_generation(workers)
    if last is not None and not can_begin(last, workers, slots):
        last -= 1
    if not can_begin(last, workers, slots):
        raise StoreRefused(15)
    for place, logs in enumerate(workers):
        used = [logs[one] for one in (last, last + 1) if one in logs]
        if any((log.worker, log.count) != (place, len(files)) for log in used):
            raise StoreRefused(15)
    for logs in workers:
        if last + 1 in logs and logs[last + 1].start != logs[last].mark or last + 2 in logs:
            raise StoreRefused(13)
    return chains_from(last, workers)


def resumed(files: list[WorkerFiles], slots: list[bytes]) -> int:
    """The number from which a store of these files goes on."""
    lasts = [found.last for image in slots if (found := checkpoint_of(image))]
    return max([log.mark for log in chosen(files, slots)] + lasts)


def changed_row(row: Row, named: Named) -> Row:
    """A row with the named columns replaced, and gaps empty."""
    length = max(len(row), max(named) + 1)
    return [named.get(index, row[index] if index < len(row) else b"") for index in range(length)]


def recovered(files: list[WorkerFiles], slots: list[bytes], quotas: dict[int, int]) -> dict[Owner, tuple[int, Row]]:
    """The pairs of a store of these files with their stamps, in the order of tenants and keys."""
    chains = chosen(files, slots)
    check_all(chains)
    cutoff = min(log.mark for log in chains)
    used = max(bases_over(chains, slots), key=lambda one: one.last)
    pairs = dict(used.pairs)
    records = [record for log in chains for batch in log.batches for record in batch.records]
    for stamp, key, write in sorted(records, key=lambda record: record[0]):
        standing, row = pairs.get(key, (0, None))
        if not used.first < stamp <= cutoff or is_void(stamp, chains) or stamp <= standing:
            continue
        if write is None:
            pairs.pop(key, None)
        elif isinstance(write, list):
            pairs[key] = stamp, write
        elif row is not None:
            pairs[key] = stamp, changed_row(row, write)
    owned: dict[int, int] = {}
    for tenant, _ in pairs:
        owned[tenant] = owned.get(tenant, 0) + 1
    if any(tenant not in quotas for tenant in owned):
        raise StoreRefused(4)
    if any(count > quotas[tenant] for tenant, count in owned.items()):
        raise StoreRefused(14)
    return dict(sorted(pairs.items()))
