"""Files of a store, as its servers would have written them: logs of all formats, checkpoints, and turns that were stopped."""

from __future__ import annotations

import random

from stores import LAST_STEP, WorkerFiles, bases_over, changed_row, checkpoint_of, chosen, recovered, resumed

QUOTAS = {0: 1, 7: 12, 8: 200, 4_294_967_295: 1_048_576}
KEYS = [b"", b"k", b"kk", b"abcdefgh", b"abcdefghi", b"abcdefghij" * 3, b"\x00", b"\x00\x00", b"\xff" * 9, b"x" * 251]


def text(data: bytes) -> bytes:
    return len(data).to_bytes(2, "big") + data


def row_bytes(row: list[bytes]) -> bytes:
    return bytes([len(row)]) + b"".join(map(text, row))


def named_bytes(named: dict[int, bytes]) -> bytes:
    return bytes([len(named)]) + b"".join(bytes([index]) + text(value) for index, value in named.items())


def batch_bytes(body: bytes) -> bytes:
    return b"\x01" + len(body).to_bytes(4, "big") + body


def place_of(generation: int) -> int:
    """Which of a worker's files has the log of a generation: the plain one, that of even ones, or that of odd ones."""
    return 1 + generation % 2 if generation else 0


class Life:
    """A store of some workers, as its servers would have written it. An old one began in format 1."""

    def __init__(self, choose: random.Random, workers: int) -> None:
        self._choose = choose
        self._is_old = choose.random() < 0.4
        self._workers = workers
        # Of each worker its plain file, and those of even and of odd generations.
        self._files = [[b"MTLOG" + bytes([1 if self._is_old else 2, worker, workers]), b"\x00", b"\x00"] for worker in range(workers)]
        self._generations = [0] * workers
        self._turn = 1  # the generation to which the next turn goes
        self._slots = [b"\x00", b"\x00"]
        self._newest = 1
        self._marks = [0] * workers
        self._waiting: list[list[bytes]] = [[] for _ in range(workers)]
        self._step = 0
        self._pairs: dict[tuple[int, bytes], tuple[int, list[bytes]]] = {}

    def serve(self) -> None:
        """Some puts and removes of each worker. Some workers are flushed now and then, and some turns are made."""
        choose = self._choose
        writes_old = self._is_old and choose.random() < 0.5 and max(self._generations) == 0
        for _ in range(choose.randrange(1, 5)):
            self._change(choose.randrange(6), writes_old)
            for worker in range(self._workers):
                if choose.random() < 0.7 or writes_old:
                    self._flush(worker, b"\x00" if writes_old else b"\x02")
            if max(self._generations) == 0 and choose.random() < 0.5:
                self._checkpoint(choose.randrange(2), max(0, self._step - choose.choice([0, 0, choose.randrange(20)])), writes_old)
            elif not writes_old and choose.random() < 0.5:
                parts = 3 * self._workers + 1
                self._make_turn(choose.choice([parts, choose.randrange(parts)]))

    def _change(self, count: int, writes_old: bool = False) -> None:
        choose = self._choose
        for _ in range(count):
            self._step += choose.randrange(1, 9)
            tenant, key = choose.choice([7, 8, 4_294_967_295]), choose.choice(KEYS)
            head = self._step.to_bytes(8, "big") + tenant.to_bytes(4, "big") + text(key)
            _, before = self._pairs.get((tenant, key), (0, None))
            if choose.random() < 0.3:
                self._pairs.pop((tenant, key), None)
                record = head + b"\x00"
            elif before is not None and not writes_old and choose.random() < 0.8:
                named = {index: choose.randbytes(choose.randrange(3)) for index in sorted(choose.sample(range(16), choose.choice([1, 1, 2])))}
                self._pairs[tenant, key] = self._step, changed_row(before, named)
                record = head + b"\x02" + named_bytes(named)
            else:
                row = [choose.randbytes(choose.randrange(3)) for _ in range(choose.choice([1, 1, 2, 16]))]
                self._pairs[tenant, key] = self._step, row
                record = head + b"\x01" + row_bytes(row)
            choose.choice(self._waiting).append(record)

    def _append(self, worker: int, kind: bytes, rest: bytes) -> None:
        span = self._marks[worker].to_bytes(8, "big") + self._step.to_bytes(8, "big")
        self._files[worker][place_of(self._generations[worker])] += batch_bytes(kind + span + rest)
        self._marks[worker] = self._step

    def _flush(self, worker: int, kind: bytes = b"\x02") -> None:
        own = self._waiting[worker]
        self._append(worker, kind, len(own).to_bytes(4, "big") + b"".join(own))
        own.clear()

    def _checkpoint(self, slot: int, first: int, is_old: bool) -> None:
        """In format 2 a row may have a later stamp than where the walk began, since changes are placed meanwhile."""
        if is_old:
            first = self._step
        self._step += self._choose.randrange(1, 9)
        entries = b"".join(b"\x01" + tenant.to_bytes(4, "big") + text(key) + (b"" if is_old else stamp.to_bytes(8, "big")) + row_bytes(row)
                           for (tenant, key), (stamp, row) in sorted(self._pairs.items()))
        head = b"\x01MTCKP" + (b"\x01" if is_old else b"\x02") + first.to_bytes(8, "big")
        self._slots[slot] = head + entries + b"\x02" + self._step.to_bytes(8, "big")
        self._newest = slot

    def _make_turn(self, parts: int) -> None:
        """The first so many parts of a turn, after a Settle of all logs."""
        workers = range(self._workers)
        for worker in workers:
            self._flush(worker)
        every_part = [(self._begin_next, worker) for worker in workers] + [(self._write_base, 0)]
        every_part += [(self._flush, worker) for worker in workers] + [(self._give_up, worker) for worker in workers]
        for part, worker in every_part[:parts]:
            part(worker)
        if parts == len(every_part):
            self._turn += 1

    def _begin_next(self, worker: int) -> None:
        """Unless a turn that was stopped did. Then some changes are placed before the next part."""
        if self._generations[worker] < self._turn:
            self._flush(worker)
            head = bytes([worker, self._workers]) + self._turn.to_bytes(8, "big") + self._step.to_bytes(8, "big")
            self._files[worker][place_of(self._turn)] = b"\x01MTLOG\x03" + head
            self._generations[worker] = self._turn
        self._change(self._choose.choice([0, 0, 1, 2]))

    def _write_base(self, _worker: int) -> None:
        first = self._step
        self._change(self._choose.choice([0, 1, 2]))
        self._checkpoint(1 - self._newest, first, False)

    def _give_up(self, worker: int) -> None:
        self._files[worker][place_of(self._turn - 1)] = b"\x00"

    def recover(self) -> None:
        """The resume batches of a recovery. What was not flushed is lost. If no turn is half done, older logs are given up."""
        files = [WorkerFiles(*images) for images in self.files()[0]]
        chains = chosen(files, self._slots)
        self._pairs = recovered(files, self._slots, dict.fromkeys(QUOTAS, LAST_STEP))
        if used := bases_over(chains, self._slots):
            ends = [found.last if (found := checkpoint_of(image)) in used else -1 for image in self._slots]
            self._newest = ends.index(max(ends))
        kept = min(self._marks)
        self._step = resumed(files, self._slots) + self._choose.randrange(2)
        for worker, own in enumerate(self._waiting):
            own.clear()
            self._append(worker, b"\x01", kept.to_bytes(8, "big"))
        generation = chains[0].generation
        if generation and generation == max(self._generations):
            for images in self._files:
                images[place_of(generation - 1)] = b"\x00"
        self._turn = generation + 1

    def files(self) -> tuple[list[list[bytes]], list[bytes]]:
        """The logs' files, with a closed gate after the last batch, and what stands after it."""
        tail = self._choose.choice([b"", b"", b"\x00\x07rest"])
        return [[image if image == b"\x00" else image + b"\x00" + tail for image in images] for images in self._files], self._slots


def some_store(choose: random.Random) -> tuple[list[list[bytes]], list[bytes]]:
    life = Life(choose, choose.choice([1, 1, 2, 3]))
    life.serve()
    for _ in range(choose.randrange(4)):
        life.recover()
        life.serve()
    return life.files()
