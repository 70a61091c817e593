"""Servers of which each growth is refused in turn: calls over a book, and all that a store does."""

from __future__ import annotations

import re
import select
import shutil
import socket
import subprocess
import sys
import time
from collections.abc import Callable
from pathlib import Path

TOOLS = Path(__file__).resolve().parent.parent
sys.path[:0] = [str(TOOLS / "client")]

from order import Order  # noqa: E402
from rebjauts import Get, Open, Put, Remove, Request, Scan, Settle, encode_request  # noqa: E402
from scripts import AS_EVER, ENDED, GOES_ON, NO_MEMORY, REFUSED, Fault  # noqa: E402

WAIT_SECONDS = 20
HELD_SECONDS = 0.2
OK, ABSENT, NEW, REPLACED, REMOVED, FOUND = "00", "01", "03", "04", "05", "0201000176"
OWN = {"82": REFUSED, "09": NO_MEMORY}
SETTLED = re.compile("07[0-9a-f]{16}")
NOT_STARTED, GIVEN_UP, DEVICE = "not started", "checkpoint given up", "refused E10"
OF_A_SETTLE = {**OWN, "8a": DEVICE}


def put(key: bytes) -> Request:
    return Put(key, ((0, b"v"),))


class Server:
    """A server that refuses a growth when its order says so."""

    def __init__(self, program: str, order: Order, *words: str) -> None:
        self._process = subprocess.Popen([program, "--port", "0", *words, "7:200"], stdout=subprocess.PIPE, stderr=subprocess.PIPE,
                                         text=True, env=order.environment)
        line = self._process.stdout.readline()
        self.port = int(line.rsplit(":", 1)[1]) if line.startswith("listening ") else None

    def __enter__(self) -> Server:
        return self

    def __exit__(self, *_: object) -> None:
        self.end()

    def end(self) -> tuple[int, str]:
        """Kills it, and tells its status and what it said on standard error."""
        self._process.kill()
        _, said = self._process.communicate()
        return self._process.returncode, said

    def said(self) -> tuple[int, str]:
        """Its status and what it said, once it has ended by itself."""
        _, said = self._process.communicate(timeout=WAIT_SECONDS)
        return self._process.returncode, said


class Client:
    """A session in which tenant 7 is opened."""

    def __init__(self, server: Server) -> None:
        self._stream = socket.create_connection(("127.0.0.1", server.port), WAIT_SECONDS)
        if self.ask(Open(7)) != OK:
            raise Fault("a tenant is not opened")

    def send(self, *requests: Request) -> None:
        self._stream.sendall(b"".join(map(encode_request, requests)))

    def is_answered(self, seconds: float) -> bool:
        return bool(select.select([self._stream], [], [], seconds)[0])

    def reply(self) -> str:
        """The next reply's body in hexadecimal digits; nothing, if the session has ended."""
        try:
            length = int.from_bytes(self._exactly(4), "big")
            return self._exactly(length).hex()
        except (EOFError, ConnectionError):
            return ""
        except TimeoutError:
            raise Fault("no reply") from None

    def _exactly(self, count: int) -> bytes:
        received = b""
        while len(received) < count:
            more = self._stream.recv(count - len(received))
            if not more:
                raise EOFError
            received += more
        return received

    def ask(self, request: Request) -> str:
        self.send(request)
        return self.reply()

    def expect(self, *told: tuple[Request, str]) -> None:
        self.send(*(request for request, _ in told))
        for request, due in told:
            if (reply := self.reply()) != due:
                raise Fault(f"{request}: {reply or 'the end'}, due {due}")

    def end(self) -> None:
        self._stream.close()


# ---- A call over a book ----------------------------------------------------------------------------


class Call:
    """A command after others, its reply, which keys are there before it, and the reply to it again after one that a session's end hid."""

    def __init__(self, before: list[bytes], command: Request, reply: str, again: str) -> None:
        self.before, self.command, self.reply, self.again = before, command, reply, again

    def expect_as_before(self, client: Client) -> None:
        keys = sorted({*self.before, *([self.command.key] if hasattr(self.command, "key") else [])})
        client.expect(*((Get(key), FOUND if key in self.before else ABSENT) for key in keys))


def letters(first: str, last: str) -> list[bytes]:
    return [bytes([letter]) for letter in range(ord(first), ord(last) + 1)]


NUMBERS = [number.to_bytes(2, "big") for number in range(1, 0x89)]
PAIRS = "0602" + "".join(f"0001{key}01000176" for key in ("61", "62"))
CALLS = {
    "a put": Call(letters("a", "c"), put(b"d"), NEW, REPLACED),
    "a put over a pair": Call(letters("a", "c"), put(b"b"), REPLACED, REPLACED),
    "a put that splits": Call(letters("a", "o"), put(b"p"), NEW, REPLACED),
    "a put that splits an upper node": Call(NUMBERS[:-1], put(NUMBERS[-1]), NEW, REPLACED),
    "a put that makes a layer": Call([b"ABCDEFG"], put(b"ABCDEFG\x00"), NEW, REPLACED),
    "a get": Call(letters("a", "c"), Get(b"b"), FOUND, FOUND),
    "a remove": Call(letters("a", "c"), Remove(b"b"), REMOVED, ABSENT),
    "a scan": Call(letters("a", "b"), Scan(b"", 64), PAIRS, PAIRS),
}


def called(program: str, order: Order, growth: int, call: Call, holds: bool) -> str | None:
    """What came of a command, if a growth of its call is refused, or if it holds all later ones of its worker too."""
    order.refuse(0)
    with Server(program, order, "--workers", "2") as server:
        first, other = Client(server), Client(server)
        first.expect(*((put(key), NEW) for key in call.before))
        order.refuse(growth, holds)
        first.send(call.command)
        if holds and not first.is_answered(HELD_SECONDS):
            # The call steps again and again. Its lock is free in between, so another session is answered.
            other.expect((Get(b"none"), ABSENT))
            if first.is_answered(0):
                raise Fault("a reply, though memory is still refused")
            order.release()
            if (reply := first.reply()) != call.reply:
                raise Fault(f"{reply or 'the end'} when memory is there again, due {call.reply}")
            return GOES_ON
        reply = first.reply()
        was_refused = order.release()
        if reply == call.reply:
            return AS_EVER if was_refused else None
        if not was_refused:
            raise Fault(f"{reply or 'the end'}, due {call.reply}, and nothing was refused")
        if reply == "":
            again = Client(server).ask(call.command)
            if again not in (call.reply, call.again):
                raise Fault(f"after the session's end: {again or 'the end'}, due {call.reply} or {call.again}")
            return ENDED
        if reply not in OWN:
            raise Fault(f"{reply}, due {call.reply}")
        call.expect_as_before(other)
        first.expect((call.command, call.reply))
        return OWN[reply]


# ---- Stores ----------------------------------------------------------------------------------------


def expect_kept(program: str, order: Order, folder: Path, keys: list[bytes], *words: str) -> None:
    """A server that is started over a folder, with memory, has these keys, and settles."""
    order.refuse(0)
    with Server(program, order, "--store", str(folder), *words) as server:
        if server.port is None:
            raise Fault(f"it isn't started again: {server.said()}")
        client = Client(server)
        client.expect(*((Get(key), FOUND) for key in keys))
        if not SETTLED.fullmatch(reply := client.ask(Settle())):
            raise Fault(f"a Settle of the next server: {reply or 'the end'}")


def comes_true(is_so: Callable[[], bool], seconds: float = 10) -> bool:
    end = time.monotonic() + seconds
    while not is_so():
        if time.monotonic() > end:
            return False
        time.sleep(0.01)
    return True


def has_open_slot(folder: Path) -> bool:
    return any((folder / f"check-{slot}").read_bytes()[:1] == b"\x01" for slot in (0, 1))


def settled(program: str, order: Order, growth: int, folder: Path, words: list[str], answers: int) -> str | None:
    """What came of a Settle, or of the answer at which a worker's log has its turn, where so many come before it."""
    order.refuse(0)
    keys = letters("a", "c")
    with Server(program, order, "--workers", "1", "--store", str(folder), "--create", *words) as server:
        client = Client(server)
        client.expect(*((put(key), NEW) for key in keys), *[(Get(b"a"), FOUND)] * answers)
        order.refuse(growth)
        reply = client.ask(Get(b"a") if answers else Settle())
        if words:
            # The turn is made after its Settle is answered. One that is stopped opens no gate.
            comes_true(lambda: has_open_slot(folder), 1)
        was_refused = order.release()
        is_right = reply == FOUND if answers else SETTLED.fullmatch(reply)
        if not is_right and (not was_refused or reply not in ("", *OF_A_SETTLE)):
            raise Fault(f"{reply or 'the end'}, {'' if was_refused else 'and nothing was refused'}")
        if reply == "":
            client = Client(server)
        if not SETTLED.fullmatch(again := client.ask(Settle())):
            raise Fault(f"a Settle after that: {again or 'the end'}")
        if words:
            # After a turn that is stopped the next one takes two settles. It is made after they are answered.
            if not SETTLED.fullmatch(again := client.ask(Settle())):
                raise Fault(f"one more Settle: {again or 'the end'}")
            if not comes_true(lambda: has_open_slot(folder)):
                raise Fault("no checkpoint is there after two more Settles")
        _, said = server.end()
    expect_kept(program, order, folder, keys, "--workers", "1")
    if is_right:
        is_stopped = "checkpoint was given up" in said or "turn of the logs was not finished" in said
        return GIVEN_UP if is_stopped else AS_EVER if was_refused else None
    return OF_A_SETTLE.get(reply, ENDED)


def make_store(program: str, order: Order, folder: Path, is_older: bool) -> list[bytes]:
    """The keys of a store of two logs and two lives, whose last server was killed. It made turns, or it is an older one, without checkpoints."""
    keys = [*letters("a", "z"), *(b"ABCDEFGH" + key for key in letters("a", "f"))]
    order.refuse(0)
    for life, own in enumerate((keys[:20], keys[20:])):
        create = [] if life else ["--create"] if is_older else ["--create", "--checkpoint", "1"]
        with Server(program, order, "--workers", "2", "--store", str(folder), *create) as server:
            first, second = Client(server), Client(server)
            first.expect(*((put(key), NEW) for key in own[::2]))
            second.expect(*((put(key), NEW) for key in own[1::2]))
            for client in (first, second) if life == 0 else (first,):
                if not SETTLED.fullmatch(reply := client.ask(Settle())):
                    raise Fault(f"a Settle: {reply}")
    return keys


def started(program: str, order: Order, growth: int, made: Path, keys: list[bytes], folder: Path, is_older: bool) -> str | None:
    """What came of a start over a store, or over one without numbered files: its recovery and the state that is restored."""
    shutil.copytree(made, folder)
    if is_older:
        for path in folder.glob("wal-??-?"):
            path.unlink()
    order.refuse(growth)
    with Server(program, order, "--workers", "2", "--store", str(folder)) as server:
        was_refused = order.release()
        if server.port is None:
            status, said = server.said()
            if not was_refused or status not in (1, 2, 3) or not any(cause in said for cause in ("memory", "E10: ")):
                raise Fault(f"status {status}, {said!r}")
            told = NOT_STARTED
        else:
            told = AS_EVER if was_refused else None
    expect_kept(program, order, folder, keys, "--workers", "2")
    return told


# ---- The rows --------------------------------------------------------------------------------------

Trial = Callable[[Order, int, Path], "str | None"]
CALLED, HELD = "{}, called over a book", "{}, all growths refused from one on"
SPLITS = ("a put that splits", "a put that splits an upper node")
SETTLES = {"a Settle": ([], 0), "a flush at the 1,024th answer": ([], 1_020), "a Settle and a checkpoint": (["--checkpoint", "1"], 0)}
STARTS = {"a recovery and a restore": False, "a start that makes numbered files": True}
NAMES = [*map(CALLED.format, CALLS), *map(HELD.format, SPLITS), *SETTLES, *STARTS]


def rows(program: str, order: Order, room: Path) -> dict[str, Trial]:
    """What is tried of each row: an order, the growth to be refused, and a folder that isn't there yet."""
    stores = {is_older: room / ("older" if is_older else "made") for is_older in (False, True)}
    keys = {is_older: make_store(program, order, store, is_older) for is_older, store in stores.items()}
    found: dict[str, Trial] = {}
    for name, call in CALLS.items():
        found[CALLED.format(name)] = lambda order, growth, _, call=call: called(program, order, growth, call, False)
    for name in SPLITS:
        found[HELD.format(name)] = lambda order, growth, _, call=CALLS[name]: called(program, order, growth, call, True)
    for name, (words, answers) in SETTLES.items():
        found[name] = lambda order, growth, folder, words=words, answers=answers: settled(program, order, growth, folder, words, answers)
    for name, is_older in STARTS.items():
        made, own = stores[is_older], keys[is_older]
        found[name] = lambda order, growth, folder, made=made, own=own, is_older=is_older: started(program, order, growth, made, own, folder, is_older)
    return found
