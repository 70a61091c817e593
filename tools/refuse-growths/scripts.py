"""Scripts of which each growth is refused in turn, and what may come of each."""

from __future__ import annotations

import subprocess
from dataclasses import dataclass, field

from order import Order

WAIT_SECONDS = 60
GET = 999_999
GROWS = ("interiorsplit", "rootgrow")
HEAD = "tree - layer 0"

ENDED, AS_EVER, REFUSED, NO_MEMORY, GOES_ON = "ended", "as ever", "refused E2", "done memory", "memory, then done"


class Fault(Exception):
    """What was told is not what may be told."""


@dataclass
class Script:
    """Lines, with the answer that each has while memory is there, and the keys that are there before it."""

    lines: list[str] = field(default_factory=list)
    wanted: list[str] = field(default_factory=list)
    keys: dict[str, bool] = field(default_factory=dict)
    before: list[dict[str, bool]] = field(default_factory=list)
    count: int = 0

    def line(self, line: str, answer: str) -> None:
        self.lines.append(line)
        self.wanted.append(answer)
        self.before.append(dict(self.keys))

    def put(self, *keys: str) -> Script:
        return self._all(keys, "put {} 0=76", "new", True)

    def remove(self, *keys: str) -> Script:
        return self._all(keys, "remove {}", "removed", False)

    def _all(self, keys: tuple[str, ...], command: str, reply: str, is_there: bool) -> Script:
        for key in keys:
            self.count += 1
            self.keys.setdefault(key, not is_there)
            self.line(f"begin {self.count} 7 {command.format(key)}", f"begun {self.count}")
            self.line(f"run {self.count}", f"done {reply}")
            self.keys[key] = is_there
        return self

    def shape(self, *lines: str) -> Script:
        """The trees at the end."""
        self.line("shape", "\n".join(lines))
        return self


def tenant(quota: int) -> Script:
    script = Script()
    script.line(f"tenant 7 {quota}", "ok")
    return script


def hexadecimal(first: int, last: int, digits: int = 2) -> list[str]:
    return [f"{number:0{digits}x}" for number in range(first, last + 1)]


SIXTEEN = hexadecimal(0x61, 0x70)
SLICES = ["70707070" + rest for rest in ["01", "02", "03", *("aa" + "00" * zeros for zeros in range(9)), "bb", "bc", "bd", "be"]]
LEFT = "    border 8 0000000761000000:5 0000000768000000:5"
RIGHT = "    border 8 0000000769000000:5 0000000770000000:5"


def scan_beside() -> Script:
    script = tenant(100).put(*SIXTEEN)
    script.line("begin 100 7 scan 66 5", "begun 100")
    script.line("until 100 hop", "at hop")
    script.put("6655").remove("69")
    script.line("run 100", "done pairs 5 66:0=76 67:0=76 68:0=76 6a:0=76 6b:0=76")
    return script


def many() -> Script:
    """The root and two interior nodes, over nine and eight border nodes of eight keys each."""
    def border(first: int) -> str:
        return f"      border 8 00000007{first:04x}0000:6 00000007{first + 7:04x}0000:6"

    def interior(first: int, count: int) -> list[str]:
        cuts = " ".join(f"00000007{first + 8 * at:04x}0000" for at in range(1, count))
        return [f"    interior {cuts}", *(border(first + 8 * at) for at in range(count))]
    shape = [HEAD, "  interior 0000000700490000", *interior(1, 9), *interior(0x49, 8)]
    return tenant(200).put(*hexadecimal(1, 0x88, 4)).shape(*shape)


def layers(count: int) -> list[str]:
    """Keys that make so many layers: with one node each, the arena is full when another node is made."""
    return [f"{0xe0 + at:02x}" * 8 + end for at in range(count) for end in ("01", "02")]


def rows() -> dict[str, Script]:
    layered = ["41424344454647", "4142434445464700"]
    return {
        "sixteen keys and the split": tenant(100).put(*SIXTEEN).shape(HEAD, "  interior 0000000769000000", LEFT, RIGHT),
        "groups of equal slices": tenant(100).put(*SLICES).shape(
            HEAD, "  border 1 0000000770707070:T 0000000770707070:T", "tree 0000000770707070 layer 1", "  interior bb00000000000000",
            "    border 12 0100000000000000:1 aa00000000000000:L", "    border 4 bb00000000000000:1 be00000000000000:1"),
        "136 keys of two bytes": many(),
        "two layers, and a root that takes memory": tenant(100).put(*layers(2), *SIXTEEN),
        "layers, and another root that takes memory": tenant(400).put(*layers(13), *hexadecimal(1, 0x80, 4)),
        "layers, and an interior split that takes memory": tenant(400).put(*layers(14), *hexadecimal(1, 0x80, 4)),
        "a scan beside a put and a remove": scan_beside(),
        "a border and a root emptied": tenant(100).put(*SIXTEEN).remove(*SIXTEEN[8:]).shape(HEAD, LEFT[2:]),
        "a first border emptied": tenant(100).put(*SIXTEEN).remove(*SIXTEEN[:8]).shape(
            HEAD, "  interior 0000000769000000", "    border 0", RIGHT),
        "a layer emptied": tenant(100).put(*layered).remove(*layered).shape(HEAD, "  border 0"),
    }


class Asker:
    """A script program, of which one growth is refused."""

    def __init__(self, program: str, order: Order, growth: int) -> None:
        self._program, self._order, self._growth = program, order, growth

    def ask(self, lines: list[str]) -> tuple[int, str, bool]:
        """The status, what was written, and whether a growth was refused."""
        self._order.refuse(self._growth)
        ran = subprocess.run([self._program], input="".join(f"{line}\n" for line in lines).encode(), capture_output=True,
                             timeout=WAIT_SECONDS, env=self._order.environment)
        return ran.returncode, ran.stdout.decode(), self._order.release()

    def expect(self, lines: list[str], wanted: list[str]) -> None:
        status, told, _ = self.ask(lines)
        want = text_of(wanted)
        if (status, told) != (0, want):
            at = next((at for at, (one, other) in enumerate(zip(told.split("\n"), want.split("\n"))) if one != other), -1)
            raise Fault(f"answer {at} is {told.split(chr(10))[at]!r}, due {want.split(chr(10))[at]!r}, status {status}")


def text_of(answers: list[str]) -> str:
    return "".join(f"{answer}\n" for answer in answers)


def gets(keys: dict[str, bool]) -> tuple[list[str], list[str]]:
    """A get of each key, with its answers."""
    lines = [line for key in keys for line in (f"begin {GET} 7 get {key}", f"run {GET}")]
    return lines, [answer for is_there in keys.values() for answer in (f"begun {GET}", "done found 0=76" if is_there else "done absent")]


def refused_of_file(lines: list[str], wanted: str, asker: Asker) -> str | None:
    """What came of the refusal in a script of any kind, with no look at what it leaves."""
    status, told, was_refused = asker.ask(lines)
    if (status, told) == (0, wanted):
        return AS_EVER if was_refused else None
    if was_refused and status == 1 and wanted.startswith(told):
        return ENDED
    answer = next((one for one, due in zip(told.split("\n"), wanted.split("\n")) if one != due), "")
    if not was_refused or status != 0 or answer not in (REFUSED, NO_MEMORY, "memory"):
        raise Fault(f"status {status}, {answer!r}")
    return GOES_ON if answer == "memory" else answer


def refused(script: Script, asker: Asker) -> str | None:
    """What came of the refusal; nothing, if no growth is refused any more."""
    lines, wanted = script.lines, script.wanted
    status, told, was_refused = asker.ask(lines)
    if (status, told) == (0, text_of(wanted)):
        return AS_EVER if was_refused else None
    if status == 1 and was_refused and text_of(wanted).startswith(told):
        return ENDED
    answers = told.split("\n")
    at = next(place for place, answer in enumerate(wanted) if place >= len(answers) or answers[place] != answer)
    answer, line, word = answers[at] if at < len(answers) else "", lines[at], lines[at].split()
    front, rest = lines[:at + 1], lines[at + 1:]
    if not was_refused:
        raise Fault(f"{line}: {answer!r}, due {wanted[at]!r}, and nothing was refused")
    match word[0], answer:
        case ("begin" | "tenant"), "refused E2":
            asker.expect([*front, line, *rest], [*wanted[:at], answer, *wanted[at:]])
            return REFUSED
        case ("run" | "until"), "done memory":
            asked, due = gets(script.before[at])
            asker.expect([*front, *asked], [*wanted[:at], answer, *due])
            begun = lines.index(next(one for one in lines if one.startswith(f"begin {word[1]} ")))
            if " scan " in lines[begun]:
                # It is over, and all others go on. The whole script over a fresh store is what was compared first.
                asker.expect(lines, [*wanted[:at], answer, *("none" if one.split()[1:2] == word[1:2] else due
                                                             for one, due in zip(rest, wanted[at + 1:]))])
            else:
                asker.expect([*front, lines[begun], line, *rest], [*wanted[:at], answer, wanted[begun], *wanted[at:]])
            return NO_MEMORY
        case "run", "memory":
            if not any(asker.ask([*front, f"until {word[1]} {phase}"])[1].endswith(f"at {phase}\n") for phase in GROWS):
                raise Fault(f"{line}: memory in another phase than {' and '.join(GROWS)}")
            asker.expect([*front, line, *rest], [*wanted[:at], answer, *wanted[at:]])
            return GOES_ON
    raise Fault(f"{line}: {answer!r}, due {wanted[at]!r}, status {status}")
