"""The words of a tool: a wrong one is named in one sentence on standard error, with the tool's name, and the status is 2."""

from __future__ import annotations

import argparse
import math
import os
import re
import subprocess
import sys
from collections.abc import Callable, Iterable
from pathlib import Path
from typing import NoReturn

TOP = Path(__file__).resolve().parents[2]
WrongWord = argparse.ArgumentTypeError  # what a type says of a word that it doesn't take
WAIT_SECONDS = 60  # for what a program says of itself, also on a busy machine

# What argparse says, and how it is said here.
SENTENCES = [
    (r"the following arguments are required: (.+)", r"\1 is missing"),
    (r"unrecognized arguments: (.+)", r'it takes no "\1"'),
    (r"argument (\S+): expected one argument", r"\1 is followed by nothing"),
    (r"argument (\S+): expected at least one argument", r"\1 is followed by nothing"),
    (r"argument (\S+): ignored explicit argument '(.+)'", r'\1 takes no "\2"'),
    (r"argument (\S+): not allowed with argument (\S+)", r"\1 and \2 don't go together"),
    (r"one of the arguments (.+) is required", r"one of \1 is missing"),
    (r"argument ([^:]+): (.+)", r"\1: \2"),
]


def tool() -> str:
    """The name of the tool that runs, as a user at the top of the repository calls it."""
    path = Path(sys.argv[0]).resolve()
    return str(path.relative_to(TOP)) if path.is_relative_to(TOP) else path.name


def fail(fault: str) -> NoReturn:
    """Says why the tool can't go on, and ends with status 2."""
    print(f"{tool()}: {fault}", file=sys.stderr)
    sys.exit(2)


def refuse(fault: str) -> NoReturn:
    """Names a wrong word, and ends with status 2."""
    fail(f"{fault} ({tool()} --help tells what it takes)")


class Words(argparse.ArgumentParser):
    """A parser whose description is the tool's head comment, and that refuses a wrong word in one sentence."""

    def __init__(self, said: str) -> None:
        super().__init__(prog=tool(), description=said, formatter_class=argparse.RawDescriptionHelpFormatter, allow_abbrev=False)

    def parse_known_args(self, args: list[str] | None = None, namespace: argparse.Namespace | None = None) -> tuple:
        """Names an option that is none before an operand that is missing."""
        for word in sys.argv[1:] if args is None else args:
            if word == "--":
                break
            if re.match("--?[A-Za-z]", word) and word.partition("=")[0] not in self._option_string_actions:
                self.error(f"unrecognized arguments: {word}")
        return super().parse_known_args(args, namespace)

    def error(self, message: str) -> NoReturn:
        for pattern, said in SENTENCES:
            if found := re.fullmatch(pattern, message, re.DOTALL):
                message = found.expand(said)
                break
        refuse(message)


# ---- What a word can be --------------------------------------------------------------------------


def whole(least: int, most: int | None = None) -> Callable[[str], int]:
    """The type of a whole number in these bounds."""
    bounds = f"{least} and more" if most is None else f"{least} to {most}"

    def read(word: str) -> int:
        if not re.fullmatch("[0-9]{1,18}", word) or int(word) < least or most is not None and int(word) > most:
            raise WrongWord(f'"{word}" is no whole number of {bounds}')
        return int(word)
    return read


def seconds(word: str) -> float:
    """A number of seconds above 0."""
    try:
        number = float(word)
    except ValueError:
        number = 0.0
    if not (math.isfinite(number) and number > 0):
        raise WrongWord(f'"{word}" is no number of seconds above 0')
    return number


def folder(word: str) -> Path:
    """A folder that is there, in which files can be made."""
    path = Path(word)
    if not path.exists():
        raise WrongWord(f"there is no folder {word}")
    if not path.is_dir():
        raise WrongWord(f"{word} is no folder")
    if not os.access(path, os.W_OK | os.X_OK):
        raise WrongWord(f"no file can be made in {word}")
    return path.resolve()


def one_of(names: Iterable[str], kind: str) -> Callable[[str], str]:
    """The type of a name out of these, which are names of such a kind."""
    known = list(names)

    def read(word: str) -> str:
        if word not in known:
            raise WrongWord(f'"{word}" is the name of no {kind}')
        return word
    return read


def built(name: str, remedy: str = "") -> Callable[[str], str]:
    """The type of a path to the built program of this name; the remedy says how it is built."""
    def read(word: str) -> str:
        if fault := what_is_wrong_with(Path(word), name):
            raise WrongWord(f"{word} {fault}{remedy}")
        return str(Path(word).resolve())
    return read


def what_is_wrong_with(path: Path, name: str) -> str:
    """Why a path leads to no program of this name; nothing if it leads to one."""
    if not path.exists():
        return "isn't there"
    if path.is_dir():
        return "is a folder and no program"
    if not os.access(path, os.X_OK):
        return "is no program, since it can't be executed"
    try:
        told = subprocess.run([path.resolve(), "--help"], stdin=subprocess.DEVNULL, capture_output=True, timeout=WAIT_SECONDS)
    except OSError:
        return "is no program of this machine"
    except subprocess.TimeoutExpired:
        return f"is no {name}, since it says nothing of itself within {WAIT_SECONDS} seconds"
    if told.returncode != 0 or name.encode() not in told.stdout:
        return f"is no {name}, since its --help doesn't name it"
    return ""
