"""The growth that is refused: built as a library, and named to the program that loads it."""

from __future__ import annotations

import mmap
import os
import struct
import subprocess
import tempfile
from pathlib import Path

FORM = struct.Struct("qqqii")
HERE = Path(__file__).resolve().parent


def built(folder: Path) -> Path:
    """The library that refuses growths."""
    library = folder / "refuse.so"
    subprocess.run(["cc", "-O2", "-shared", "-fPIC", "-o", library, HERE / "refuse.c"], check=True)
    return library


class Order:
    """Which growth of the programs that it is given to is refused."""

    def __init__(self, library: Path) -> None:
        file, self._path = tempfile.mkstemp(dir=library.parent)
        os.ftruncate(file, FORM.size)
        self._shared = mmap.mmap(file, FORM.size)
        os.close(file)
        self.environment = {**os.environ, "LD_PRELOAD": str(library), "REFUSED_GROWTH": self._path}

    def refuse(self, growth: int, holds: bool = False) -> None:
        """Growth so many is refused from now on, 0 for none; if it holds, all later ones of its thread too."""
        self._shared[:] = FORM.pack(0, 0, 0, holds, 0)
        # The number is set last, since the program counts from then on.
        self._shared[:8] = struct.pack("q", growth)

    def release(self) -> bool:
        """Nothing is refused any more. Whether something was."""
        self._shared[:8] = struct.pack("q", 0)
        return FORM.unpack(self._shared[:])[2] > 0

    def end(self) -> None:
        os.unlink(self._path)
