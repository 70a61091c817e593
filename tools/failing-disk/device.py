"""A file system on a device that can be made to fail, and to lose its power.

Linux alone, as root: an ext4 without a journal on a loop device over a file. While the device fails it ends before the
first byte of the store's files, so their writes fail with EIO. The file system's own tables are at the front and can
always be written, since a kernel may not bear that one of their blocks is lost. A block of a file's own extents would not be
at the front. So files are laid out in clusters of 16 MB, and the device does not fail for a file of more than two extents.
"""

from __future__ import annotations

import fcntl
import os
import shutil
import struct
import subprocess
import sys
from pathlib import Path

TOOLS = ("losetup", "mkfs.ext4", "e2fsck", "mount", "sync", "umount", "unshare")
SIZE = 4 << 30  # of the file, which has holes: each of the 194 files of a store of 64 workers takes a cluster
FORM = ("-b", "4096", "-O", "^has_journal,bigalloc", "-C", "16M", "-N", "256", "-E", "lazy_itable_init=0")
OPTIONS = "dioread_lock"  # no extents that are taken first and marked as written later
MOST_EXTENTS = 2  # four are in the file's entry of the table, and more may come while the device fails

# The calls of ioctl that have no name in Python.
SET_STATUS, GET_STATUS, STATUS_BYTES, LIMIT_AT = 0x4C04, 0x4C05, 232, 32  # of a loop device
EXTENTS, EXTENTS_HEAD, EXTENT = 0xC020660B, struct.Struct("=QQIIII"), struct.Struct("=QQQ16xI12x")  # where a file's blocks are
HAS_NO_PLACE = 0x2 | 0x4  # an extent's flags: nothing says yet where it will be
ROOM_FOR_EXTENTS = 100
SHUT_DOWN, WRITE_NOTHING = 0x8004587D, 2  # of ext4

OWN_MOUNTS = "FAILING_DISK_HAS_OWN_MOUNTS"


class NoDevice(Exception):
    """No such device can be had here."""


def call(*words: object) -> str:
    done = subprocess.run([str(word) for word in words], capture_output=True, text=True, timeout=60)
    if done.returncode:
        raise NoDevice(f"{words[0]} ended with {done.returncode}: {done.stderr.strip()}")
    return done.stdout.strip()


def what_is_missing() -> str | None:
    """Why no such device can be had here."""
    if os.geteuid() != 0:
        return "it needs root"
    missing = [tool for tool in TOOLS if shutil.which(tool) is None]
    if missing:
        return f"it needs {', '.join(missing)}"
    if not os.path.exists("/dev/loop-control"):
        return "it needs loop devices"
    return None


def begin_with_own_mounts() -> None:
    """Begins the program again in a mount namespace of its own, where it isn't in one yet: nobody else sees its mounts, and they end with it."""
    if OWN_MOUNTS not in os.environ:
        os.environ[OWN_MOUNTS] = "1"
        os.execvp("unshare", ["unshare", "--mount", sys.executable, *sys.argv])


class Device:
    """The device, mounted at `mount`."""

    def __init__(self, room: Path) -> None:
        self.mount = room / "mounted"
        self.mount.mkdir()
        self.is_mounted = False
        image = room / "device"
        with open(image, "wb") as file:
            file.truncate(SIZE)
        call("mkfs.ext4", "-q", "-F", *FORM, image)
        self.path = call("losetup", "--find", "--show", image)
        self.file = os.open(self.path, os.O_RDWR)
        call("losetup", "--detach", self.path)  # that is, once nobody has it open, also if this process is killed
        self._mount()
        call("sync", "--file-system", self.mount)

    def __enter__(self) -> Device:
        return self

    def __exit__(self, *_: object) -> None:
        self.work()
        if self.is_mounted:
            call("umount", "--lazy", self.mount)  # a program that is left may have files open
        os.close(self.file)

    def fail(self, store: Path) -> bool:
        """From now on no block of the store's files can be written. Whether that could be done."""
        places = [places_of(path) for path in sorted(store.iterdir())]
        first = min((place for own in places for place in own), default=None)
        if first is None or any(len(own) > MOST_EXTENTS for own in places):
            return False
        self._limit(first)
        return True

    def work(self) -> None:
        self._limit(0)

    def lose_power(self) -> None:
        """What was not written to the device is lost. Programs with open files get errors, and must end before `come_back`."""
        folder = os.open(self.mount, os.O_RDONLY)
        try:
            fcntl.ioctl(folder, SHUT_DOWN, struct.pack("I", WRITE_NOTHING))
        finally:
            os.close(folder)

    def come_back(self) -> None:
        """After a loss of power: the file system is mended and mounted, and shows what the device has."""
        self.work()
        self._unmount()
        done = subprocess.run(["e2fsck", "-fy", self.path], capture_output=True, text=True, timeout=60)
        if done.returncode > 1:
            raise NoDevice(f"e2fsck ended with {done.returncode}: {done.stdout[-400:]}")
        self._mount()

    def _limit(self, length: int) -> None:
        """The device ends at this byte; 0: where its file ends."""
        status = bytearray(STATUS_BYTES)
        fcntl.ioctl(self.file, GET_STATUS, status)
        struct.pack_into("<Q", status, LIMIT_AT, length)
        fcntl.ioctl(self.file, SET_STATUS, bytes(status))

    def _mount(self) -> None:
        call("mount", "-o", OPTIONS, self.path, self.mount)
        self.is_mounted = True

    def _unmount(self) -> None:
        call("umount", self.mount)
        self.is_mounted = False


def places_of(path: Path) -> list[int]:
    """Where the device has the file's extents. Looking makes nothing be written."""
    with open(path, "rb") as file:
        asked = bytearray(EXTENTS_HEAD.pack(0, (1 << 64) - 1, 0, 0, ROOM_FOR_EXTENTS, 0) + bytes(EXTENT.size * ROOM_FOR_EXTENTS))
        fcntl.ioctl(file.fileno(), EXTENTS, asked)
    count = EXTENTS_HEAD.unpack_from(asked)[3]
    extents = [EXTENT.unpack_from(asked, EXTENTS_HEAD.size + number * EXTENT.size) for number in range(count)]
    return [place for _, place, _, flags in extents if not flags & HAS_NO_PLACE]
