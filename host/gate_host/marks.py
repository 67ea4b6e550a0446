"""Marks of files: words for what a file has from the kernel, and no copy of it has.

If the file system has handles, the mark is the handle of the file: the number of its inode, and a number that the kernel picks at random
when it makes the file. So nobody who prepares an archive can say which marks its files will get. If there are no handles, it is the inode
with the time at which it was made, and if that isn't known either, the inode alone. Both are easier to foresee.

Whoever sees a file can ask for its mark, also while the file is still being written. So a mark tells what was written beforehand, and
not who wrote it.
"""
import ctypes
import errno
import os
import secrets
import struct
import sys
from itertools import combinations
from pathlib import Path
from typing import Optional, Tuple

AT_EMPTY_PATH = 0x1000
# From Linux 6.5 on: also handles by which no file can be opened.
AT_HANDLE_FID = 0x200
MOST_IN_HANDLE = 128
# What a kernel says that has no handles for the file, doesn't know the question, or forbids it, as some containers do.
NO_HANDLES = (errno.EOPNOTSUPP, errno.ENOSYS, errno.EINVAL, errno.EPERM)
STATX_BTIME = 0x800
BYTES_OF_STATX = 256
# The time at which the file was made stands there: seconds and their billionths.
PLACE_OF_BIRTH = 80
# So many files are made to see whether marks can be foreseen. Numbers that differ by no more than this were counted, or are the same.
PROBES = 4
COUNTED = 4096

LIBC = ctypes.CDLL(None, use_errno=True)


class Handle(ctypes.Structure):
    """The `struct file_handle` of Linux."""

    _fields_ = [("size", ctypes.c_uint), ("kind", ctypes.c_int), ("content", ctypes.c_ubyte * MOST_IN_HANDLE)]


def handle_of(file: int) -> Optional[Tuple[int, bytes]]:
    """The kind and the content of the handle by which the file system knows an open file, or none if there are no handles here."""
    ask = getattr(LIBC, "name_to_handle_at", None)
    if ask is None:
        return None
    for flags in (AT_EMPTY_PATH, AT_EMPTY_PATH | AT_HANDLE_FID):
        handle, mount = Handle(size=MOST_IN_HANDLE), ctypes.c_int()
        if ask(file, b"", ctypes.byref(handle), ctypes.byref(mount), flags) == 0:
            return handle.kind, bytes(handle.content[:handle.size])
        if ctypes.get_errno() not in NO_HANDLES:
            raise OSError(ctypes.get_errno(), os.strerror(ctypes.get_errno()))
    return None


def birth_of(file: int) -> Optional[str]:
    """When an open file was made, or none if the file system doesn't say."""
    ask = getattr(LIBC, "statx", None)
    found = ctypes.create_string_buffer(BYTES_OF_STATX)
    if ask is None or ask(file, b"", AT_EMPTY_PATH, STATX_BTIME, found) != 0:
        return None
    if not struct.unpack_from("=I", found)[0] & STATX_BTIME:
        return None
    seconds, billionths = struct.unpack_from("=qI", found, PLACE_OF_BIRTH)
    return f"{seconds}.{billionths:09d}"


def mark_of(file: int) -> str:
    """The mark of an open file. Whoever asks gets the same one, as long as the file is there."""
    handle = handle_of(file)
    if handle:
        kind, content = handle
        return f"handle {kind} {content.hex()}"
    birth = birth_of(file)
    number = os.fstat(file).st_ino
    return f"inode {number} made at {birth}" if birth else f"inode {number}"


def mark_is_strong(folder: Path) -> bool:
    """Whether nobody can foresee the marks of files in a folder. It makes some files there, and removes them."""
    rests = [rest_of_probe(folder) for _ in range(PROBES)]
    numbers = [rest for rest in rests if rest is not None]
    return len(numbers) == PROBES and all(abs(one - other) > COUNTED for one, other in combinations(numbers, 2))


def rest_of_probe(folder: Path) -> Optional[int]:
    """What the handle of a new file has besides the number of its inode, or none if it has no handle."""
    path = folder / f".probe-{secrets.token_hex(16)}"
    file = os.open(path, os.O_RDWR | os.O_CREAT | os.O_EXCL | os.O_NOFOLLOW | os.O_CLOEXEC, 0o600)
    try:
        handle, number = handle_of(file), os.fstat(file).st_ino
    finally:
        os.unlink(path)
        os.close(file)
    if handle is None:
        return None
    # It stands there with eight bytes or with four.
    whole, half = number.to_bytes(8, sys.byteorder), (number % 2 ** 32).to_bytes(4, sys.byteorder)
    return int.from_bytes(handle[1].replace(whole if whole in handle[1] else half, b"", 1), sys.byteorder)
