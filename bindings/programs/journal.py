"""The journal of nameserver.py: each update is synced to it before it is carried out."""
import fcntl
import os
import struct
import sys
import tempfile
import zlib
from typing import Iterator, Tuple


class Stop(Exception):
    """Why the server can't start or go on, in words."""


def warn(words: str) -> None:
    """Says something to who started the server, if that can be done."""
    try:
        print(f"nameserver: {words}", file=sys.stderr, flush=True)
    except OSError:
        pass


class Journal:
    """The updates that were carried out, in their order, after a head that says what they began at. An entry is its length,
    the same with each bit turned, so that a damaged length isn't taken for a torn entry, a checksum of the update and of
    all before it, and the update."""

    HEAD, ENTRY = struct.Struct("!16s32s"), struct.Struct("!HHI")
    NAME = b"fuzsbanel log 1\n"

    def __init__(self, path: str, began_at: bytes) -> None:
        self._path, self._head = path, self.HEAD.pack(self.NAME, began_at)
        if not os.path.exists(path):
            self._begin()
        self._file = os.open(path, os.O_RDWR | os.O_CLOEXEC)
        try:
            fcntl.flock(self._file, fcntl.LOCK_EX | fcntl.LOCK_NB)
        except OSError as why:
            raise Stop(f"{path}: another server has this journal") from why
        self._end, self._sum = self.HEAD.size, zlib.crc32(self._head)
        self._next = self._end, self._sum

    def _begin(self) -> None:
        """Puts a journal without entries there at once, so that a head is never torn, and never in the place of another's."""
        with tempfile.NamedTemporaryFile(dir=os.path.dirname(self._path) or ".") as file:
            file.write(self._head)
            file.flush()
            os.fsync(file.fileno())
            os.link(file.name, self._path)
        folder = os.open(os.path.dirname(self._path) or ".", os.O_RDONLY)
        os.fsync(folder)
        os.close(folder)

    def entries(self) -> Iterator[Tuple[bytes, bool]]:
        """Each update, and whether it is the last. `keep` or `cut` has to follow each. A torn one at the end is cut off."""
        with open(self._path, "rb") as file:
            head, size = file.read(self.HEAD.size), os.fstat(file.fileno()).st_size
            if len(head) < self.HEAD.size or not head.startswith(self.NAME):
                raise Stop(f"{self._path}: no journal, or its head is damaged")
            if head != self._head:
                raise Stop(f"{self._path}: this journal began with another zone file or origin")
            while len(fields := file.read(self.ENTRY.size)) == self.ENTRY.size:
                length, turned, sum_ = self.ENTRY.unpack(fields)
                update = file.read(length)
                if turned != length ^ 0xFFFF or len(update) == length and zlib.crc32(update, self._sum) != sum_:
                    raise Stop(f"{self._path}: the entry at byte {self._end} is damaged")
                if len(update) < length:
                    break
                self._next = self._end + len(fields) + length, sum_
                yield update, self._next[0] == size
        if os.fstat(self._file).st_size > self._end:
            warn(f"{self._path}: a torn entry at byte {self._end} is cut off")
            self.cut()

    def append(self, update: bytes) -> None:
        """Writes an entry and syncs it. `keep` or `cut` has to follow, also where it fails."""
        sum_, length = zlib.crc32(update, self._sum), len(update)
        entry, written = self.ENTRY.pack(length, length ^ 0xFFFF, sum_) + update, 0
        while written < len(entry):
            written += os.pwrite(self._file, entry[written:], self._end + written)
        os.fdatasync(self._file)
        self._next = self._end + len(entry), sum_

    def close(self) -> None:
        os.close(self._file)

    def keep(self) -> None:
        self._end, self._sum = self._next

    def cut(self) -> None:
        """Cuts off what comes after the entries that were kept."""
        try:
            os.ftruncate(self._file, self._end)
            os.fdatasync(self._file)
        except OSError as why:
            raise Stop(f"{self._path}: an entry can't be cut off: {why}") from why
