"""Opens what was found: a plain file, one that is packed, or each STEP file in a zip, within bounds."""

from __future__ import annotations

import bz2
import gzip
import io
import lzma
import os
import re
import stat
import struct
import subprocess
import zipfile
import zlib
from typing import BinaryIO, Callable, Iterator, List, Optional

from .model import Bounds, File, Untried, bytes_of

# What is looked for in a folder, and what in a zip.
PACKED = re.compile(rb'\.(?:stp|step|p21|ifc)(?:\.(?:gz|xz|bz2|zst|zip))?\Z|\.(?:ifczip|stpz)\Z', re.IGNORECASE)
ZIPS = (b'.zip', b'.ifczip')
# What is packed. An .stpz is a zip, or else packed by gzip.
ENDINGS = (*ZIPS, b'.stpz', b'.gz', b'.xz', b'.bz2', b'.zst')
MEMBER = re.compile(r'\.(?:stp|step|p21|ifc)\Z', re.IGNORECASE)
# How much longer a file is than it is packed, about; and how many times as long it may be, unless it has no more than so many bytes.
ABOUT_TIMES, MOST_TIMES, ALWAYS = 8, 200, 1 << 26
# The most STEP files in a zip, and bytes of its list of files; and the most memory that the dictionary of an xz file may take.
MOST_MEMBERS, MOST_LISTED, MOST_DICTIONARY = 10000, 1 << 24, 1 << 28
# The end of a zip, with the length of its list of files; and the end of one that is larger, which stands before that, with what leads to it.
ZIP_END, LARGE_END = struct.Struct('<4s8xL6x'), struct.Struct('<4s36xQ8x4s16x')
# What the unpackers raise for bytes that they cannot unpack.
DAMAGES = (gzip.BadGzipFile, lzma.LZMAError, zipfile.BadZipFile, zlib.error, struct.error, EOFError, RuntimeError, ValueError)


def is_packed(name: bytes) -> bool:
    """Whether a file of this name has to be unpacked."""
    return os.path.splitext(name)[1].lower() in ENDINGS


def untried(error: Exception) -> Untried:
    """What an error of a reader says of its file."""
    # An unpacker raises an OSError without a number for what it cannot unpack.
    if isinstance(error, OSError) and error.errno is not None:
        return Untried.by(error)
    return Untried('Damaged', 'It cannot be unpacked: %s.' % error)


def open_plain(path: bytes) -> BinaryIO:
    """Opens a plain file, and nothing that a reader might wait for."""
    try:
        file = os.fdopen(os.open(path, os.O_RDONLY | os.O_NONBLOCK | os.O_CLOEXEC | os.O_NOCTTY), 'rb', buffering=0)
    except IsADirectoryError:
        raise Untried.no_file() from None
    except OSError as error:
        raise Untried.by(error) from None
    if not stat.S_ISREG(os.fstat(file.fileno()).st_mode):
        file.close()
        raise Untried.no_file()
    return file


class Unpacked:
    """How much may still be unpacked of a file, or of all files in a zip."""

    def __init__(self, bounds: Bounds):
        self._most = self._left = bounds.bytes

    def take(self, count: int, of_one: int, packed: int) -> None:
        """Takes so many bytes more of a file of which so many were unpacked by now, and that has so many packed."""
        self._left -= count
        if self._left < 0:
            raise Untried('TooLarge', 'It unpacks to more than %d bytes.' % self._most)
        if of_one > max(ALWAYS, packed * MOST_TIMES):
            raise Untried('TooDense', 'It unpacks to more than %d times its size.' % MOST_TIMES)


class Xz(io.RawIOBase):
    """The bytes of an xz file, whose dictionary takes no more memory than it may."""

    def __init__(self, packed: BinaryIO):
        super().__init__()
        self._packed = packed
        self._unpacker = self._begun()

    @staticmethod
    def _begun() -> lzma.LZMADecompressor:
        """What unpacks the next of the streams that stand one after the other."""
        return lzma.LZMADecompressor(lzma.FORMAT_XZ, memlimit=MOST_DICTIONARY)

    def readable(self) -> bool:
        return True

    def readinto(self, into: memoryview) -> int:
        unpacked = b''
        while not unpacked:
            block = b''
            if self._unpacker.eof:
                block = self._after_stream()
                if not block:
                    return 0
                self._unpacker = self._begun()
            elif self._unpacker.needs_input:
                block = self._packed.read(io.DEFAULT_BUFFER_SIZE)
                if not block:
                    raise EOFError('the compressed file ended before its end was reached')
            unpacked = self._unpacker.decompress(block, len(into))
        into[:len(unpacked)] = unpacked
        return len(unpacked)

    def _after_stream(self) -> bytes:
        """What stands after a stream, without the zeros that may be between two; nothing at the end."""
        block = self._unpacker.unused_data.lstrip(b'\0')
        while not block:
            read = self._packed.read(io.DEFAULT_BUFFER_SIZE)
            if not read:
                break
            block = read.lstrip(b'\0')
        return block


class Source:
    """A STEP file that can be read: the name that it is told by, its size as it lies there, packed where it is packed, and its bytes."""

    def __init__(self, name: str, size: int, opener: Callable[[], BinaryIO], unpacked: Optional[Unpacked] = None):
        self.name = name
        self.size = size
        self.is_plain = unpacked is None
        self._opener = opener
        self._unpacked = unpacked
        self._count = 0
        self._stream: BinaryIO

    def __enter__(self) -> Source:
        try:
            self._stream = self._opener()
        except Untried:
            raise
        except (OSError, *DAMAGES) as error:
            raise untried(error) from None
        return self

    def __exit__(self, *_: object) -> None:
        self._stream.close()

    def read(self, size: int) -> bytes:
        """So many bytes, or fewer at the end."""
        try:
            block = self._stream.read(size)
        except (OSError, *DAMAGES) as error:
            raise untried(error) from None
        if self._unpacked:
            self._count += len(block)
            self._unpacked.take(len(block), self._count, self.size)
        return block

    def rewound(self) -> BinaryIO:
        """The file at its begin, of a plain one."""
        self._stream.seek(0)
        return self._stream


def listed_bytes(file: BinaryIO) -> int:
    """How many bytes the list of files of a zip has, as its end says; 0 where it has no such end."""
    size = file.seek(0, os.SEEK_END)
    file.seek(max(0, size - LARGE_END.size - ZIP_END.size - (1 << 16)))
    end = file.read()
    mark = b'PK\x05\x06'
    # Without a comment it stands at the very end, and else before one.
    place = len(end) - ZIP_END.size
    if not (end.startswith(mark, max(0, place)) and end.endswith(b'\0\0')):
        place = end.rfind(mark)
    if place < 0 or place + ZIP_END.size > len(end):
        return 0
    if place >= LARGE_END.size:
        large, listed, leads = LARGE_END.unpack_from(end, place - LARGE_END.size)
        if large == b'PK\x06\x06' and leads == b'PK\x06\x07':
            return listed
    return ZIP_END.unpack_from(end, place)[1]


def overlap(members: List[zipfile.ZipInfo]) -> bool:
    """Whether two files of a zip share bytes of it, so that a small one could unpack to very much."""
    members = sorted(members, key=lambda it: it.header_offset)
    return any(one.header_offset + one.compress_size >= other.header_offset for one, other in zip(members, members[1:]))


def step_files(file: BinaryIO) -> List[zipfile.ZipInfo]:
    """The STEP files of a zip, as its list has them."""
    try:
        if listed_bytes(file) > MOST_LISTED:
            raise Untried('TooManyMembers', 'It lists more files than are looked at.')
        packed = zipfile.ZipFile(file)
    except (OSError, *DAMAGES) as error:
        raise untried(error) from None
    found = [it for it in packed.infolist() if MEMBER.search(it.filename)]
    if not found:
        raise Untried('NoMember', 'It holds no STEP file.')
    if len(found) > MOST_MEMBERS:
        raise Untried('TooManyMembers', 'It holds more than %d STEP files.' % MOST_MEMBERS)
    if overlap(packed.infolist()):
        raise Untried('Overlap', 'Some of its files share bytes.')
    return found


class Zstd(io.RawIOBase):
    """The bytes of a file packed by Zstandard, as the program zstd unpacks it."""

    def __init__(self, packed: BinaryIO):
        super().__init__()
        try:
            self._running = subprocess.Popen(['zstd', '-dcq', '--memory=%d' % MOST_DICTIONARY], stdin=packed, stdout=subprocess.PIPE,
                                             stderr=subprocess.PIPE, env={**os.environ, 'LC_ALL': 'C'})
        except FileNotFoundError:
            raise Untried('NoUnpacker', 'The program zstd is not installed.') from None

    def readable(self) -> bool:
        return True

    def readinto(self, into: memoryview) -> int:
        count = self._running.stdout.readinto(into)
        if not count and self._running.wait():
            raise EOFError(self._running.stderr.read(200).decode(errors='replace').strip() or 'zstd failed')
        return count

    def close(self) -> None:
        if not self.closed:
            self._running.kill()
            self._running.communicate()
        super().close()


def members(name: str, file: BinaryIO, unpacked: Unpacked) -> Iterator[Source]:
    """Each STEP file of a zip, told by the name of the zip, two slashes and its own."""
    found = step_files(file)
    packed = zipfile.ZipFile(file)
    for member in found:
        yield Source('%s//%s' % (name, member.filename), member.compress_size, lambda member=member: packed.open(member), unpacked)


def unpacked_size(path: bytes, size: int) -> int:
    """About how many bytes a packed file unpacks to: what it says of itself, if that can be."""
    suffix = os.path.splitext(path)[1].lower()
    told = size * ABOUT_TIMES
    try:
        with open_plain(path) as file:
            if suffix == b'.gz' and size > 4:
                file.seek(-4, os.SEEK_END)
                told = int.from_bytes(file.read(4), 'little')
            elif suffix in ZIPS:
                told = sum(it.file_size for it in step_files(file))
    except (OSError, Untried):
        # The worker that reads it tells what is wrong.
        pass
    return max(size, min(told, max(ALWAYS, size * MOST_TIMES)))


# What unpacks a file, by its ending.
UNPACKERS = {
    b'.gz': lambda packed: gzip.GzipFile(fileobj=packed),
    b'.xz': lambda packed: io.BufferedReader(Xz(packed)),
    b'.bz2': bz2.BZ2File,
    b'.zst': lambda packed: io.BufferedReader(Zstd(packed)),
}


def sources(file: File, bounds: Bounds) -> Iterator[Source]:
    """Each STEP file in what was found."""
    with open_plain(bytes_of(file.source)) as plain:
        size = os.fstat(plain.fileno()).st_size
        suffix = os.path.splitext(bytes_of(file.name))[1].lower()
        if suffix == b'.stpz':
            suffix = b'.zip' if plain.read(2) == b'PK' else b'.gz'
            plain.seek(0)
        if suffix in ZIPS:
            yield from members(file.name, plain, Unpacked(bounds))
        elif suffix in UNPACKERS:
            yield Source(file.name, size, lambda: UNPACKERS[suffix](plain), Unpacked(bounds))
        else:
            yield Source(file.name, size, lambda: plain)
