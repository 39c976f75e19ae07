"""Reads captures record by record, and opens the files that the commands write."""
from __future__ import annotations

import contextlib
import io
import itertools
import os
import struct
import sys
from typing import IO, Iterator, Optional, Tuple, Union

from . import pcap, pcapng
from .program import PimtreeFault
from .records import CaptureFault, Interface, Record

Item = Union[Interface, Record, None]
"""What a piece of a capture describes: an interface, a record, or neither."""
_CHUNK = 1 << 20


class Stream:
    """The bytes of a capture, cut into its pieces: the header and the records of a classic file,
    or the blocks of pcapng."""

    def __init__(self) -> None:
        self._form: Union[pcap.Records, pcapng.Blocks, None] = None
        self.rest = b""
        """What was fed of a piece that isn't whole yet."""

    @property
    def is_begun(self) -> bool:
        """Whether it is known what the bytes are."""
        return self._form is not None

    def _begin(self) -> Optional[Tuple[bytes, Item]]:
        """Finds the form of the file. The first piece, where that is a header."""
        if struct.unpack_from("<I", self.rest)[0] == pcapng.SECTION:
            self._form = pcapng.Blocks()
            return None
        if pcap.byte_order(self.rest) is None:
            raise CaptureFault("magic")
        if len(self.rest) < pcap.HEADER:
            return None
        header, self.rest = self.rest[: pcap.HEADER], self.rest[pcap.HEADER :]
        self._form = pcap.Records(header)
        return header, self._form.interface

    def feed(self, data: bytes) -> Iterator[Tuple[bytes, Item]]:
        """Takes more bytes. Gives the pieces that are whole with them, each with what it describes.

        Raises `CaptureFault` at a piece that can't be read. It is in `rest` then."""
        self.rest += data
        first = self._begin() if self._form is None and len(self.rest) >= 4 else None
        if first:
            yield first
        if self._form is not None:
            yield from self._pieces(self._form)

    def _pieces(self, form: Union[pcap.Records, pcapng.Blocks]) -> Iterator[Tuple[bytes, Item]]:
        buffer, at = self.rest, 0
        try:
            length = form.length(buffer, at)
            while length is not None and at + length <= len(buffer):
                piece = buffer[at : at + length]
                item = form.take(piece)
                at += length
                yield piece, item
                length = form.length(buffer, at)
        finally:
            self.rest = buffer[at:]

    def empty(self, time: int) -> bytes:
        """A record of an empty packet at a time, in nanoseconds since 1970. There is none before
        the header, and without an interface."""
        return self._form.empty(time) if self._form else b""


def items(stream: Stream, file: IO[bytes]) -> Iterator[Union[Interface, Record]]:
    """The interfaces and records of a file, as they come. Raises `CaptureFault`."""
    chunks = iter(lambda: file.read(_CHUNK), b"")
    pieces = itertools.chain.from_iterable(map(stream.feed, chunks))
    return (item for _, item in pieces if item is not None)


@contextlib.contextmanager
def written(path: str) -> Iterator[IO[bytes]]:
    """Opens a file to write. One that was there stays until all is written. `-` is standard
    output."""
    if path == "-":
        yield sys.stdout.buffer
        return
    is_device = os.path.exists(path) and not os.path.isfile(path)
    target = path if is_device else os.path.realpath(path)
    made = path if is_device else f"{target}.{os.getpid()}.part"
    try:
        file = open(made, "wb" if is_device else "xb")
    except OSError as error:
        raise PimtreeFault(f"file {path}: {(error.strerror or str(error)).lower()}") from None
    with contextlib.ExitStack() as undone:
        if not is_device:
            undone.callback(os.remove, made)
        with file:
            yield file
        if not is_device:
            os.replace(made, target)
            undone.pop_all()


def standard_input() -> IO[bytes]:
    """Standard input; nothing where it is closed."""
    return sys.stdin.buffer if sys.stdin else io.BytesIO()
