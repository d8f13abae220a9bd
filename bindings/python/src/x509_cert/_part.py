"""What a span of the C library can do, beside the fields that it has in the header."""

from __future__ import annotations

import ctypes


class Part(ctypes.Structure):
    """A part of bytes: how many stand in front of it, and how many it has."""

    place: int
    len: int

    def of(self, data: bytes) -> bytes:
        """The part of the bytes that a call filled this in for."""
        return data[self.place : self.place + self.len]

    def is_there(self) -> bool:
        return self.place != 0 or self.len != 0
