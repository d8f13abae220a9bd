"""What extensions that are lists of general names have in common."""

from __future__ import annotations

from typing import Iterable, Sequence

from ._extension import ListExtension
from ._writing import general_names_der
from .general_name import GeneralName, GeneralNames


class NamesExtension(ListExtension[GeneralName]):
    def __init__(self, general_names: Iterable[GeneralName]) -> None:
        names = GeneralNames(general_names)
        self._write(general_names_der(names), names=names)

    def _read(self, data: bytes) -> None:
        super()._read(data)
        self.names = GeneralNames.from_der(data)

    def _members(self) -> Sequence[GeneralName]:
        return list(self.names)
