"""The one error for everything that the library refuses."""
from __future__ import annotations

from typing import Any, Optional

from .library import NotThere, library

_words: dict[int, str] = {}


def words(number: int) -> str:
    """What a number means, in the library's words."""
    if number not in _words:
        try:
            _words[number] = library().text("toralinge_words", number)
        except NotThere:
            return f"number {number}"
    return _words[number]


class Refused(Exception):
    """The library refuses a record or a call.

    :ivar number: why, as ``toralinge.h`` numbers it
    :ivar words: the same in words
    :ivar record: the record that was refused, numbered from 0; None where no single record is at fault
    """

    def __init__(self, number: int, words_: Optional[str] = None, record: Optional[int] = None) -> None:
        self.number = number
        self.words = words(number) if words_ is None else words_
        self.record = record
        super().__init__(number, self.words, record)

    def __str__(self) -> str:
        where = "" if self.record is None else f"record {self.record}: "
        return f"{where}refused, {self.number}: {self.words}"

    def __reduce__(self) -> tuple[Any, ...]:
        return Refused, (self.number, self.words, self.record)

    def __eq__(self, other: object) -> bool:
        return isinstance(other, Refused) and self.args == other.args

    def __hash__(self) -> int:
        return hash(self.args)


def checked(answer: int, record: Optional[int] = None) -> int:
    """An answer that counts something; minus a number is raised as :class:`Refused`."""
    if answer < 0:
        raise Refused(-answer, record=record)
    return answer


def done(number: int, record: Optional[int] = None) -> None:
    """Raises an answer that is not 0, done, as :class:`Refused`."""
    if number != 0:
        raise Refused(number, record=record)
