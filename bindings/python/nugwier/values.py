"""The base of the enumerations of `constants`."""

from __future__ import annotations

from enum import IntEnum
from typing import Type


class Values(IntEnum):
    """Numbers with names, among others that have none: such a one is a member too, and its name is the number."""

    @classmethod
    def unnamed(cls, value: int) -> Values:
        """A member for a number that has no name."""
        member = int.__new__(cls, value)
        member._name_ = hex(value)
        member._value_ = value
        return member

    @classmethod
    def _missing_(cls, value: object) -> Values | None:
        return cls.unnamed(value) if isinstance(value, int) else None

    def __str__(self) -> str:
        return self.name

    def __format__(self, form: str) -> str:
        return format(self.value, form) if form else self.name


def named(general: Type[Values] | None, special: Type[Values] | None, value: int) -> Values:
    """A value by its special name, or else by the one that it has in general."""
    if special and value in special._value2member_map_:
        return special(value)
    return general(value) if general else Values.unnamed(value)
