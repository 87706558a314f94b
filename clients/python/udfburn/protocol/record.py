"""Values of named fields, as plain classes: a class of `dataclasses` is made by code that is compiled at each start, and a
command would take half as long again to begin."""

from __future__ import annotations

from typing import ClassVar, Tuple


class Record:
    """A value that is equal to those of its own class with the same fields. It stays as it was made: nothing here changes one,
    and nobody else is to, since equal answers are shared.

    A class that is derived has `__slots__`, the names of its own fields, and takes all of them in their order.
    """

    __slots__: Tuple[str, ...] = ()
    field_names: ClassVar[Tuple[str, ...]] = ()

    def __init_subclass__(cls) -> None:
        super().__init_subclass__()
        cls.field_names += tuple(cls.__dict__.get("__slots__", ()))

    def fields(self) -> Tuple[object, ...]:
        """The values of all fields, in order."""
        return tuple([getattr(self, name) for name in self.field_names])

    def __eq__(self, other: object) -> bool:
        if other.__class__ is not self.__class__:
            return NotImplemented
        return self is other or self.fields() == other.fields()  # type: ignore[attr-defined]

    def __hash__(self) -> int:
        return hash((self.__class__, self.fields()))

    def __repr__(self) -> str:
        told = ", ".join(f"{name}={value!r}" for name, value in zip(self.field_names, self.fields()))
        return f"{self.__class__.__name__}({told})"


__all__ = ["Record"]
