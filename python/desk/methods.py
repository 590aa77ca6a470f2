"""The methods and the marks, by the numbers that the library knows them by."""

from __future__ import annotations

import enum


class Method(enum.IntEnum):
    """The eight methods, in the order of their numbers."""

    LEXIMIN = 0
    ADAMS = 1
    DEAN = 2
    HILL = 3
    WEBSTER = 4
    JEFFERSON = 5
    REMAINDERS = 6
    QUOTA = 7

    @property
    def word(self) -> str:
        """The word that a register has for it: ``leximin``."""
        return self.name.lower()

    @classmethod
    def of(cls, method: Method | str) -> Method:
        """The method of a register's word, in small letters as there; a method is handed back as it is."""
        if isinstance(method, cls):
            return method
        for known in cls:
            if known.word == method:
                return known
        raise ValueError(f"no method is called {method!r}; there are {', '.join(known.word for known in cls)}")


METHODS = tuple(Method)


class Mark(enum.IntEnum):
    """How far a state is from the average: up to 10 per cent, up to 15, beyond, and a state without seats."""

    IN = 0
    HIGH = 1
    OVER = 2
    NONE = 3

    @property
    def word(self) -> str:
        """The word that a listing has for it: ``in``."""
        return self.name.lower()
