"""Pickles that the package made before it was a module in C name the classes that were here."""
from __future__ import annotations

from pickle import UnpicklingError


def __getattr__(name: str) -> object:
    if name.startswith("__"):
        raise AttributeError(name)
    raise UnpicklingError("this pickle is of an older version of the package hashers, which this one does not read: make it again")
