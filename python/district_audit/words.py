"""The words of the program, as keyword arguments."""
from __future__ import annotations

import hashlib
import typing

Ask = typing.Union[str, typing.Sequence[str]]
Key = typing.Union[str, bytes]


def key_of(text: str) -> str:
    """Returns the key of an announced text: the SHA-256 of its bytes in UTF-8, as 64 hexadecimal
    digits.
    """
    return hashlib.sha256(text.encode("utf-8")).hexdigest()


def word_of(value: object) -> str:
    """Returns a value as the program takes it: yes or no, digits, hexadecimal digits, or parts
    joined by commas.
    """
    if type(value).__name__ in ("bool", "bool_"):
        return "yes" if value else "no"
    if isinstance(value, (bytes, bytearray)):
        return bytes(value).hex()
    if isinstance(value, (list, tuple)):
        return ",".join(str(part) for part in value)
    return str(value)


def words_of(command: str, given: typing.Mapping[str, object]) -> list[str]:
    """Returns the words of a call: the command, then the name and value of each value that is not
    None. The program alone decides which names and values are allowed.
    """
    named = dict(given)
    if "population" in named and "pop" not in named:
        named["pop"] = named.pop("population")
    words = [command]
    for name, value in named.items():
        if value is not None:
            words += ["--" + name.replace("_", "-"), word_of(value)]
    return words
