"""Decimals of the tables of districts, all by one rule: they are rounded down, toward zero.

A majority is more than one half. So a share of 49.9975 percent must not read 50.00, as the nearest
decimal does.
"""
from __future__ import annotations

from fractions import Fraction

ROUNDED_DOWN = (
    "Decimals are rounded down, toward zero: a share below one half never reads 50.00."
)


def round_down(value: Fraction | int, places: int, sign: str = "", comma: str = "") -> str:
    """Returns a number with these decimal places, rounded toward zero.

    `sign` stands before what is above zero, and `comma` between the thousands. What is shown as
    zero has no sign.
    """
    exact = Fraction(value)
    scaled = int(abs(exact) * 10**places)
    whole, rest = divmod(scaled, 10**places)
    before = ("-" if exact < 0 else sign) if scaled else ""
    return f"{before}{whole:{comma}}" + (f".{rest:0{places}}" if places else "")


def percent_down(part: int, whole: int) -> str:
    """Returns a part in percent with two places, without the sign %; empty if there is no whole."""
    return round_down(Fraction(100 * part, whole), 2) if whole else ""
