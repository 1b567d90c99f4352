"""Names and grammar of what people read: parties, the group, the regions and the unit of length."""
from __future__ import annotations

import dataclasses
import re
import typing

from .arguments import MOST_WEIGHT
from .report import MOST_REGIONS, MOST_SPLITS, Rules, weight_text


@dataclasses.dataclass(frozen=True)
class Names:
    """Names of the things that a report has no names for."""

    group: str = ""
    """The group, as "Black voting-age population"."""
    region: str = "regions"
    """The regions, in the plural, as "counties"."""
    length: str = ""
    """The unit of length, in the plural, as "meters"."""

    @property
    def the_group(self) -> str:
        """The group within a sentence."""
        return add_article(self.group, True) if self.group else "the group"

    def count_regions(self, count: int) -> str:
        """Returns a number of regions, as "14 counties" or "1 of the counties"."""
        return f"1 of the {self.region}" if count == 1 else f"{count:,} {self.region}"

    def measure(self, length: int) -> str:
        """Returns a length with its unit, where it has one."""
        return f"{length:,} {self.length}".strip()


def read_names(names: typing.Mapping[str, str] | None) -> Names:
    """Returns the names of an argument `names`. Raises ValueError for an unknown one."""
    known = [field.name for field in dataclasses.fields(Names)]
    given = dict(names or {})
    for key, value in given.items():
        if key not in known:
            raise ValueError(f"names has {key!r}, which is not one of {', '.join(known)}")
        if not isinstance(value, str) or not value.strip():
            raise ValueError(f"names={{{key!r}: {value!r}}}: a name is a text that is not empty")
    return Names(**{key: value.strip() for key, value in given.items()})


# ---- grammar


def is_plural(name: str) -> bool:
    """Returns whether a party's name is a plural, as "Democrats" or "the Greens"."""
    words = re.sub(r"\([^)]*\)", " ", name).split()
    if not words or any(word.lower() == "party" for word in words):
        return False
    last = words[-1].lower()
    return last.endswith("s") and not last.endswith(("ss", "us", "is"))


def add_article(name: str, always: bool = False) -> str:
    """Returns a name within a sentence: a plural, and one with "Party" in it, has an article."""
    first, *_ = name.split() or [""]
    if first.lower() in ("the", "a", "an"):
        return name
    has_party = any(word.lower() == "party" for word in name.split())
    return f"the {name}" if always or has_party or is_plural(name) else name


def verb(name: str, one: str, many: str) -> str:
    """Returns the form of a verb that agrees with a party's name."""
    return many if is_plural(name) else one


def plural(count: int, what: str) -> str:
    return f"{count:,} {what}{'' if count == 1 else 's'}"


# ---- rules


def keep_limits(rules: Rules, edges: int, districts: int) -> Rules:
    """Returns the rules without those that limit nothing on a map of this size."""
    regions = rules.regions or 0
    changed: dict[str, None] = {}

    def drop(name: str, is_idle: bool) -> None:
        if is_idle:
            changed[name] = None

    drop("max_cut", rules.max_cut is not None and rules.max_cut >= edges)
    drop("max_split", (rules.max_split or 0) >= districts)
    most = min(MOST_SPLITS, regions * max(districts - 1, 0))
    drop("max_splits", rules.max_splits is not None and rules.max_splits >= most)
    most = min(MOST_REGIONS, regions)
    drop(
        "max_split_regions",
        rules.max_split_regions is not None and rules.max_split_regions >= most,
    )
    drop("group_districts", rules.group_districts == 0)
    drop("frozen", rules.frozen == 0)
    return dataclasses.replace(rules, **changed)


def describe_limits(
    rules: Rules, names: Names, edges: int = 0, districts: int = 0
) -> list[str]:
    """Returns the limits in words, each once; with the size of the map, without idle ones."""
    if districts:
        rules = keep_limits(rules, edges, districts)
    said = [] if rules.max_cut is None else [f"at most {rules.max_cut:,} cut edges"]
    if rules.max_split is not None and rules.regions is not None:
        said.append(
            f"{names.count_regions(rules.regions)}, each in at most"
            f" {plural(rules.max_split, 'district')}"
        )
    if rules.max_splits is not None and rules.max_splits < MOST_SPLITS:
        said.append(f"at most {plural(rules.max_splits, 'split')} of {names.region} in all")
    if rules.max_split_regions is not None and rules.max_split_regions < MOST_REGIONS:
        few = names.count_regions(rules.max_split_regions)
        said.append(f"at most {few} in more than one district")
    if rules.group_districts is not None:
        said.append(describe_group(rules, names))
    if rules.frozen is not None:
        verbs = ("keeps its district", "keep their districts")
        said.append(f"{plural(rules.frozen, 'unit')} {verbs[rules.frozen != 1]}")
    if rules.max_length is not None:
        length = names.measure(rules.max_length)
        said.append(f"cut edges have a length of at most {length} in all")
    if rules.cut_weight is not None:
        said.append(f"each cut edge weighs {weight_text(rules.cut_weight)}/{MOST_WEIGHT}")
    return said


def describe_group(rules: Rules, names: Names) -> str:
    """Returns the rule on the districts in which the group has a majority."""
    is_half = rules.group_share is None
    share = "a majority" if is_half else f"more than {(rules.group_share or 0) / 100:g} percent"
    one = "one" if is_half else "it"
    return (
        f"{names.the_group} {verb(names.group, 'has', 'have')} {share} in"
        f" {plural(rules.majorities or 0, 'district')}, and must have {one} in"
        f" {rules.group_districts}"
    )
