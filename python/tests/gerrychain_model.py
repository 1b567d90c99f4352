"""A stand-in for GerryChain with what its documentation says of the parts that a page uses.

ReCom here is the plain method: it merges two neighboring districts, draws a random spanning tree of
their units, and splits them where both sides have enough people.
"""
from __future__ import annotations

import contextlib
import json
import pathlib
import random
import sys
import types
import typing

from common import Value
from district_audit import neutral

Votes = typing.Mapping[str, str]
Updater = typing.Callable[["Partition"], Value]
Constraint = typing.Callable[["Partition"], bool]


class Graph:
    """A graph with the nodes and edges of networkx's adjacency layout."""

    def __init__(self, root: Value) -> None:
        self.nodes: dict[Value, Value] = {node["id"]: node for node in root["nodes"]}
        self.neighbors: dict[Value, list[Value]] = {
            node["id"]: [entry["id"] for entry in entries]
            for node, entries in zip(root["nodes"], root["adjacency"])
        }

    @classmethod
    def from_json(cls, path: str) -> Graph:
        return cls(json.loads(pathlib.Path(path).read_text(encoding="utf-8")))


class Partition:
    """A plan: from the nodes of a graph to districts, with updaters by name."""

    def __init__(
        self, graph: Graph, assignment: Value,
        updaters: typing.Optional[typing.Mapping[str, Updater]] = None,
    ) -> None:
        if isinstance(assignment, str):
            assignment = {unit: node[assignment] for unit, node in graph.nodes.items()}
        assert set(assignment) == set(graph.nodes)
        self.graph, self.assignment, self.updaters = graph, dict(assignment), dict(updaters or {})
        self.parts: dict[Value, set[Value]] = {}
        for unit, district in self.assignment.items():
            self.parts.setdefault(district, set()).add(unit)

    def __len__(self) -> int:
        return len(self.parts)

    def __getitem__(self, name: str) -> Value:
        return self.updaters[name](self)

    def sums(self, column: str) -> dict[Value, int]:
        """Returns the sum of a column in each district."""
        return {
            district: sum(self.graph.nodes[unit][column] for unit in units)
            for district, units in self.parts.items()
        }


class Tally:
    """The updater that adds up a column by districts."""

    def __init__(self, column: str) -> None:
        self.column = column

    def __call__(self, partition: Partition) -> dict[Value, int]:
        return partition.sums(self.column)


class Election:
    """The updater of an election, by the parties' columns."""

    def __init__(self, name: str, parties_to_columns: Votes) -> None:
        self.name, self.columns = name, parties_to_columns

    def __call__(self, partition: Partition) -> Results:
        return Results({one: partition.sums(column) for one, column in self.columns.items()})


class Results:
    """The results of an election in the districts of a plan."""

    def __init__(self, votes: typing.Mapping[str, typing.Mapping[Value, int]]) -> None:
        self.votes = votes

    def percents(self, party: str) -> tuple[float, ...]:
        every = [sum(one[place] for one in self.votes.values()) for place in self.votes[party]]
        return tuple(own / all_ for own, all_ in zip(self.votes[party].values(), every))

    def wins(self, party: str) -> int:
        return sum(share > 0.5 for share in self.percents(party))


def recom(
    partition: Partition, pop_col: str, pop_target: float, epsilon: float, node_repeats: int
) -> Partition:
    """Returns a plan in which two neighboring districts were merged and split anew."""
    assert node_repeats >= 0
    graph, own = partition.graph, partition.assignment
    dice = random.Random(repr(sorted(map(str, own.items()))))
    whole = neutral.Map(
        graph.neighbors, {unit: node[pop_col] for unit, node in graph.nodes.items()},
        int(-(-pop_target * (1 - epsilon) // 1)), int(pop_target * (1 + epsilon)),
    )
    pairs = sorted({
        tuple(sorted((own[unit], own[other])))
        for unit, others in graph.neighbors.items() for other in others if own[unit] != own[other]
    })
    while True:
        one, other = dice.choice(pairs)
        found = neutral.bisect(partition.parts[one] | partition.parts[other], whole, 2, dice)
        if found is not None:
            new = {unit: name for name, units in zip((one, other), found) for unit in units}
            return Partition(graph, {**own, **new}, partition.updaters)


def within_percent_of_ideal_population(
    initial_partition: Partition, percent: float, pop_key: str = "population"
) -> Constraint:
    """Returns the constraint that each district has nearly as many people as an even share."""
    ideal = sum(initial_partition[pop_key].values()) / len(initial_partition)
    return lambda plan: all(
        abs(people - ideal) <= percent * ideal for people in plan[pop_key].values()
    )


class MarkovChain:
    """An iterator of plans, the initial one first."""

    def __init__(
        self, proposal: typing.Callable[[Partition], Partition],
        constraints: typing.Iterable[Constraint], accept: typing.Callable[[Partition], bool],
        initial_state: Partition, total_steps: int,
    ) -> None:
        self.proposal, self.accept, self.total = proposal, accept, total_steps
        self.constraints, self.state = list(constraints), initial_state
        assert all(one(initial_state) for one in self.constraints)

    def __iter__(self) -> typing.Iterator[Partition]:
        for step in range(self.total):
            if step:
                proposed = self.proposal(self.state)
                if all(one(proposed) for one in self.constraints) and self.accept(proposed):
                    self.state = proposed
            yield self.state


def make_module() -> types.ModuleType:
    """Returns what `import gerrychain` finds."""
    module = types.ModuleType("gerrychain")
    vars(module).update(
        Graph=Graph, Partition=Partition, Election=Election, MarkovChain=MarkovChain,
        accept=types.SimpleNamespace(always_accept=lambda plan: True),
        constraints=types.SimpleNamespace(
            within_percent_of_ideal_population=within_percent_of_ideal_population
        ),
        proposals=types.SimpleNamespace(recom=recom), updaters=types.SimpleNamespace(Tally=Tally),
    )
    return module


@contextlib.contextmanager
def install() -> typing.Iterator[None]:
    """Lets `import gerrychain` find the stand-in, for a while."""
    before = sys.modules.get("gerrychain")
    sys.modules["gerrychain"] = make_module()
    try:
        yield
    finally:
        del sys.modules["gerrychain"]
        if before is not None:
            sys.modules["gerrychain"] = before
