"""Helpers of tests of traces: a text, drawn jobs, and traces and scores by the plain model."""
import json
import random
import statistics
import subprocess
import typing
from fractions import Fraction

import common
import district_audit
from common import Root, Value, Words
from tests.oracle import model

SCORES = list(model.SCORES[:4])
COLUMNS: Words = dict(pop="pop", first="a", second="b", district="d")

# A path of four units in two districts: a walk of five steps, in two of which unit 1 moves there
# and back, and two trajectories to ends, whose hub has unit 2 moved. The scores are worked by
# hand. In ppqq both districts are tied, 4 to 4, and so are the second party's: twice the gap's
# votes are (4 - 12) + (4 - 12) = -16. In pqqq they are (6 - 3) + (6 - 15) = -6, and in pppq
# (6 - 12) + (6 - 4) = -4.
PATH: Root = {
    "directed": False,
    "multigraph": False,
    "graph": [],
    "nodes": [
        {"id": name, "pop": 1, "a": a, "b": 2, "d": label}
        for name, a, label in zip("wxyz", (3, 1, 0, 4), ("p", "p", "q", "q"))
    ],
    "adjacency": [
        [{"id": "x"}], [{"id": "w"}, {"id": "y"}], [{"id": "x"}, {"id": "z"}], [{"id": "y"}],
    ],
}
TEXT = """district-trace 1
key 0000000000000000000000000000000000000000000000000000000000000000
units 4 edges 3 districts 2
population 4 slack 5000 low 1 high 3
walks 1 steps 5 ends 2 hub-steps 2
ask seats low start 0/1
ask gap high start -16/32
trace id 0 steps 5 thin 2
0 0 0 -16
2 1 1 -6 1:1
4 2 0 -16 1:0
5 3 1 -6 1:1
trace id 1 steps 2 thin 2
0 0 1 -4 2:0
2 1 0 -16 2:1
trace id 2 steps 2 thin 2
0 0 1 -4 2:0
2 0 1 -4
end
"""


class Drawn(typing.NamedTuple):
    """A drawn graph, words of a run, the model's job of both, and a trace of it: the first and the
    last id, and the thinning.
    """

    root: Root
    words: Words
    job: model.Job
    first: int
    last: int
    thin: int


def draw_graph(dice: random.Random) -> Root:
    """Returns a connected graph with a legal plan of contiguous districts, columns of counties, a
    group and a second election, ids of both kinds, and the root object of its JSON."""
    rows, columns = dice.randint(2, 5), dice.randint(3, 6)
    places = [(row, column) for row in range(rows) for column in range(columns)]
    pairs = [
        (one, other)
        for one in places
        for other in places
        if one < other and abs(one[0] - other[0]) + abs(one[1] - other[1]) == 1
    ]
    count = dice.randint(2, min(4, columns))
    is_named = dice.random() < 0.5
    ids = {
        place: f"u{row}.{column}" if is_named else 10 * row + column
        for place, (row, column) in zip(places, places)
    }
    dice.shuffle(places)
    nodes = []
    for row, column in places:
        votes = [dice.randint(0, 60) for _ in range(4)]
        nodes.append(
            {
                "id": ids[row, column],
                "pop": dice.randint(8, 12),
                "a": votes[0],
                "b": votes[1],
                "c": votes[2],
                "e": votes[3],
                "d": f"D{column * count // columns}",
                "county": f"county {row // 2}.{column // 2}",
                "vap": dice.randint(5, 9),
                "bvap": dice.randint(0, 9),
            }
        )
    entries: dict[tuple[int, int], list[object]] = {place: [] for place in places}
    for one, other in pairs:
        length = 1 + (5 * sum(one) + 3 * sum(other)) % 11
        entries[one].append({"length": length, "id": ids[other]})
        entries[other].append({"length": length, "id": ids[one]})
    return {
        "directed": False,
        "multigraph": False,
        "graph": [],
        "nodes": nodes,
        "adjacency": [entries[place] for place in places],
    }


def draw_words(dice: random.Random, steps: int = 120) -> Words:
    """Returns the words of a run, as keyword arguments of the package."""
    has_lengths = dice.random() < 0.4
    scores = [*SCORES, "cut-length"] if has_lengths else SCORES
    asks = [
        f"{score}:{dice.choice(['low', 'high'])}"
        for score in dice.sample(scores, dice.randint(1, 4))
    ]
    words: Words = dict(
        COLUMNS, slack=dice.choice([3000, 5000, 9000]), key=dice.randbytes(32).hex(),
        walks=dice.randint(1, 3), steps=dice.randint(1, steps), ends=dice.randint(0, 3),
        hub_steps=dice.randint(1, steps), ask=",".join(asks), max_cut=dice.choice([400000, 30]),
    )
    if dice.random() < 0.5:
        words.update(
            region="county", max_split=dice.choice([2, 200]), max_splits=dice.choice([9, 995000])
        )
    if dice.random() < 0.5:
        words.update(group="bvap", group_of="vap")
    if has_lengths:
        words.update(length="length", max_length=dice.choice([1717986918000000, 150]))
    return words


def job_of(words: typing.Mapping[str, object], data: bytes) -> model.Job:
    """Returns the model's job; raises model.Refused if the plan or the words are refused."""
    given = [
        part
        for name, value in words.items()
        for part in ("--" + name.replace("_", "-"), str(value))
    ]
    job: model.Job = model.job_of(model.Setting(["run", *given]), data)
    return job


def visit(job: model.Job, number: int) -> list[tuple[typing.Sequence[int], int]]:
    """Returns the plans and the moves of a trajectory: a list of both after each step, and how many
    steps.
    """
    hub = job.walk(tuple(job.plan), 1, job.setting.hub_steps)[0][-1]
    plans, moves = model.trajectory_plans(job, number, hub), [0]
    for before, after in zip(plans, plans[1:]):
        moves.append(moves[-1] + (before != after))
    return list(zip(plans, moves))


def shown_steps(steps: int, thin: int) -> list[int]:
    return [*range(0, steps, thin), steps]


def text_of(job: model.Job, first: int, last: int, thin: int) -> str:
    """Returns the trace of some trajectories."""
    text: str = model.trace_text(job, first, last, thin)
    return text


def scores_by_hand(root: Root, assignment: typing.Mapping[Value, Value]) -> dict[str, object]:
    """Scores of a plan from its graph, each by its plain definition, by the names of the tests."""
    nodes = root["nodes"]
    labels = sorted(set(assignment.values()))
    by_label = {
        label: [node for node in nodes if assignment[node["id"]] == label] for label in labels
    }

    def total(column: str) -> list[int]:
        return [sum(node[column] for node in by_label[label]) for label in labels]

    found: dict[str, Value] = {}
    for name, (first, second) in {"ab": ("a", "b"), "ce": ("c", "e")}.items():
        pairs = list(zip(total(first), total(second)))
        shares = sorted(Fraction(a, a + b) if a + b else Fraction(1, 2) for a, b in pairs)
        halves = [Fraction(a + b, 2) for a, b in pairs]
        wasted = [
            (Fraction(a), b - half) if b >= a else (a - half, Fraction(b))
            for (a, b), half in zip(pairs, halves)
        ]
        found["seats " + name] = sum(a > b for a, b in pairs)
        found["efficiency_gap " + name] = sum(b - a for a, b in wasted) / sum(
            a + b for a, b in pairs
        )
        found["ordered_shares " + name] = shares
        found["partisan_bias " + name] = Fraction(
            sum(share > statistics.mean(shares) for share in shares), len(shares)
        ) - Fraction(1, 2)
        found["competitive " + name] = sum(
            abs(2 * share - 1) <= Fraction(1, 10) for share in shares
        )
    of = {node["id"]: assignment[node["id"]] for node in nodes}
    edges = {
        frozenset((node["id"], other["id"]))
        for node, others in zip(nodes, root["adjacency"])
        for other in others
    }
    found["cut_edges"] = sum(len({of[unit] for unit in edge}) == 2 for edge in edges)
    counties: dict[object, set[object]] = {}
    for node in nodes:
        counties.setdefault(node["county"], set()).add(of[node["id"]])
    found["splits"] = sum(len(those) - 1 for those in counties.values())
    found["split_regions"] = sum(len(those) > 1 for those in counties.values())
    found["majorities"] = sum(2 * part > whole for part, whole in zip(total("bvap"), total("vap")))
    return found


def encode(root: object) -> bytes:
    return json.dumps(root).encode("utf-8")


def draw_jobs(seed: int, count: int) -> typing.Iterator[Drawn]:
    """Yields drawn graphs with words that the model takes, the model's job, and ids and a thinning.
    """
    dice = random.Random(seed)
    while count:
        root, words = draw_graph(dice), draw_words(dice)
        try:
            job = job_of(words, encode(root))
        except model.Refused:
            continue
        first = dice.randrange(words["walks"] + words["ends"])
        last = dice.randrange(first, words["walks"] + words["ends"])
        count -= 1
        yield Drawn(root, words, job, first, last, dice.choice([1, 2, 7, 50, 1000]))


def tracing_program() -> str:
    """Returns the real program, which must know `trace` with `--ids`."""
    program = common.build_program("audit_program", "DISTRICT_AUDIT")
    answer = subprocess.run(
        [program, "trace", "--ids", "0"], stdin=subprocess.DEVNULL, stdout=subprocess.DEVNULL,
        stderr=subprocess.PIPE, text=True, check=False,
    )
    if "unknown" in answer.stderr:
        common.fail_or_skip("the command `trace --ids` of the program")
    return program


class TextCase(common.FolderCase):
    """Tests that read traces from files."""

    def read(
        self,
        text: typing.Union[str, bytes],
        graph: object = None,
        words: typing.Optional[Words] = None,
        **more: Value,
    ) -> district_audit.Trace:
        path = self.folder / "trace"
        path.write_bytes(text if isinstance(text, bytes) else text.encode("utf-8"))
        data = encode(PATH if graph is None else graph)
        return district_audit.read_trace(path, data, **(words or COLUMNS), **more)
