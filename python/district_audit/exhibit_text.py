"""The words of an exhibit: definitions, methods, theorems and findings, in plain English."""
from __future__ import annotations

import typing
from fractions import Fraction

from .exhibit_counting import numbers_of
from .exhibit_custody import about_proof
from .report import MOST_REGIONS, MOST_SPLITS, Report, weight_text
from .wording import Names, add_article, keep_limits, plural, verb

Parties = tuple[str, str]

LIMITS = (
    (
        "Not why. A plan may be an outlier because of geography, or because of a rule that the "
        "compared plans did not have to keep."
    ),
    "Not how large an effect is. A small bound or p-value is about surprise, not about size.",
    (
        "Not that a plan is fair where nothing unusual was found. A short walk sees only plans that"
        " are close to the enacted one."
    ),
    (
        "Nothing about the data. Whether the file has the true votes, people and borders, the"
        " program cannot know."
    ),
    (
        "Not that a law is kept. The rules count what the columns say; whether that is what a"
        " statute or a court means is a legal question."
    ),
    "Nothing about plans that break the rules above, and nothing about other ways to draw plans.",
)


# ---- numbers


def decimal(value: Fraction | int, places: int, has_sign: bool = False) -> str:
    """Returns a fraction in decimals, rounded to the nearest, halves away from zero."""
    exact = Fraction(value)
    scaled = (2 * abs(exact) * 10**places + 1) // 2
    whole, rest = divmod(int(scaled), 10**places)
    sign = "-" if exact < 0 and scaled else "+" if has_sign and scaled else ""
    return sign + (f"{whole}.{rest:0{places}}" if places else str(whole))


def show(score: str, value: Fraction, names: Names = Names()) -> str:
    """Returns the value of a score as people read it: a number, a length, or percent."""
    if score == "cut-length":
        return f"{value} {names.length}".strip()
    if score in ("seats", "cut-edges"):
        return str(value)
    if score in ("mean-median", "gap"):
        return decimal(100 * value, 3, True) + " %"
    raise ValueError(f"unknown score {score}")


# ---- what was asked


def definition(score: str, parties: Parties) -> str:
    """Returns what a score is, what its sign says, and which party a value hurts."""
    one, other = map(add_article, parties)
    if score == "seats":
        has = verb(one, "has", "have")
        return (
            f"The number of districts in which {one} {has} more votes than {other}; a tie counts"
            f" for {other}. A low value hurts {one}, a high value hurts {other}."
        )
    if score == "mean-median":
        return (
            f"The median of the district vote shares of {one}, less their mean. Below zero,"
            f" {one} {verb(one, 'does', 'do')} worse in the middle district than on average, which"
            f" hurts {one}. Above zero hurts {other}."
        )
    if score == "gap":
        return (
            f"The efficiency gap: the wasted votes of {other} less those of {one}, as a fraction of"
            " all votes. Wasted are all votes for the loser of a district, and the winner's votes"
            f" beyond half. Above zero, {other} {verb(other, 'wastes', 'waste')} more, which hurts"
            f" {other}. Below zero hurts {one}."
        )
    if score == "cut-length":
        return (
            "The total length of the boundaries between districts: the lengths of the shared"
            " borders of neighboring units in different districts, added up. A smaller total"
            " means more compact districts. The score favors no party by itself."
        )
    if score == "cut-edges":
        return (
            "The number of pairs of neighboring units that lie in different districts. Fewer cut "
            "edges mean more compact districts. The score favors no party by itself."
        )
    raise ValueError(f"unknown score {score}")


def question(ask: str, parties: Parties) -> str:
    """Returns an ask as a question."""
    score, tail = ask.split(":")
    many = "few" if tail == "low" else "many"
    one, other = map(add_article, parties)
    if score == "seats":
        return f"{verb(one, 'Does', 'Do')} {one} win unusually {many} districts?"
    if score == "cut-edges":
        return f"Does the plan cut unusually {many} edges?"
    if score == "cut-length":
        short = "short" if tail == "low" else "long"
        return f"Are the boundaries between the districts unusually {short}?"
    names = {"gap": "efficiency gap", "mean-median": "mean-median score"}
    if score not in names:
        raise ValueError(f"unknown score {score}")
    hurt = one if tail == "low" else other
    return (
        f"Is the {names[score]} unusually {tail}, so that {hurt} {verb(hurt, 'is', 'are')} hurt?"
    )


# ---- how it was done


def subject(report: Report, parties: Parties, names: typing.Sequence[str]) -> str:
    """Returns the map in one paragraph."""
    plans = one_of_several(report)
    if len(names) > 1:
        has_own = report.batch is None or report.batch.place == 0
        own = "; the first is the enacted one" if has_own else ""
        plans = (
            f" It audits {len(names)} plans on one map{own}. In the results of each plan,"
            f" {ENACTED} is that plan."
        )
    return (
        "This page presents a report of the district plan auditor about a map of"
        f" {plural(report.units, 'voting unit')} with {plural(report.edges, 'pair')} of"
        f" neighbors, {report.population:,} people and {plural(report.districts, 'district')}. The"
        f" parties compared are {add_article(parties[0])} and {add_article(parties[1])}.{plans}"
    )


ENACTED = "what the text calls the enacted plan"


def one_of_several(report: Report) -> str:
    """Returns which plan or election of its call a report is on; empty if it is by itself."""
    batch = report.batch
    if batch is None:
        return ""
    many = plural(len(batch.names), batch.kind)
    others = f"; the others: {', '.join(batch.others)}" if batch.others else ""
    if batch.kind in ("election", "limit"):
        return f" The report is on {batch.kind} {batch.name}, one of {many} of one call{others}."
    where = (
        "the graph's own"
        if batch.place == 0
        else f"which on this page is {ENACTED}"
    )
    return (
        f" The report is on plan {batch.name}, {where}. It is one of {many} of one call{others}."
    )


def legality(report: Report, names: Names = Names()) -> str:
    """Returns which plans are legal, in one sentence or more."""
    rules = keep_limits(report.rules, report.edges, report.districts)
    said = [
        f"A plan is legal here if each district is contiguous and has {rules.low:,} to"
        f" {rules.high:,} people, which is within {decimal(Fraction(rules.slack, 100), 2)} percent"
        " of the ideal"
    ]
    said += (
        [f"has at most {plural(rules.max_cut, 'cut edge')}"] if rules.max_cut is not None else []
    )
    if rules.max_split is not None and rules.regions is not None:
        said.append(
            f"each of the {rules.regions:,} {names.region} lies in at most"
            f" {plural(rules.max_split, 'district')}"
        )
    if rules.max_splits is not None and rules.max_splits < MOST_SPLITS:
        said.append(f"{names.region} are split at most {plural(rules.max_splits, 'time')} in all")
    if rules.max_split_regions is not None and rules.max_split_regions < MOST_REGIONS:
        said.append(
            f"at most {names.count_regions(rules.max_split_regions)} may lie in more than one"
            " district"
        )
    if rules.group_districts is not None:
        share = (
            "a majority"
            if rules.group_share is None
            else f"more than {decimal(Fraction(rules.group_share, 100), 2)} percent"
        )
        said.append(
            f"{names.the_group} {verb(names.group, 'has', 'have')} {share} in at least"
            f" {plural(rules.group_districts, 'district')}"
        )
    if rules.frozen is not None:
        keep = "1 unit keeps" if rules.frozen == 1 else f"{plural(rules.frozen, 'unit')} keep"
        said.append(f"{keep} the districts of the enacted plan")
    if rules.max_length is not None:
        said.append(
            "the boundaries between districts have a length of at most"
            f" {names.measure(rules.max_length)}"
        )
    more = "" if len(said) == 1 else f"; further, {'; '.join(said[1:])}"
    return said[0] + more + "."


def describe_weight(report: Report) -> str:
    """Returns what a step asks beside legality if cut edges are weighed."""
    weight = report.rules.cut_weight
    if weight is None:
        return ""
    return (
        ". A move that adds one cut edge is made with a chance of"
        f" {weight_text(weight)}/64, and each further edge that it adds multiplies this chance by"
        f" {weight_text(weight)}/64. A move that changes the number of cut edges by more than"
        f" {report.rules.pieces} is not made"
    )


def methods(report: Report, names: Names = Names()) -> list[str]:
    """Returns the methods, one paragraph for each kind of test in the report."""
    setting = report.setting
    found = [
        "The program changes a plan in small random steps. A step names one unit and one district "
        "at random, and moves the unit there if the resulting plan is legal"
        + describe_weight(report)
        + "; otherwise the plan stays, and counts again. "
        + legality(report, names)
        + " The enacted plan meets these rules. All random draws come from the key below."
    ]
    if setting.walks:
        found.append(
            f"Outlier walks: {plural(setting.walks, 'walk')} of {plural(setting.steps, 'step')},"
            " from the enacted plan. For each question the program counts how many of the"
            f" {setting.steps + 1:,} plans visited on a walk, the enacted plan among them, are at"
            " least as extreme as the enacted plan."
        )
    if report.has_pairs:
        found.append(
            "Pairs of walks: walks 0 and 1, 2 and 3 and so on are also counted together, the"
            " enacted plan once. Two walks from one plan are a stronger test than one."
        )
    if setting.ends:
        many = "1 trajectory" if setting.ends == 1 else f"{setting.ends:,} trajectories"
        found.append(
            f"Parallel test: from a plan that lies {plural(setting.hub_steps, 'step')} from the"
            f" enacted plan, {many} of as many steps are walked. The enacted plan is ranked among"
            " their last plans; equal ones count against it."
        )
    if setting.stop:
        found.append(
            f"The parallel test stops as soon as {setting.stop} of them are at least as extreme."
        )
    if report.serial:
        found.append(
            "Serial test: the enacted plan is placed at random in one run of"
            f" {plural(setting.steps, 'step')}, which is walked from it forward and backward. The"
            " enacted plan is ranked among all plans of the run."
        )
    return found


# ---- what it means


COMPARED_BYTES = "The graph has the bytes that the program read for the report, by their SHA-256."
COMPARED_COUNTS = (
    "The report does not name the bytes that were read. Compared with it were the numbers of units,"
    " edges, districts and people, and the scores that were asked for; of its rules, where it has"
    " them, the numbers of regions, of districts with a majority of the group and of frozen units,"
    " and the length of the cut edges. A wrong column with the same counts goes unnoticed."
)
PLACEHOLDERS = (
    "The report does not name the columns of the graph. In this command put the names of the"
    " columns in the place of the words that begin with COLUMN_OF."
)
REPEATED = (
    "Running this command over the same bytes gives the same report, byte for byte, on any machine"
    " and with any number of workers."
)


def chances(report: Report) -> str:
    """Returns with which chances the null hypothesis draws a plan."""
    weight = report.rules.cut_weight
    if weight is None:
        return "each with the same chance"
    return (
        f"each with a chance proportional to {weight_text(weight)}/64 to the power of its number of"
        " cut edges, so that plans with fewer cut edges are more likely"
    )


def compare_looks(enacted: int, others: typing.Sequence[int]) -> str:
    """Returns how winding the districts of other plans are beside those of the enacted plan."""
    few, many, is_one = min(others), max(others), len(others) == 1
    if few > enacted:
        found = "The districts of the enacted plan are more compact than those of"
    elif many < enacted:
        found = "The districts of the enacted plan are more sprawling than those of"
    else:
        found = "In this respect the enacted plan is not set apart from"
    return (
        f"What these plans look like: the enacted plan has {plural(enacted, 'cut edge')} (pairs of"
        " neighboring units in different districts), and the"
        f" {'plan shown beside it has' if is_one else 'plans shown beside it have'}"
        f" {few if few == many else f'{few} to {many}'}. The more cut edges a plan has, the longer"
        f" and more winding are the borders of its districts. {found}"
        f" {'this plan' if is_one else 'these plans'}. What is shown here was picked for this page;"
        " the tests compare with all plans that were visited."
    )


def theorems(report: Report, alpha: object) -> list[str]:
    """Returns the theorem and the assumption behind each kind of number."""
    found = [
        (
            f"{about_proof(report)} No statement about probability is proved by"
            " machine: the theorems below are published ones, and the reader applies them. The"
            " draws are those of the cipher ChaCha20 under the key, which are taken to be random;"
            " the key must be chosen so that nobody could choose among results."
        ),
        (
            "Assumption (the null hypothesis) of every bound and p-value in the table of results:"
            f" the enacted plan was drawn at random from the legal plans, {chances(report)}."
            " Hardly any real map is drawn at random. A small number is evidence against the"
            " assumption as a whole, and does not say which part of it is wrong. What is legal, and"
            " each score, must not depend on which plan was enacted: a limit that is computed from"
            " the enacted plan puts it at the edge by construction."
        ),
    ]
    if report.walks:
        found.append(
            "Bound of an outlier walk (Chikina, Frieze and Pegden, PNAS 114, 2017): under the "
            "assumption, a bound of z or less has probability at most z, however short the walk "
            "is."
        )
    if report.has_pairs:
        found.append(
            "Bound of a pair of walks (Chikina, Frieze, Mattingly and Pegden, Statistics and Public"
            " Policy 7, 2020): under the assumption, a bound of z or less has probability at most"
            " z. The bounds of pairs must not be multiplied with each other: all walks start at the"
            " enacted plan."
        )
    if report.ends or report.serial:
        found.append(
            "p of a parallel or serial test (Besag and Clifford, Biometrika 76, 1989): under the "
            "assumption, a p of z or less has probability at most z."
        )
    if report.stops:
        found.append(
            "p of a sequential test (Besag and Clifford, Biometrika 78, 1991): the same, if the "
            "stopping rule was fixed before the run."
        )
    if alpha is not None and report.walks:
        by_chances = "" if report.rules.cut_weight is None else ", counted by their chances,"
        found.append(
            "p of the test of effect apart from significance (Chikina, Frieze, Mattingly and "
            "Pegden, Statistics and Public Policy 7, 2020): this needs no random enacted plan. If "
            f"the enacted plan is not among the fraction alpha of all legal plans{by_chances} that "
            "are most fragile, then that many walks, or pairs of walks, show it as so extreme with "
            "probability at most p. "
            "Fragile means likely to be among the most extreme fraction epsilon of the plans on a "
            "walk, or a pair of walks, from it. Epsilon, alpha, and whether walks or pairs are "
            "counted must be fixed before the run. If it is computed "
            "for several questions, elections or pairs of epsilon and alpha, multiply the least p "
            "by their number."
        )
    return found


def findings(report: Report, enacted: typing.Mapping[str, str], parties: Parties) -> list[str]:
    """Returns one sentence for each ask on the enacted value and the least number found."""
    found = []
    for ask in report.asks:
        score = ask.split(":")[0]
        numbers = [number for name, number in numbers_of(report) if name == ask]
        found.append(
            f"{question(ask, parties)} The enacted plan has {enacted[score]}. The least of its"
            f" {plural(len(numbers), 'number')} here is {min(numbers):f}."
        )
    return found


def all_plans(names: typing.Sequence[str]) -> str:
    """Returns what the command of several plans reads and writes."""
    return (
        "The file graph_and_table is the graph on one line, and the table of the plans behind it."
        f" The command writes a report for each of {len(names)} plans, in this order:"
        f" {', '.join(names)}."
    )
