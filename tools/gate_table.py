"""Measures the cost of the gate: runs `rt ci` and writes a table in Markdown, one row for each
crate.

Usage, at the top of the repository: python3 -m tools.gate_table [--into FILE] [NAME..] Where the
toolchain keeps what passed, it is told to prove all anew, and with names it proves these crates and
those below them alone; elsewhere every run is from nothing and takes no names. The table goes to
standard output, or with `--into` into FILE in place of what stands between the lines BEGIN and END
below; what `rt ci` says goes to standard error. Ends with the status of `rt ci`.

Four times a second each process under `rt ci` is looked up in /proc. It belongs to the crate that
its words, or those of the nearest process above it, name; to the tests where its words say so, else
to the proof. Seconds are of processor time, up to the last time that a process was seen. Memory is
the most that the processes of one crate and one kind held at one time; what two of them share
counts twice.
"""
import argparse
import dataclasses
import os
import subprocess
import sys
import threading
import typing


BEGIN, END = "<!-- written by tools/gate_table.py -->", "<!-- end of what it wrote -->"
KINDS = ["proof", "tests"]
TICKS, PAGE = os.sysconf("SC_CLK_TCK"), os.sysconf("SC_PAGE_SIZE")
# A crate, and the kind of work.
Use = tuple[str, str]


@dataclasses.dataclass(frozen=True)
class Process:
    """A process: its parent, its start, its processor seconds and its bytes of memory."""

    parent: int
    start: str
    seconds: float
    memory: int


def crate_names() -> list[str]:
    with open("crates.txt", encoding="utf-8") as file:
        lines = [line.split("#")[0] for line in file]
    return [line.split(":")[0].split()[0] for line in lines if ":" in line]


def lines_in(folder: str, ending: str) -> int:
    """Returns the number of lines of the files of this ending; 0 if there is no such folder."""
    count = 0
    for place, _, files in os.walk(folder):
        for name in files:
            if name.endswith(ending):
                with open(os.path.join(place, name), "rb") as file:
                    count += file.read().count(b"\n")
    return count


def process(pid: int) -> typing.Optional[Process]:
    """The parent, the start, the seconds and the bytes of a process, or None if it has ended."""
    try:
        with open(f"/proc/{pid}/stat", encoding="utf-8", errors="replace") as file:
            parts = file.read().rpartition(")")[2].split()
    except OSError:
        return None
    return Process(
        parent=int(parts[1]),
        start=parts[19],
        seconds=(int(parts[11]) + int(parts[12])) / TICKS,
        memory=int(parts[21]) * PAGE,
    )


def words_of(pid: int) -> list[str]:
    try:
        with open(f"/proc/{pid}/cmdline", "rb") as file:
            return file.read().decode("utf-8", "replace").split("\0")[:-1]
    except OSError:
        return []


def use_of(words: list[str], crates: list[str]) -> typing.Optional[Use]:
    """The crate and the kind of work that the words of a process name, or None."""
    if not words:
        return None
    if "--crate-name" in words[:-1]:
        crate = words[words.index("--crate-name") + 1]
        return crate, "tests" if "--test" in words else "proof"
    ran = os.path.basename(words[0])
    for crate in crates:
        if ran in (crate, f"{crate}_tests"):
            return crate, "tests"
    return None


class Watch:
    """The time and memory of the processes under one process."""

    def __init__(self, root: int, crates: list[str]) -> None:
        self.root, self.crates = root, crates
        self.uses: dict[tuple[int, str], typing.Optional[Use]] = {}
        self.seconds: dict[tuple[int, str], tuple[Use, float]] = {}
        self.most: dict[Use, int] = {}

    def look(self) -> None:
        there = {int(one): process(int(one)) for one in os.listdir("/proc") if one.isdigit()}
        seen = {pid: one for pid, one in there.items() if one}
        now: dict[Use, int] = {}
        for pid, one in seen.items():
            use = self.use(pid, seen)
            if use:
                key = pid, one.start
                self.seconds[key] = use, one.seconds
                now[use] = now.get(use, 0) + one.memory
        for use, amount in now.items():
            self.most[use] = max(self.most.get(use, 0), amount)

    def use(self, pid: int, seen: dict[int, Process]) -> typing.Optional[Use]:
        """Returns the crate and kind of work of a process, if it is under the root."""
        line = []
        while pid != self.root:
            if pid not in seen or pid <= 1:
                return None
            line.append(pid)
            pid = seen[pid].parent
        for one in line:
            use = self.find_use(one, seen[one].start)
            if use:
                return use
        return None

    def find_use(self, pid: int, start: str) -> typing.Optional[Use]:
        # (a process may become another program, so one that named no crate is asked again)
        if not self.uses.get((pid, start)):
            self.uses[pid, start] = use_of(words_of(pid), self.crates)
        return self.uses[pid, start]

    def sums(self) -> dict[Use, float]:
        sums: dict[Use, float] = {}
        for use, seconds in self.seconds.values():
            sums[use] = sums.get(use, 0) + seconds
        return sums


def gate_words() -> list[str]:
    """The command of a gate that takes nothing from earlier runs."""
    usage = subprocess.run(
        ["rt", "help"], stdout=subprocess.PIPE, stderr=subprocess.STDOUT, text=True, check=False
    ).stdout
    return ["rt", "ci", "--anew"] if "--anew" in usage else ["rt", "ci"]


def run(names: list[str], crates: list[str]) -> tuple[int, Watch]:
    """Runs the gate, and answers its status and what was seen of it."""
    gate = subprocess.Popen([*gate_words(), *names], stdout=sys.stderr)
    watch, ended = Watch(gate.pid, crates), threading.Event()

    def go_on() -> None:
        while not ended.wait(0.25):
            watch.look()

    thread = threading.Thread(target=go_on)
    thread.start()
    status = gate.wait()
    ended.set()
    thread.join()
    return status, watch


def table(watch: Watch, crates: list[str]) -> str:
    sums = watch.sums()
    heads = ["crate", "code", "definitions", "proofs"]
    for kind in KINDS:
        heads += [f"{kind}, s", f"{kind}, GB"]
    rows: list[list[object]] = [[*heads], ["---"] * len(heads)]
    for name in crates:
        row: list[object] = [
            f"`{name}`", lines_in(f"crates/{name}/src", ".rt"),
            lines_in(f"crates/{name}/specs", ".antt"), lines_in(f"crates/{name}/proofs", ".antt"),
        ]
        for kind in KINDS:
            is_seen = (name, kind) in sums
            row += (
                [round(sums[name, kind]), f"{watch.most[name, kind] / 1e9:.1f}"]
                if is_seen
                else ["", ""]
            )
        rows.append(row)
    whole: list[object] = ["all", "", "", ""]
    for kind in KINDS:
        whole += [round(sum(amount for use, amount in sums.items() if use[1] == kind)), ""]
    rows.append(whole)
    return "".join("| " + " | ".join(str(one) for one in row) + " |\n" for row in rows)


def main(names: list[str], into: typing.Optional[str]) -> int:
    crates = crate_names()
    status, watch = run(names, crates)
    text = table(watch, crates)
    if into is None:
        sys.stdout.write(text)
        return status
    with open(into, encoding="utf-8") as file:
        before, begin, rest = file.read().partition(BEGIN + "\n")
        _, end, after = rest.partition(END)
    if not begin or not end:
        sys.stdout.write(text)
        sys.exit(f"{into} has no lines {BEGIN} and {END}")
    with open(into, "w", encoding="utf-8") as file:
        file.write(before + begin + text + end + after)
    return status


def arguments() -> argparse.Namespace:
    parser = argparse.ArgumentParser(
        prog="python3 -m tools.gate_table", description=__doc__,
        formatter_class=argparse.RawDescriptionHelpFormatter,
    )
    parser.add_argument("names", nargs="*", metavar="NAME", help="a crate")
    parser.add_argument("--into", metavar="FILE", help="the file that gets the table")
    return parser.parse_args()


if __name__ == "__main__":
    words = arguments()
    sys.exit(main(words.names, words.into))
