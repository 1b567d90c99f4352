"""Paths of the installed programs, and one call of them."""
from __future__ import annotations

import base64
import contextlib
import errno
import functools
import hashlib
import importlib.metadata
import os
import pathlib
import re
import shutil
import signal
import subprocess
import threading
import time
import typing

from .errors import NotProved, ProgramMissing, WrongProgram

PathLike = typing.Union[str, "os.PathLike[str]"]
# A program has 20 seconds to say its version.
ANSWER = 20
# The ends of such a call that a whole program may have: too little memory, no output, and a signal
# that comes from elsewhere.
NO_FAULT = (3, 5, -signal.SIGHUP, -signal.SIGINT, -signal.SIGKILL, -signal.SIGTERM)

# For each program the variable of the environment that may name it, and its names.
KNOWN = {
    "audit": ("DISTRICT_AUDIT", ("district-audit", "audit_program")),
    "slots": ("DISTRICT_AUDIT_SLOTS", ("audit_slots",)),
}
# The end of the name of a build that was made without a proof, and how each of its texts begins.
UNPROVED = "-unproved"
NOT_PROVED = re.compile(r"[^:\n]*: NOT PROVED: .*(?:\n|\Z)")
AGAIN = "install the wheel again, with pip install --force-reinstall FILE.whl"


def find_program(which: str, given: PathLike | None = None, unproved: bool = False) -> str:
    """Returns the path of a program: the given one, or the one that the environment names, or the
    one that was installed with this package, or the one in the folders of PATH.

    With `unproved`, the build without a proof is looked for in PATH, which
    `scripts/install.sh FOLDER unproved` makes. It is used only if it is asked for so, or named.

    Raises ProgramMissing if there is none, and WrongProgram if it is of another version than the
    package, damaged, or no such program.
    """
    variable, names = KNOWN[which]
    named = os.fspath(given) if given is not None else os.environ.get(variable)
    if named:
        path = shutil.which(named)
        if path is None:
            raise ProgramMissing(f"there is no program {named}")
        return check_program(path, which)
    if unproved:
        names = tuple(name + UNPROVED for name in names)
    else:
        beside = find_beside_package(names[0])
        if beside is not None:
            return check_program(beside, which)
    for name in names:
        path = shutil.which(name)
        if path is not None:
            return check_program(path, which)
    raise ProgramMissing(
        f"there is no {names[0]} with this package or in the folders of PATH: install the wheel of"
        f" a release, which has it. scripts/install.sh FOLDER makes it with the toolchain, and the"
        f" variable {variable} may name it"
    )


def find_beside_package(name: str) -> str | None:
    """Returns the program that the wheel of this package left, or None if no wheel left it.

    It is found also in an environment that is not activated. Raises WrongProgram if it is missing,
    or is not the wheel's program any more.
    """
    try:
        installed = importlib.metadata.distribution("district-audit")
    except importlib.metadata.PackageNotFoundError:
        return None
    own = pathlib.Path(__file__).resolve().parent
    if pathlib.Path(str(installed.locate_file("district_audit"))).resolve() != own:
        return None
    for file in installed.files or ():
        if file.name == name:
            path = pathlib.Path(os.path.abspath(str(file.locate())))
            if not os.access(path, os.X_OK):
                raise WrongProgram(f"the program {path} of this package is missing: {AGAIN}")
            if file.hash is not None and digest(path, path.stat().st_mtime_ns) != file.hash.value:
                raise WrongProgram(f"the program {path} is not the one of this package: {AGAIN}")
            return str(path)
    return None


@functools.lru_cache(maxsize=64)
def digest(path: pathlib.Path, changed: int) -> str:
    """Returns the SHA-256 of a file, as a wheel writes it; `changed` is when it was changed."""
    whole = hashlib.sha256(path.read_bytes()).digest()
    return base64.urlsafe_b64encode(whole).decode().rstrip("=")


def check_program(path: str, which: str) -> str:
    """Returns the absolute path of a program that can be used with this package.

    Raises WrongProgram if the program cannot be started here, ends by a fault, or if its answer to
    --version is that of another program or version. One that is stopped before it answers is left
    to fail in the call itself.
    """
    absolute = pathlib.Path(path).absolute()
    fault = find_fault(str(absolute), which, absolute.stat().st_mtime_ns)
    if fault:
        raise WrongProgram(fault)
    return str(absolute)


def refuse_unproved_program(path: str) -> None:
    """Raises NotProved if a program says that it was built without a proof."""
    if call(path, ["--version"], b"").unproved:
        raise NotProved(f"the program {path} was built without a proof: use a proved one for files"
                        " and exhibits")


class NoAnswer(Exception):
    """A program that does not answer the question for its version in time."""


@functools.lru_cache(maxsize=64)
def find_fault(path: str, which: str, changed: int) -> str:
    """Returns what is wrong with a program, where, and what to do; or nothing."""
    try:
        ended = ask_version(path)
    except NoAnswer:
        return ""
    except OSError as why:
        if why.errno == errno.ENOEXEC:
            return (f"the program {path} cannot be started: it is damaged, or made for another"
                    f" processor than {os.uname().machine}: {AGAIN}")
        return f"the program {path} cannot be started: {why.strerror}"
    return "" if ended.status in NO_FAULT else find_fault_of_answer(path, which, ended)


def ask_version(path: str) -> Ended:
    """Returns how a program ends that is asked for its version."""
    began = time.monotonic()

    def give_up(_process: object) -> None:
        if time.monotonic() - began > ANSWER:
            raise NoAnswer

    return call(path, ["--version"], b"", None, give_up)


def find_fault_of_answer(path: str, which: str, ended: Ended) -> str:
    """Returns what is wrong with a program that was asked for its version; or nothing."""
    from . import __version__

    name = KNOWN[which][1][0]
    if ended.status != 0:
        how = f"signal {-ended.status}" if ended.status < 0 else f"status {ended.status}"
        return (f"the program {path} is damaged, or no {name}: to --version it ends with {how}:"
                f" {AGAIN}")
    line = ended.text.partition("\n")[0]
    found = re.fullmatch(r"([\w-]+) ([0-9][\w.+-]*)", line)
    if found is None or found[1] != name:
        return f"the program {path} is no {name}: to --version it answers {line[:80]!r}"
    if found[2] != __version__:
        return (f"the program {path} is of version {found[2]}, and this package of {__version__}:"
                " install both from one release")
    return ""


class Ended(typing.NamedTuple):
    """The exit status and the two outputs of a call."""

    status: int
    """The status; negative for a signal."""
    text: str
    """Standard output."""
    line: str
    """Standard error, without its last line end."""
    unproved: str = ""
    """The line in which the program said that it was built without a proof; else empty."""


def call(
    program: str,
    words: typing.Sequence[str],
    data: bytes,
    folder: PathLike | None = None,
    meanwhile: typing.Callable[[subprocess.Popen[bytes]], None] | None = None,
    read: typing.Callable[[bytes], None] | None = None,
) -> Ended:
    """Runs a program in a folder, with data on standard input, to its end.

    `meanwhile` is called again and again while it runs, or else `read` gets each piece of standard
    output as it comes. Where anything is raised, Ctrl-C among it, the program is stopped first.
    """
    with subprocess.Popen(
        [program, *words], cwd=folder, stdin=subprocess.PIPE, stdout=subprocess.PIPE,
        stderr=subprocess.PIPE,
    ) as process:
        try:
            if read is None:
                text, note = read_outputs(process, data, meanwhile)
            else:
                text, note = read_pieces(process, data, read)
        except BaseException:
            stop(process)
            raise
    said, line = (data.decode("utf-8", "surrogateescape") for data in (text, note))
    front = NOT_PROVED.match(line)
    if front:
        line = line[front.end():]
        said = NOT_PROVED.sub("", said, count=1) if NOT_PROVED.match(said) else said
    return Ended(process.returncode, said, line.removesuffix("\n"), front[0] if front else "")


def read_outputs(
    process: subprocess.Popen[bytes],
    data: bytes,
    meanwhile: typing.Callable[[subprocess.Popen[bytes]], None] | None,
) -> tuple[bytes, bytes]:
    """Returns what a program writes on both outputs until it ends."""
    if meanwhile is None:
        return process.communicate(data)
    feed(process, data)
    while True:
        try:
            return process.communicate(timeout=0.1)
        except subprocess.TimeoutExpired:
            meanwhile(process)


def read_pieces(
    process: subprocess.Popen[bytes], data: bytes, read: typing.Callable[[bytes], None]
) -> tuple[bytes, bytes]:
    """Returns what a program writes on both outputs, and hands on standard output as it comes."""
    assert process.stdout is not None and process.stderr is not None
    feed(process, data)
    notes: list[bytes] = []
    thread = threading.Thread(target=lambda file: notes.append(file.read()), args=[process.stderr])
    thread.start()
    text = b""
    while piece := os.read(process.stdout.fileno(), 1 << 16):
        text += piece
        read(piece)
    thread.join()
    process.wait()
    return text, notes[0]


def feed(process: subprocess.Popen[bytes], data: bytes) -> None:
    """Writes a process's standard input in a thread, and closes it.

    `communicate` with a timeout would not do: called again, it no longer writes what is left of the
    input, and both would wait forever.
    """
    pipe, process.stdin = process.stdin, None

    def write() -> None:
        if pipe is not None:
            # A program that ends before it has read all breaks the pipe.
            with contextlib.suppress(BrokenPipeError), pipe:
                pipe.write(data)

    threading.Thread(target=write, daemon=True).start()


def stop(process: subprocess.Popen[bytes]) -> None:
    """Ends a program that we started.

    It saves nothing then, and what it saved before stays whole.
    """
    process.terminate()
    try:
        process.wait(timeout=5)
    except subprocess.TimeoutExpired:
        process.kill()
        process.wait()
