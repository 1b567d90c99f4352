"""The words of scripts that measure the program, or compare it with a plain model."""
import argparse
import typing


def parser_of(module: str, text: typing.Optional[str]) -> argparse.ArgumentParser:
    """Returns the parser of a script that is called as a module; its text is shown as it stands."""
    return argparse.ArgumentParser(
        prog=f"python3 -m {module}", description=text,
        formatter_class=argparse.RawDescriptionHelpFormatter,
    )


def measuring_parser(name: str, text: typing.Optional[str], steps: int) -> argparse.ArgumentParser:
    """Returns the parser of a script that walks a number of steps in several rounds."""
    parser = parser_of(f"bench.{name}", text)
    parser.add_argument("program", nargs="?", default="", help="the built auditor")
    parser.add_argument("steps", nargs="?", type=int, default=steps, help="the length of a walk")
    parser.add_argument(
        "rounds", nargs="?", type=int, default=3, help="of how many runs the best counts"
    )
    return parser


def comparing_parser(name: str, text: typing.Optional[str]) -> argparse.ArgumentParser:
    """Returns the parser of a script that compares runs, with the program as its first word."""
    parser = parser_of(f"tests.differential.{name}", text)
    parser.add_argument("program", help="the built auditor")
    return parser


def add_draws(parser: argparse.ArgumentParser, runs: int) -> None:
    """Adds the number of runs, what they are drawn from, and how many run at one time."""
    parser.add_argument("runs", nargs="?", type=int, default=runs, help="how many runs are drawn")
    parser.add_argument("seed", nargs="?", type=int, default=1, help="what they are drawn from")
    parser.add_argument(
        "processes", nargs="?", type=int, default=4, help="how many run at one time"
    )
