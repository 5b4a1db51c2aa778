#!/usr/bin/env python3
"""Tries the wrong bodies in crates/*/wrong, over the libraries that `rt ci` proved in this checkout: the prover must reject each of them
where it accepts the right body.

A file of wrong/ changes one function. Its first line names this function, by its path in the crate, and the goal at which the wrong body
must be rejected. The goal is one of the function, or a law of the impl that the function is in. Then comments say what breaks, and pairs
of lines `old:` and `new:` change a text that stands once in the named file:

    rejected: splice::paint_planned plus-painted-requires
    # Breaks: ...
    file: src/splice.rt
    old: ...
    new: ...

For each crate, first the control: the right bodies of all these functions must be proved, with the goals that the files name. Then the
wrong bodies are tried over what the control kept, in the same folder. One check has wrong bodies of several functions, at most one of each.
A proof uses the contracts of other functions and not their bodies, so what the check says of a function is of its own wrong body. Each must
be rejected at the named goal, and so not proved. If that check does not say so of a wrong body, it is tried alone. The last line is
'N passed, M failed'."""
import argparse
import re
import resource
import shutil
import subprocess
import sys
import tempfile
from dataclasses import dataclass
from pathlib import Path

ROOT = Path(__file__).resolve().parent.parent
FIRST_LINE = re.compile(r"rejected: (\S+) (\S+)")
# The check names a goal in an error if its answer is written, and in a note if the check searched for one. An answer that only names
# what the wrong body lacks shows nothing.
ANSWERED = r"error: `([^` ]+)`(?!: (?:record|`\S+`: module) `\S+`\s+has no )"
SEARCHED = r"it is not proved that .*?\(((?:`[^` ]+`(?:, )?)+)\)"
REJECTED = r"not proved|no proof: expected answers in|no proof: it passes the block `\S+`, which is not proved$"


@dataclass
class WrongBody:
    """An edit of one function, and the goal at which the prover must reject it."""

    name: str
    function: str
    goal: str
    edits: list[tuple[str, str, str]]  # file, old text, new text


def wrong_body_of(path: Path) -> WrongBody:
    """Reads a file of wrong/. A file that is not as above ends the run."""
    lines = path.read_text().splitlines()
    first = FIRST_LINE.fullmatch(lines[0])
    if not first:
        sys.exit(f"{path}: the first line must be 'rejected: FUNCTION GOAL'")
    edits: list[tuple[str, str, str]] = []
    file, old = "", ""
    for line in lines[1:]:
        key, _, text = line.partition(": ")
        if key == "file":
            file = text
        elif key == "old":
            old = text
        elif key == "new":
            edits.append((file, old, text))
        elif not line.startswith("#"):
            sys.exit(f"{path}: '{line}' is not understood")
    return WrongBody(path.stem, first[1], first[2], edits)


class Crate:
    """A crate, copied to a folder in which its functions are checked."""

    def __init__(self, name: str, folder: Path) -> None:
        self.name, self.folder = name, folder
        for part in ("src", "specs", "proofs"):
            if (ROOT / "crates" / name / part).is_dir():
                shutil.copytree(ROOT / "crates" / name / part, folder / part)
        (folder / "kept").mkdir()
        self.words = self.words_of_check()

    def words_of_check(self) -> list[str]:
        """The words of a check over the libraries in crates/*/out/rlib, and those of the toolchain."""
        said = subprocess.run(["rt", "doc"], stdin=subprocess.DEVNULL, capture_output=True, text=True, check=True)
        kit = Path(said.stdout.strip()).parent
        uses: dict[str, list[str]] = {}
        is_static = False
        for line in (ROOT / "crates.txt").read_text().splitlines():
            head, _, tail = line.partition(":")
            if head.split() and not line.startswith("#"):
                uses[head.split()[0]] = tail.split()
                is_static |= head.split() == [self.name, "staticlib"]
        words = [str(kit / "bin/rattle"), "check", "--crate-name", self.name, "src/lib.rt", "-L", f"dependency={kit}/rlibs"]
        words += ["--extern", f"std={kit}/rlibs/std.rlib"]
        for library in uses[self.name]:
            place = ROOT / "crates" / library / "out/rlib" if library in uses else kit / "rlibs"
            words += ["--extern", f"{library}={place / library}.rlib"]
        for place in sorted((ROOT / "crates").glob("*/out/rlib")):
            if place.parent.parent.name != self.name:
                words += ["-L", f"dependency={place}"]
        words += ["--crate-type", "staticlib"] if is_static else []
        project = kit / "rattle/logic/antt-project.json"
        return words + ["--antt-project", str(project), "--logic-built", str(kit / "logic_built"), "--incremental", "kept", "--jobs", "1"]

    def check(self, functions: list[str]) -> tuple[set[str], str]:
        """Checks these functions. Returns those that were proved, and all that was said."""
        only = [word for function in functions for word in ("--only", function)]
        done = subprocess.run(
            [*self.words, *only], cwd=self.folder, stdin=subprocess.DEVNULL, capture_output=True, text=True, errors="replace"
        )
        said = done.stdout + done.stderr
        proved = set(re.findall(rf"^fn {self.name}::(\S+): proved$", said, re.M))
        return {function for function in functions if function in proved}, said

    def has_goal(self, function: str, goal: str) -> bool:
        """Whether the proof of the function, as it was checked last, has this goal, or the laws of its impl have it."""
        path = function.replace("::", ".")
        modules = [f"proofs.{path}.Proof", f"specs.contracts.{path.rpartition('.')[0]}.TheImpl.Laws"]
        files = [file for module in modules for file in (self.folder / "kept").glob(f"*/Rattle-{self.name}-{module}.oantt")]
        return any(f'"name":"{goal}"'.encode() in file.read_bytes() for file in files)

    def check_with(self, bodies: list[WrongBody]) -> tuple[set[str], str]:
        """Checks functions with wrong bodies, one of each function, and puts the right ones back."""
        right: dict[str, str] = {}
        places: dict[str, list[tuple[int, str, str]]] = {}
        for file, old, new in (edit for body in bodies for edit in body.edits):
            text = right.setdefault(file, (self.folder / file).read_text())
            if text.count(old) != 1:
                return set(), f"'{old}' does not stand once in {file}"
            places.setdefault(file, []).append((text.index(old), old, new))
        for file, spans in places.items():
            spans.sort(reverse=True)
            if any(at < before + len(old) for (at, _, _), (before, old, _) in zip(spans, spans[1:])):
                return set(), f"two edits change one place of {file}"
        try:
            for file, text in right.items():
                for at, old, new in places[file]:
                    text = text[:at] + new + text[at + len(old) :]
                (self.folder / file).write_text(text)
            return self.check([body.function for body in bodies])
        finally:
            for file, text in right.items():
                (self.folder / file).write_text(text)


def goals_left(said: str) -> set[str]:
    """The goals that a check of one function did not prove."""
    return {*re.findall(ANSWERED, said), *re.findall("`([^`]+)`", " ".join(re.findall(SEARCHED, said)))}


def goals_left_of(crate: Crate, function: str, said: str) -> set[str]:
    """The goals of a function that a check of several did not prove, as far as what the check says names this function."""
    path = re.escape(function.replace("::", "/"))
    searched = re.findall(rf"^fn {crate.name}::{function}: no proof: .*`search` did not prove ((?:`[^`]+`(?:, )?)+)", said, re.M)
    return {*re.findall(rf"^\./proofs/{path}/\S+: {ANSWERED}", said, re.M), *re.findall("`([^`]+)`", " ".join(searched))}


def is_rejected(crate: Crate, function: str, said: str) -> bool:
    """Whether a check said that the function is not proved, for its own goals or for another function that it calls."""
    return bool(re.search(rf"^fn {crate.name}::{function}: (?:{REJECTED})", said, re.M))


def fault_of(crate: Crate, body: WrongBody) -> str:
    """What is wrong with a wrong body that is tried alone: nothing, if it was rejected at its goal."""
    proved, said = crate.check_with([body])
    if proved:
        return "it is proved"
    if not is_rejected(crate, body.function, said):
        return "it was not judged: " + said[-2000:]
    goals = goals_left(said)
    if body.goal not in goals:
        return f"it is rejected at {', '.join(sorted(goals)) or 'no goal'}, and not at {body.goal}"
    return ""


def rounds_of(bodies: list[WrongBody]) -> list[list[WrongBody]]:
    """The wrong bodies in rounds, each with at most one of a function."""
    rounds: list[list[WrongBody]] = []
    for body in bodies:
        for others in rounds:
            if all(other.function != body.function for other in others):
                others.append(body)
                break
        else:
            rounds.append([body])
    return rounds


def rejected_in_rounds(crate: Crate, bodies: list[WrongBody]) -> set[str]:
    """The names of the wrong bodies that are rejected at their goals, as checks of several say."""
    rejected: set[str] = set()
    for together in rounds_of(bodies):
        proved, said = crate.check_with(together)
        for body in together:
            is_judged = body.function not in proved and is_rejected(crate, body.function, said)
            if is_judged and body.goal in goals_left_of(crate, body.function, said):
                rejected.add(body.name)
    return rejected


def tried(name: str, bodies: list[WrongBody]) -> int:
    """Tries a crate's wrong bodies. Returns how many of them were not rejected as they must be."""
    failed = 0
    with tempfile.TemporaryDirectory() as folder:
        crate = Crate(name, Path(folder))
        functions = sorted({body.function for body in bodies})
        proved, said = crate.check(functions)
        if proved != set(functions):
            print(f"{name}: the right bodies of {', '.join(sorted(set(functions) - proved))} are not proved\n{said[-2000:]}")
            return len(bodies)
        print(f"{name}: the right bodies of {len(functions)} functions are proved", flush=True)
        strange = {body.name for body in bodies if not crate.has_goal(body.function, body.goal)}
        rejected = rejected_in_rounds(crate, [body for body in bodies if body.name not in strange])
        for body in bodies:
            if body.name in strange:
                fault = f"{body.function} has no goal {body.goal}"
            elif body.name in rejected:
                fault = ""
            else:
                fault = fault_of(crate, body)
            failed += bool(fault)
            print(f"{name}: {body.name}: {fault or f'rejected at {body.goal} of {body.function}'}", flush=True)
    return failed


def main() -> None:
    parser = argparse.ArgumentParser(description=__doc__, formatter_class=argparse.RawDescriptionHelpFormatter)
    parser.add_argument("crates", metavar="CRATE", nargs="*", help="a crate; without one, each that has a folder wrong/")
    parser.add_argument("--only", metavar="NAME", help="the file NAME.edit alone")
    asked = parser.parse_args()
    passed = failed = 0
    for name in asked.crates or sorted(path.parent.name for path in (ROOT / "crates").glob("*/wrong")):
        paths = sorted((ROOT / "crates" / name / "wrong").glob("*.edit"))
        bodies = [wrong_body_of(path) for path in paths if asked.only in (None, path.stem)]
        if bodies:
            failures = tried(name, bodies)
            passed, failed = passed + len(bodies) - failures, failed + failures
    usage = resource.getrusage(resource.RUSAGE_CHILDREN)
    print(f"processor time {(usage.ru_utime + usage.ru_stime) / 60:.1f} minutes")
    if not passed + failed:
        sys.exit(f"there is no wrong body{f' {asked.only}' if asked.only else ''} here")
    print(f"{passed} passed, {failed} failed")
    sys.exit(failed > 0)


if __name__ == "__main__":
    main()
