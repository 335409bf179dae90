"""Answers the goals of slow functions by the tactic that proves them, so that a check doesn't try the others first.

    python3 bench/tools/answers.py CRATE FILE [SECONDS]

FILE is what `costs.py watch` noted of a run that proved the crate. Of each function whose search (`Proof`) took SECONDS or more (0.8 if left out)
the goals without an answer are tried by `search rules`, which is what a check tries first. Where that finds nothing, a check goes on with `grind`, and
what it tried in vain was most of the time. Such a goal gets the answer by `grind`, with the lemmas and definitions that the function's `#[tactic(..)]` names.
What the check refuses is left out again. The files are left in the work tree: look at them, run `rt fmt` and check the crate whole.
It edits the attributes of the crate's sources while it asks for the goals, and puts the sources back.
"""
import collections
import pathlib
import pickle
import re
import subprocess
import sys

import costs

TOP = pathlib.Path(__file__).resolve().parents[2]
GOAL = re.compile(r"^\s*pub (\S+) : goal\.\1\n\s*\1((?: \S+)*) = \?$", re.M)
OFFERED = re.compile(r"^help: [^\n]*?\./proofs/(\S+)/Answers\.antt[^\n]*\n((?:(?:    [^\n]*)?\n)*)", re.M)
REFUSED = re.compile(r"^(?:\./)?proofs/(.+?)/Answers\.antt:\d+:\d+: error: `([^`]+)`", re.M)
MODULES = {"arith": "Rattle.std.proofs.Common", "rules": "Rattle.std.proofs.Common", "common_steps": "Rattle.std.proofs.lemmas.Grind"}


def slow(file, crate, least):
    """The functions of the crate whose search took so many seconds."""
    seconds = collections.Counter()
    for (_, name), one in pickle.loads(pathlib.Path(file).read_bytes()).items():
        if name != crate or one["kind"] == "edits":
            continue
        parts = sorted((at, part) for part, (at, _) in one["parts"].items())
        for (before, _), (at, part) in zip(parts, parts[1:]):
            place, kind = costs.place_of(part.replace(".decls.oantt", ".oantt"))
            if kind == "Proof":
                seconds[place] += at - before
    return [place for place, sum in seconds.items() if sum >= least]


class Function:
    """A function: its goals, its attribute, and its file of answers."""

    def __init__(self, home, place):
        self.home, self.place = home, place
        self.file = home / "proofs" / place.replace(".", "/") / "Answers.antt"
        self.first = self.file.read_text() if self.file.exists() else ""
        self.goals, self.answers = {}, {}
        self.name, attribute = self.source()
        self.unfolded, self.used = (self.names(attribute, word) for word in ("unfolding", "using"))

    def source(self):
        """The function's name for `--only` (a member's, of a cycle of calls), and its attribute."""
        words = self.place.split(".")
        word = words[-1].lstrip("+")
        for n in range(len(words) - 1, -1, -1):
            files = [self.home / "src" / f"{at}.rt" for at in (["/".join(words[:n])] if n else ["lib", "main"])]
            for text in (file.read_text() for file in files if file.exists()):
                cycle = re.search(rf"#\[cycle\({word}\)\](?:(?!\n\n)[\s\S])*?\bfn (\w+)", text)
                name = "::".join([*words[:-1], cycle[1] if cycle else word])
                found = re.findall(rf"((?:^ *(?:#\[|//)[^\n]*\n)*)^ *(?:pub(?:\([a-z]+\))? )?fn {word}\b", text, re.M)
                return name, found[0] if len(found) == 1 else ""
        return "::".join([*words[:-1], word]), ""

    def names(self, attribute, word):
        """The names in one list of the attribute, each with its module."""
        found = re.search(rf"{word}\(([^)]*)\)", attribute)
        paths = [path.strip().split("::") for path in found[1].split(",")] if found else []
        return [(".".join(["Rattle", self.home.name if path[0] == "crate" else path[0], *path[1:-1]]), path[-1]) for path in paths]

    def ways(self):
        """What is tried for a goal, in this order: whether definitions are unfolded, and a tactic."""
        lemmas = "".join(f", {name}" for _, name in self.used)
        by = f"grind (arith, common_steps{lemmas})"
        return [*([(True, "search rules"), (True, by)] if self.unfolded else []), (False, by)]

    def write(self):
        """Writes the file with the answers of now."""
        if not self.answers:
            if self.first:
                self.file.write_text(self.first)
            else:
                self.file.unlink(missing_ok=True)
            return
        words = " ".join(term for _, term in self.answers.values())
        uses = [(module, name) for name, module in MODULES.items() if re.search(rf"\b{name}\b", words)]
        uses += [it for it in self.used if re.search(rf"\b{it[1]}\b", words)]
        uses += self.unfolded if any(unfolds for unfolds, _ in self.answers.values()) else []
        text = self.first or f"use Rattle.{self.home.name}.proofs.{self.place}.Goals as goal\n"
        for module, name in uses:
            found = re.search(rf"^use {re.escape(module)}\.{{([^}}]*)}}", text, re.M)
            if not found:
                text = f"use {module}.{{{name}}}\n{text}"
            elif name not in found[1].split(", "):
                text = text[: found.end(1)] + f", {name}" + text[found.end(1) :]
        unfolding = f"unfolding {' '.join(name for _, name in self.unfolded)}\n"
        for goal, (unfolds, term) in self.answers.items():
            text += f"\npub {goal} : goal.{goal}\n{unfolding if unfolds else ''}{goal}{self.goals[goal]} = {term}\n"
        self.file.parent.mkdir(parents=True, exist_ok=True)
        self.file.write_text(text)


def check(home, functions):
    """What a check of these functions prints, and which answers it refuses."""
    words = [word for it in functions for word in ("--only", it.name)]
    told = subprocess.run(["rt", "check", "--jobs", "1", *words], cwd=home, stdout=subprocess.PIPE, stderr=subprocess.STDOUT, text=True).stdout
    refused = collections.defaultdict(set)
    for place, goal in REFUSED.findall(told):
        refused[place.replace("/", ".")].add(goal)
    return told, refused


def ask(home, functions):
    """Has a check list the goals of the functions: under `none` it leaves them to the author."""
    sources = {file: file.read_text() for file in (home / "src").rglob("*.rt")}
    try:
        for file, text in sources.items():
            file.write_text(re.sub(r"#(!?)\[tactic\(auto[^\]]*\)\]", r"#\1[tactic(none)]", text))
        told, _ = check(home, functions)
    finally:
        for file, text in sources.items():
            file.write_text(text)
    for path, text in OFFERED.findall(told):
        for it in functions:
            if it.place == path.replace("/", "."):
                it.goals.update(goal for goal in GOAL.findall(text) if f"pub {goal[0]} :" not in it.first)


def main():
    if len(sys.argv) < 3:
        sys.exit(__doc__)
    home = TOP / "crates" / sys.argv[1]
    functions = [Function(home, place) for place in slow(sys.argv[2], home.name, float(sys.argv[3]) if len(sys.argv) > 3 else 0.8)]
    ask(home, functions)
    functions = [it for it in functions if it.goals]
    for it in functions:
        it.answers = {goal: (False, "search rules") for goal in it.goals}
        it.write()
    _, refused = check(home, functions)
    left = {(it.place, goal): list(it.ways()) for it in functions for goal in refused[it.place] if goal in it.goals}
    for it in functions:
        it.answers = {goal: left[it.place, goal].pop(0) for goal in it.goals if (it.place, goal) in left}
    while True:
        for it in functions:
            it.write()
        told, refused = check(home, functions)
        again = [(it, goal) for it in functions for goal in refused[it.place] if goal in it.answers]
        for it, goal in again:
            ways = left[it.place, goal]
            it.answers[goal] = ways.pop(0) if ways else None
            if not it.answers[goal]:
                del it.answers[goal]
        if not again:
            break
    for it in functions:
        print(f"{it.place}: {len(it.answers)} of {len(it.goals)} goals answered")
    print(told.rstrip().splitlines()[-1])


if __name__ == "__main__":
    main()
