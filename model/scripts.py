#!/usr/bin/env python3
"""Writes the scripts of the programs that are tests, and what they must print, from the models beside this file.

    python3 model/scripts.py                writes the files stdin and stdout of each
    python3 model/scripts.py reply_script   what this module writes of them alone, and leaves the rest as it is; the name
                                            of a crate stands for its modules
    python3 model/scripts.py --check        compares them with those that are there, and ends with 1 where one differs
    python3 model/scripts.py --check map_script read_script
                                            the same for what these modules write alone

`service_script` takes longer than all others together. A module of `MODULES` has the name of its crate, `CRATE`, and a
function `files` from which its files come, by their names. Modules of one crate stand side by side: each writes the part
of its script that `PART` names. At the end comes what the folder `worked` of the crate has: examples whose answers no
model made, and which nothing here writes anew. Each line of a script has one line of answer, and so is found in stdout
where it is in stdin; a line that names a part has none.
"""
import concurrent.futures
import importlib
import itertools
import os
import pathlib
import sys

MODULES = ["map_script", "read_script", "journal_script", "service_script", "reply_script"]
CRATES = pathlib.Path(__file__).resolve().parents[1] / "crates"


def differs(path, text, check):
    """Whether a file has another text; without `check` it gets this one."""
    same = path.exists() and path.read_text() == text
    if not same and not check:
        path.write_text(text)
    if not same:
        print(f"{path.relative_to(CRATES)}: {'differs' if check else 'written'}")
    return not same


def worked(crate, file):
    """The worked examples of a crate, and their answers: they are copied as they are."""
    path = CRATES / crate / "worked" / file
    return path.read_text() if path.exists() else ""


def part_of(name):
    """The crate of a module, and its files. The lines of a part follow one that names it, which has no answer."""
    module = importlib.import_module(name)
    files = module.files()
    return module.CRATE, {**files, "stdin": f"part {module.PART}\n{files['stdin']}"}


def made_by(modules):
    """The crates of modules, and their files."""
    with concurrent.futures.ProcessPoolExecutor(len(os.sched_getaffinity(0))) as pool:
        return list(pool.map(part_of, modules))


def lines_of(text):
    """The lines of a text, each with its line feed: other characters end no line."""
    return [line + "\n" for line in text.split("\n")[:-1]]


def with_part(stdin, stdout, files):
    """A script and its answers, in which the part that these files begin is what they have."""
    commands, answers = lines_of(stdin), lines_of(stdout)
    first, *_ = lines_of(files["stdin"])
    at = [number for number, line in enumerate(commands) if line.startswith("part ")]
    start = commands.index(first)
    end = min((number for number in at if number > start), default=len(commands))
    # Each of the parts before has a line that has no answer.
    before = start - sum(number < start for number in at)
    after = before + end - start - 1
    return (
        "".join([*commands[:start], files["stdin"], *commands[end:]]),
        "".join([*answers[:before], files["stdout"], *answers[after:]]),
    )


def write_parts(modules, check):
    """Writes, or compares, what some modules write of the scripts of their crates. Returns the status."""
    differ = 0
    for crate, files in made_by(modules):
        folder = CRATES / crate
        if len(lines_of(files["stdin"])) - 1 != len(lines_of(files["stdout"])):
            sys.exit(f"{crate}: not one answer for each line")
        texts = with_part((folder / "stdin").read_text(), (folder / "stdout").read_text(), files)
        for file, text in zip(("stdin", "stdout"), texts):
            differ += differs(folder / file, text, check)
    return 1 if check and differ else 0


def modules_of(name):
    """The modules that a name says: itself, or those that write the script of the crate of this name."""
    return [name] if name in MODULES else [each for each in MODULES if importlib.import_module(each).CRATE == name]


def main(check):
    differ = 0
    parts = made_by(MODULES)
    for crate, of_crate in itertools.groupby(parts, lambda part: part[0]):
        # The files of a crate are those of its modules, one after the other.
        found = [files for _, files in of_crate]
        for file in ("stdin", "stdout"):
            differ += differs(CRATES / crate / file, "".join(files[file] for files in found) + worked(crate, file), check)
    return 1 if check and differ else 0


if __name__ == "__main__":
    words = [word for word in sys.argv[1:] if word != "--check"]
    chosen = [module for word in words for module in modules_of(word)]
    if not all(map(modules_of, words)):
        sys.exit(f"[--check] [MODULE or CRATE ..], where modules are {', '.join(MODULES)}")
    sys.exit(write_parts(chosen, "--check" in sys.argv) if chosen else main("--check" in sys.argv))
