"""Runs a program five times, by turns with others where there are some, and prints the medians of what they print.

    python3 bench/speed/beside.py [--rounds N] [--word WORD] FOLDER FIRST [SECOND [OLD]]

Each is run with the words FOLDER and WORD, or with FOLDER alone. A printed line such as `NAME: 12 ns` is a figure. After a median come the least and the
greatest. Where FIRST and SECOND print a figure, the ratio is that of the second to the first, the median of the rounds' ratios: above 1
the first one takes less. OLD is an earlier FIRST; its ratio is told too.
"""
import argparse
import re
import statistics
import subprocess


def figures(words):
    printed = subprocess.run(words, check=True, stdout=subprocess.PIPE, text=True).stdout
    return {name: (int(number), unit) for name, number, unit in re.findall(r"^(.*): (\d+) (\S.*)$", printed, re.M)}


def told(values, unit):
    return f"{statistics.median(values):.0f} {unit} ({min(values)} to {max(values)})"


def ratio(others, ours):
    ratios = [other / max(own, 1) for other, own in zip(others, ours)]
    return f"{statistics.median(ratios):.2f} ({min(ratios):.2f} to {max(ratios):.2f})"


def main():
    parser = argparse.ArgumentParser()
    parser.add_argument("--rounds", type=int, default=5)
    parser.add_argument("--word")
    parser.add_argument("folder")
    parser.add_argument("programs", nargs="+")
    said = parser.parse_args()
    first, second, old = (said.programs + [None, None])[:3]
    programs = [program for program in (first, old, second) if program]
    words = [said.folder] + ([said.word] if said.word else [])
    runs = [{program: figures([program, *words]) for program in programs} for _ in range(said.rounds)]
    for name, (_, unit) in runs[0][first].items():
        each = {program: [run[program][name][0] for run in runs] for program in programs if name in runs[0][program]}
        line = f"{name}: {told(each[first], unit)}"
        if old in each:
            line += f"; before {told(each[old], unit)}"
        if second in each:
            line += f"; the other program {told(each[second], unit)}; ratio {ratio(each[second], each[first])}"
            if old in each:
                line += f", before {ratio(each[second], each[old])}"
        print(line, flush=True)


main()
