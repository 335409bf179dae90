"""Prints which functions a program's time went into, inlined ones too.

    python3 bench/tools/shares.py PROGRAM DATA [--inside NAME]

PROGRAM was made by `tools/unproved.py` with UNPROVED_INLINED=1, and DATA by `perf record -o DATA PROGRAM ..`. Of each function: the share of
the samples in its instructions with all that is inlined into it (with `perf record -g` and UNPROVED_FRAMES=1 also with all that it calls),
and in its own instructions. With --inside only the samples below a function whose name has NAME in it count.
"""
import collections
import pathlib
import re
import subprocess
import sys


def address(program):
    """What gives the address of an offset in the program's file."""
    told = subprocess.run(["readelf", "-lW", program], check=True, stdout=subprocess.PIPE, text=True).stdout
    loads = [[int(word, 16) for word in found] for found in re.findall(r"LOAD +(0x\w+) (0x\w+) 0x\w+ (0x\w+)", told)]
    return lambda offset: next(offset - start + at for start, at, size in loads if start <= offset < start + size)


def samples(program, data):
    """The stacks of the samples, innermost first, each place its address in the program or a name elsewhere."""
    address_of = address(program)
    words = ["perf", "script", "-i", data, "-F", "ip,sym,dso"]
    told = subprocess.run(words, check=True, stdout=subprocess.PIPE, stderr=subprocess.DEVNULL, text=True).stdout
    name = pathlib.Path(program).name
    for block in re.split(r"\n\s*\n", told) if "\n\n" in told else told.splitlines():
        stack = []
        for line in block.splitlines():
            if found := re.match(r"\s*([0-9a-f]+) (.*) \((.*)\)$", line):
                is_ours = pathlib.Path(found[3]).name == name
                # (a caller's place is that after its call)
                stack.append(address_of(int(found[1], 16)) - bool(stack) if is_ours else f"{found[2]} ({pathlib.Path(found[3]).name})")
        if stack:
            yield stack


def functions_at(program, places):
    """The functions of each place, the innermost first."""
    places = sorted(places)
    words = ["addr2line", "-a", "-f", "-i", "-e", program]
    told = subprocess.run(words, input="\n".join(map(hex, places)), check=True, stdout=subprocess.PIPE, text=True).stdout
    found, lines = {}, told.splitlines()
    at = None
    for line in lines:
        if re.fullmatch(r"0x[0-9a-f]+", line):
            at = int(line, 16)
            found[at] = []
        elif not re.search(r":(\d+|\?)( \(discriminator \d+\))?$", line):
            found[at].append(re.sub(r"::<.*", "", line))
    return found


def main(program, data, inside=None):
    stacks = list(samples(program, data))
    names = functions_at(program, {place for stack in stacks for place in stack if isinstance(place, int)})
    own, with_all, count = collections.Counter(), collections.Counter(), 0
    for stack in stacks:
        frames = [name for place in stack for name in (names[place] if isinstance(place, int) else [place])]
        if inside and not any(inside in name for name in frames):
            continue
        count += 1
        own[frames[0]] += 1
        with_all.update(set(frames))
    print(f"{count} samples of {len(stacks)}")
    print("  with all   own   function")
    for name, number in sorted(with_all.items(), key=lambda pair: -pair[1]):
        if number * 200 >= count:
            print(f"{number * 100 / count:10.1f} {own[name] * 100 / count:5.1f}   {name}")


if __name__ == "__main__":
    main(sys.argv[1], sys.argv[2], sys.argv[4] if len(sys.argv) > 4 else None)
