#!/usr/bin/env python3
"""Tests of the page's modules that need no browser, by node: `*.test.js` beside this script, over the modules of web/.

    python3 tests/page/run.py

The modules lie in a scratch folder beside a package.json that says that they are modules, which browsers know without,
and cases.json: cases of the schema and of tables that are cut, with what the modules of vtmap say to them.
It prints what node prints (TAP), and ends with its status.
"""
import io
import itertools
import json
import os
import shutil
import subprocess
import sys
import tempfile

HERE = os.path.dirname(os.path.abspath(__file__))
TOP = os.path.join(HERE, "..", "..")
WEB = os.path.join(TOP, "web")
sys.path.insert(0, TOP)

from vtmap.files import cut_text, map_schema  # noqa: E402

# Fields, values that a tag may have or get, and layers and tags for which there is no field.
FIELDS = [{"type": kind} for kind in map_schema.TYPES] + [
    {"type": "text", "choices": ["home"], "required": True},
    {"type": "text", "choices": [f"it's {at}" for at in range(13)]},
    {"type": "integer", "choices": [1, 2, 2**63], "required": True},
    {"type": "number", "choices": [1, "2.5"]},
    {"type": "date", "choices": ["2024-02-29"]},
    {"type": "boolean", "required": True},
]
VALUES = [
    None, "", "home", "it's 3", "'\"", "a\nb\x07", "\u00a0", "ä \U0001f600", 0, 1, -7, 2**53 + 1, 2**63, 2**64 - 1, True, False, "1", " 2 ", "-0",
    "007", "9" * 19, "9" * 20, "true", " FALSE", "2.5", "2,5", "1e5", ".5", "-1.0", "2024-02-29", "2023-02-29", "0000-01-01", "2024-1-1",
]
NAMES = [("building", ["colour"]), ("a b", ["it's", "ä.b:c-d_e"]), ("well", ["-x"]), ("a\nb", ["c"])]
TABLES = [
    "a,b,c\n1,2,3\n", "a,b,c\n1,2,3", "a,b,c\n1,2\n", "a,b,c\n1\n", "a,b,c\n", "a,b,c", "a,b,c\r\n1,2,3\r\n", "a,b,c\r\n1,2\r\n", "a,b,c\r1,2,3\r",
    "a,b,c\r1,2\r", 'a,b,c\n1,"x\ny",3\n', 'a,b,c\n1,2,"x\ny"\n', 'a,b,c\n1,2,"x\n', 'a,b,c\n1,2,"x\ny\n', 'a,b,c\n1,"2"x,3\n1,2\n', 'a,b,c\n"1"x,2\n',
    'a,b,c\n1,"say ""x""\n1",2\n3,4\n', "a;b;c\n1;2\n", "a\tb\n1\n", "a|b\n1\n", "a\n1\n", 'a,"b,c",d\n1,2\n', "a,b\n1,2\n\n\n", "a,b\n1,2\n3\n\n",
    "a,b,c\n1,ääääääääääääääääääääääääääääää,3", "\ufeffa,b\n1,2\n3", "a,b,c\n1,2,3\n4,it's\n", "a,b;c\n1,2;3\n4\n", 'a,b\n"x,2\n', "a,b\n1,2\r\r\n3\n",
]


def cases():
    """What the modules of vtmap say, whose rules the page has."""
    faults = []
    for field, old, new, is_new in itertools.product(FIELDS, (None, "barn", 1), VALUES, (True, False)):
        row = {"fields": {"tag": field}}
        layer = map_schema.parsed(json.dumps({"layers": {"a": row}})).layers["a"]
        before = None if is_new else {} if old is None else {"tag": old}
        fitted = layer.fitted({"other": "1"} if new is None else {"tag": new, "other": "1"}, before)
        told = {"fitted": fitted, "fault": layer.fault(before, fitted), "unknown": layer.unknown(fitted)}
        faults.append({"row": row, "before": before, "tags": {"other": "1"} if new is None else {"tag": new, "other": "1"}, **told})
    cuts = []
    for text in TABLES:
        columns = len(next(cut_text.records([line_of(text)], next((one for one in ";\t|" if one in text), ",")), ()))
        told = cut_text.fault_of(io.BytesIO(text.encode()), columns)
        cuts.append({"text": text.removeprefix("\ufeff"), "columns": columns, "told": told})
    return {"faults": faults, "cuts": cuts, "missings": [
        {"layer": layer, "tags": tags, "told": map_schema.missing(layer, *tags)} for layer, tags in NAMES]}


def exact(value):
    """A value of which no integer is rounded by JavaScript: large ones are {"big": digits}."""
    if isinstance(value, dict):
        return {name: exact(one) for name, one in value.items()}
    if isinstance(value, list):
        return [exact(one) for one in value]
    return {"big": str(value)} if isinstance(value, int) and abs(value) >= 2**53 else value


def line_of(text):
    """The first line of a table."""
    return text.replace("\r", "\n").partition("\n")[0].encode()


def main():
    with tempfile.TemporaryDirectory() as scratch:
        shutil.copytree(WEB, os.path.join(scratch, "web"))
        tests = sorted(name for name in os.listdir(HERE) if name.endswith(".test.js"))
        for name in tests:
            shutil.copy(os.path.join(HERE, name), scratch)
        with open(os.path.join(scratch, "package.json"), "w", encoding="utf-8") as file:
            json.dump({"type": "module"}, file)
        with open(os.path.join(scratch, "cases.json"), "w", encoding="utf-8") as file:
            json.dump(exact(cases()), file)
        with open(os.path.join(scratch, "all.js"), "w", encoding="utf-8") as file:
            file.writelines(f'import "./{name}";\n' for name in tests)
        child = subprocess.run(
            ["node", "--test-reporter=tap", "all.js"],
            cwd=scratch,
            stdout=subprocess.PIPE,
            text=True,
            encoding="utf-8",
            check=False,
        )
    print(child.stdout, end="")
    return child.returncode


if __name__ == "__main__":
    sys.exit(main())
