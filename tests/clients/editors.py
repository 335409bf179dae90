"""The part `editors` of run.py: clients that edit the same features at once, by checked edits, and a check of what came
of it.

Two clients make 1,000 random edits each of the same 50 features, of one to three features an edit, and see them as
they were when they read them last. A third makes 300, and sends each of its requests twice. Each notes what it sent,
what it had seen, and the number of the edit in the reply. From these notes alone `checked` finds out whether the
numbers are one order of all edits in which none replaced a version that its author hadn't seen, whether each was
made once, and what the map has to be in the end.
"""
import http.client
import json
import random
import threading
from collections import Counter

from .stand import Cases, Server

FEATURES = range(1, 51)
EDITS, TWICE = 1000, 300


def version(name, count, number):
    """A version of a feature that nobody else makes."""
    tags = {"by": name, "count": count}
    return {"layer": "shared", "minzoom": 0, "maxzoom": 2, "geometry": {"points": [[number, count]]}, "tags": tags}


class Editor(threading.Thread):
    """A client that makes so many edits, and sends each of its requests `times` times."""

    def __init__(self, port, name, edits, times=1):
        super().__init__()
        self.connection = http.client.HTTPConnection("127.0.0.1", port, timeout=120)
        self.name, self.edits, self.times = name, edits, times
        self.chance = random.Random(name)
        self.seen, self.made, self.replies = {}, [], Counter()

    def ask(self, method, path, body=None):
        self.connection.request(method, path, body, {"Content-Type": "application/json"} if body else {})
        reply = self.connection.getresponse()
        return reply.status, reply.read().decode()

    def look(self, number):
        """Sees a feature as it is now."""
        status, content = self.ask("GET", f"/features/{number}")
        self.seen[number] = json.loads(content) if status == 200 else None

    def run(self):
        count = 0
        while count < self.edits:
            count += self.edit(count)
        self.connection.close()

    def edit(self, count):
        """Tries one edit. Returns whether it was made."""
        numbers = self.chance.sample(FEATURES, self.chance.randint(1, 3))
        for number in numbers:
            # What was seen before may be old by now.
            if number not in self.seen or self.chance.random() < 0.5:
                self.look(number)
        changes, after = [], {}
        for number in numbers:
            was = self.seen[number]
            if was is not None and self.chance.random() < 0.1:
                changes.append({"delete": number, "was": was})
                after[number] = None
            else:
                after[number] = version(self.name, count, number)
                changes.append({"put": number, "feature": after[number], "was": was})
        # What this edit says that was seen: a look after a refusal is no part of it, though the edit is sent again.
        said = {number: self.seen[number] for number in numbers}
        # Versions are made once, so an edit that saw one can't be made twice. Of nothing seen it could: if others
        # delete what it made.
        if self.times > 1 and not any(said.values()):
            return False
        body, is_made = json.dumps({"changes": changes}), False
        for _ in range(self.times):
            status, content = self.ask("POST", "/admin/edits", body)
            self.replies[status] += 1
            if status == 200:
                self.made.append((json.loads(content)["edit"], said, after))
                is_made = True
            elif status == 409 and not is_made:
                self.look(int(content.split()[1]))
        if is_made:
            self.seen.update(after)
        return is_made


def checked(notes, last):
    """What is wrong with edits that were made: the number of each, what its author had seen, and what it made of it;
    and the map of them."""
    now, faults = {}, []
    for at, (edit, was, after) in enumerate(sorted(notes, key=lambda note: note[0]), 1):
        if edit != at:
            faults.append(f"edit {edit} is the {at}th that was acknowledged")
        faults += [
            f"edit {edit} replaced a version of {number} that its author hadn't seen"
            for number, seen in was.items()
            if now.get(number) != seen
        ]
        now.update(after)
    if len(notes) != last:
        faults.append(f"{last} edits of the map, {len(notes)} were acknowledged")
    return faults, {number: feature for number, feature in now.items() if feature is not None}


def editors(cases: Cases, folder: str) -> None:
    """Three clients at once, and a check of their notes, which has to find faults in notes that have some."""
    with Server(folder, "edited", 65536) as server:
        three = [
            Editor(server.port, "one", EDITS),
            Editor(server.port, "two", EDITS),
            Editor(server.port, "twice", TWICE, 2),
        ]
        for editor in three:
            editor.start()
        for editor in three:
            editor.join()
        reader = Editor(server.port, "reader", 0)
        for number in FEATURES:
            reader.look(number)
        last = json.loads(reader.ask("GET", "/admin/status")[1])["edits"]
    notes = [note for editor in three for note in editor.made]
    faults, wanted = checked(notes, last)
    cases.show(
        "editors: no edit replaced a version that its author hadn't seen, and each was made once", faults[:3], []
    )
    cases.show(
        "editors: the map is that of these edits in their order",
        {number: feature for number, feature in reader.seen.items() if feature},
        wanted,
    )
    cases.show("editors: each made its edits", [len(editor.made) for editor in three], [EDITS, EDITS, TWICE])
    conflicts = [editor.replies[409] for editor in three]
    cases.show("editors: each got in the way of the others", all(count > 10 for count in conflicts), True)
    cases.show("editors: no other reply", set().union(*(editor.replies for editor in three)), {200, 409})
    cases.say(f"{len(notes)} edits, {sum(conflicts)} conflicts")
    edit, was, after = notes[len(notes) // 2]
    number = next(iter(was))
    unseen = [
        *notes[: len(notes) // 2],
        (edit, {**was, number: version("nobody", 0, number)}, after),
        *notes[len(notes) // 2 + 1 :],
    ]
    # One that can't be made again at the end: the map has another version then.
    late = next(note for note in notes if any(wanted.get(number) != seen for number, seen in note[1].items()))
    again = [*notes, (last + 1, *late[1:])]
    cases.show(
        "editors: the check finds an edit of an unseen version, one twice and one that is missing",
        [bool(checked(wrong, count)[0]) for wrong, count in ((unseen, last), (again, last + 1), (notes[1:], last))],
        [True] * 3,
    )
