"""Blocks of `service_script.py` at random: edits, batches, publications, upgrades, failing calls and crashes, on small and large disks."""
import copy

from chance import Chance
from crashes import Faulty
from machine import Service
from service_lines import WORLD_END, batch, fresh, heading, looks, opened, words_of
from service_stand import Trial


# ---- small disks


def coordinates(chance, least=0, end=WORLD_END):
    return f"{least + chance.below(end - least)},{least + chance.below(end - least)}"


def random_shapes(chance):
    """Points, a line, or a triangle with or without a hole."""
    kind = chance.below(4)
    if kind == 0:
        return f"lines {coordinates(chance)} {coordinates(chance)} {coordinates(chance)}"
    if kind == 1:
        hole = f" / {coordinates(chance)} {coordinates(chance)} {coordinates(chance)}" if chance.below(2) else ""
        return f"polygons {coordinates(chance)} {coordinates(chance)} {coordinates(chance)}{hole}"
    return "points " + " ".join(coordinates(chance) for _ in range(1 + chance.below(3)))


def random_put(chance, most_letters, zooms=3, number=None):
    tag = f" t='{chance.one_of('xyz')}*{chance.below(most_letters)}" if chance.below(3) == 0 else ""
    layer, first = chance.one_of("pq"), chance.below(zooms)
    number = chance.below(8) if number is None else number
    return f"put {number} {layer} {first} {first + chance.below(zooms)} {random_shapes(chance)}{tag}"


def random_batch(chance, most_letters):
    """Up to six changes of different numbers; one batch in 16 has a number twice."""
    first, count = chance.below(8), 1 + chance.below(6)
    numbers = [(first + 3 * index) % 8 for index in range(count)]
    if chance.below(16) == 0:
        numbers.append(first)
    return batch(*(random_put(chance, most_letters, 2, number) if chance.below(4) else f"delete {number}" for number in numbers))


def random_place(chance):
    zoom = chance.below(4)
    return f"{zoom} {chance.below(2**zoom)} {chance.below(2**zoom)}"


def random_event(chance):
    kind = chance.below(16)
    if kind < 5:
        return random_put(chance, 700, 2)
    if kind < 7:
        return f"delete {chance.below(8)}"
    if kind < 9:
        return f"look {chance.below(8)}"
    if kind < 12:
        return f"tile {random_place(chance)}"
    if chance.below(9) == 0:
        return "cancel"
    return "begin" if kind == 12 else "step"


def random_tiles():
    yield from heading(
        "Random edits, publications and tiles: a tile has the bytes of one that is cut anew, whether it was cached, read from the archive or cut. A",
        "service has 60 turns, and then the next one opens its disk.",
    )
    chance = Chance(2026)
    yield from fresh(128)
    for _ in range(60):
        yield "open"
        for _ in range(60):
            turn = [[random_put(chance, 300)], [random_put(chance, 2)], [f"delete {chance.below(8)}"], ["step"], ["begin"], [], [], []][chance.below(8)]
            yield "; ".join([*turn, f"tile {random_place(chance)}", f"tile {random_place(chance)}"])
        yield from ["archive", "stop", "resume" if chance.below(2) else "crash"]


def calls_of_opening(trial):
    """The number of calls that opening the disk makes."""
    disk = Faulty(copy.deepcopy(trial.session))
    Service(disk)
    return disk.calls


def random_failure(chance, trial):
    """A line that makes calls of the next session fail: seldom while it opens, mostly after that."""
    opening = calls_of_opening(trial)
    call = 1 + chance.below(opening) if chance.below(5) == 0 else opening + 1 + chance.below(24)
    return f"{chance.one_of(['fail_from', 'fail_not_made', 'fail_made'])} {call}"


def random_session(chance, trial, random_events):
    """The lines of a session with some events, of which a call may fail, and of a crash."""
    if chance.below(5):
        yield random_failure(chance, trial)
    yield "open"
    if not isinstance(trial.session, Service):
        yield "open"
    for _ in range(1 + chance.below(3)):
        yield "; ".join(random_events(chance) for _ in range(1 + chance.below(6)))
    yield from ["; ".join([looks(*range(8)), "tile 0 0 0"]), "archive", "stop"]
    yield from [f"crash{words_of(chance.below(3) for _ in range(chance.below(9)))}", "export"]


def random_turn(chance, trial, turn):
    if turn % 24 == 0:
        yield from fresh(80 + chance.below(300))
    yield from random_session(chance, trial, random_event)


def batch_event(chance):
    return random_event(chance) if chance.below(2) else random_batch(chance, 500)


def random_upgrade(chance):
    """An upgrade, of which a call may fail, and perhaps a crash after it."""
    if chance.below(3):
        yield f"{chance.one_of(['fail_from', 'fail_not_made', 'fail_made'])} {1 + chance.below(5)}"
    yield "upgrade"
    if chance.below(2):
        yield from ["stop", f"crash{words_of(chance.below(2) for _ in range(chance.below(3)))}"]


def batch_turn(chance, trial, turn):
    """Disks of both versions, which are upgraded now and then."""
    if turn % 20 == 0:
        yield from fresh(80 + chance.below(300), 1 + chance.below(3) // 2)
    if chance.below(5) == 0:
        yield from random_upgrade(chance)
    yield from random_session(chance, trial, batch_event)


def random_runs(seed, turns, lines_of_turn=random_turn):
    """Turns, each after the answers to those before it. A crash leaves the acknowledged edits, and of the next one all changes or none."""
    chance, trial, ended = Chance(seed), Trial(), None
    for turn in range(turns):
        for line in lines_of_turn(chance, trial, turn):
            if line == "stop" and isinstance(trial.session, Service):
                ended = trial.session
            trial.answer(line)
            yield line
        assert Service(Faulty(copy.deepcopy(trial.session))).map in ended.left_by_a_crash()


def random_stops():
    yield from heading(
        "Random runs on a disk of which a random call fails, or none. A crash by random choices follows each, and the next run continues on what",
        "it leaves.",
    )
    yield from random_runs(1867, 240)


def random_batches():
    yield from heading("Random runs with batches on disks of both versions, with upgrades between them.")
    yield from random_runs(1905, 200, batch_turn)


def random_batch_tiles():
    yield from heading("Random batches, publications and tiles, as above: a tile has the bytes of one that is cut anew.")
    chance = Chance(2027)
    yield from fresh(128)
    for _ in range(30):
        yield "open"
        for _ in range(40):
            turn = [[random_batch(chance, 200)], [random_put(chance, 2)], [f"delete {chance.below(8)}"], ["step"], ["begin"], []][chance.below(6)]
            yield "; ".join([*turn, f"tile {random_place(chance)}", f"tile {random_place(chance)}"])
        yield from ["archive", "stop", "resume" if chance.below(2) else "crash"]


# ---- large disks


def near(chance, x, y):
    """A position at most 2^26 after another one in each direction."""
    return f"{min(x + chance.below(2**26), WORLD_END - 1)},{min(y + chance.below(2**26), WORLD_END - 1)}"


def small_shape(chance):
    x, y = chance.below(WORLD_END), chance.below(WORLD_END)
    kind, least = chance.one_of([("points", 1), ("lines", 2), ("polygons", 3)])
    return f"{kind} {' '.join(near(chance, x, y) for _ in range(least))}"


def small_put(chance, number):
    """The text of this edit has 25 to 1,000 bytes."""
    first = chance.below(3)
    tag = f" t='{chance.one_of('xyz')}*{chance.one_of([100, 450, 900])}" if chance.below(4) == 0 else ""
    return f"put {number} {chance.one_of('pq')} {first} {first + chance.below(3)} {small_shape(chance)}{tag}"


def large_put(chance, number):
    """The text of this edit has some 15,000 bytes; its record takes 31 places."""
    tags = " ".join(f"k{key:02}='{chance.one_of('xyz')}*1000" for key in range(15))
    return f"put {number} p 0 1 {small_shape(chance)} {tags}"


FEATURES = 300


def large_batch(chance, first):
    """Up to 24 changes of numbers from one on; few are deletions, which are refused where a feature is gone."""
    numbers = range(first, min(FEATURES, first + 1 + chance.below(24)))
    return batch(*(small_put(chance, number) if chance.below(12) else f"delete {number}" for number in numbers))


def large_event(chance):
    kind, number = chance.below(10), chance.below(FEATURES)
    if kind > 7:
        return large_batch(chance, number)
    if kind < 3:
        return small_put(chance, number)
    if kind < 5:
        return large_put(chance, number % 4)
    return f"tile {random_place(chance)}" if kind == 5 else f"delete {number}"


def large_run(chance):
    """Edits and tiles, and mostly a publication between them, which some runs cancel or don't finish."""
    yield from (large_event(chance) for _ in range(chance.below(5)))
    if chance.below(4):
        yield "begin"
        for _ in range(8 + chance.below(16)):
            yield "step" if chance.below(3) else large_event(chance)
        if chance.below(8) == 0:
            yield "cancel"


def large_choice(chance):
    """A choice of a crash: nothing of what is unsynced, everything, or each sector at random."""
    return chance.one_of([[], [1] * 70, [chance.below(2) for _ in range(70)]])


def large_turn(chance, trial):
    """The lines of a run on the disk of which a call fails, or all from it on, and of a crash after it. The crash leaves the acknowledged edits and
    at most one more."""
    call = calls_of_opening(trial) + 1 + chance.below(800)
    for line in (f"{chance.one_of(['fail_from', 'fail_not_made', 'fail_made'])} {call}", "open", "; ".join([f"look {FEATURES}", *large_run(chance)])):
        trial.answer(line)
        yield line
    ended = trial.session
    for line in ("stop", f"crash{words_of(large_choice(chance))}"):
        trial.answer(line)
        yield line
    left = Service(Faulty(copy.deepcopy(trial.session)))
    assert left.map in ended.left_by_a_crash()
    assert left.last - ended.last in (0, 1) and left.root.generation - ended.root.generation in (0, 1)
    return left.root


def large_disk(seed, turns):
    chance, trial = Chance(seed), Trial()
    puts = [small_put(chance, number) for number in range(FEATURES)]
    yield f"# Seed {seed}."
    for line in [*opened(4096), *("; ".join(puts[at : at + 30]) for at in range(0, FEATURES, 30)), "publish", "stop", "resume"]:
        trial.answer(line)
        yield line
    roots = []
    for turn in range(turns):
        roots.append((yield from large_turn(chance, trial)))
        if turn % 5 == 4:
            yield from ["open", "tile 0 0 0", "archive", "verify", "stop", "resume"]
    wraps = sum(root.journal_at < before.journal_at for before, root in zip(roots, roots[1:]))
    yield f"# Seed {seed} ends with generation {roots[-1].generation} and {roots[-1].edits} edits; its journal wrapped around {wraps} times."


def large_stops():
    yield from heading(
        "Random runs on disks of 4,096 sectors with 300 features: publications of several steps, and journals that wrap around. A call of each run",
        "fails, or all from it on, and a crash follows.",
    )
    for seed in range(1, 5):
        yield from large_disk(seed, 60)


BLOCKS = [random_tiles, random_stops, random_batches, random_batch_tiles, large_stops]
