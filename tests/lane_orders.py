"""Every order of the steps of the two ends of a lane, by tests/lane_model.py, and wrong bodies that it must find.

A fault is one of these, in some order of the steps:

    stuck   an end waits or looks for good, though both are to go in the end
    untrue  an end was told that the other one is gone, while that was there, or while what it had put still waited
    wasted  a ring made a system call though the other end was not about to sleep, or another ring had woken it
    awake   no end ever sleeps
"""

import re
import types
from inspect import getsource
from pathlib import Path

import lane_model
from cases import case, case_of_pairs
from cluster import TOP, expect

SOURCES = Path(TOP) / "crates/thread_parts/src"

# ---- every order


def state_of(lane):
    """All that the next steps depend on."""
    ring, ends = lane.ring, lane.ends.values()
    words = [ring.items, ring.inlet_is_gone, ring.outlet_is_gone, lane.put.is_awaited, lane.taken.is_awaited]
    known = (lane.inlet.producer.free, lane.outlet.consumer.known, lane.put.is_owed, lane.taken.is_owed)
    return (*(word.value for word in words), *known, *sorted(lane.sleepers), *map(place_of, ends))


def place_of(end):
    """How far an end is, and the values that it has at hand."""
    place = []
    while isinstance(end, types.CoroutineType) and end.cr_frame is not None:
        place += [end.__qualname__, end.cr_frame.f_lasti, *map(plain, end.cr_frame.f_locals.values())]
        end = end.cr_await
    return tuple(place)


def plain(value):
    """A value as a part of a state. A count of rings matters only by whether it is still the same."""
    if hasattr(value, "is_current"):
        return value.is_current()
    if hasattr(value, "most"):
        return value.count
    return value if isinstance(value, int) else None


def choices(lane):
    """The ends that can make a step."""
    return [name for name, end in lane.ends.items() if end.cr_frame is not None and name not in lane.sleepers]


def move(lane, name):
    lane.runs = name
    try:
        lane.ends[name].send(None)
    except StopIteration:
        pass


def lane_after(model, options, moves):
    lane = model["Lane"](*options)
    for name in moves:
        move(lane, name)
    return lane


def explore(model, options):
    """What is wrong with some order of the steps; how many states there are, and whether an end sleeps in one."""
    faults, next_states, through, has_slept = set(), {}, [], False
    waiting = [()]
    while waiting:
        *moves, first = waiting.pop() or [None]
        lane = lane_after(model, options, moves)
        while True:
            if first is not None:
                last = state_of(lane)
                move(lane, first)
                next_states[last].append(state_of(lane))
                moves.append(first)
            state, ways = state_of(lane), choices(lane)
            if state in next_states:
                break
            expect(len(next_states) < MOST_STATES, True, f"{options}: fewer than {MOST_STATES} states")
            next_states[state] = []
            has_slept = has_slept or bool(lane.sleepers)
            if not ways:
                break
            waiting += [(*moves, way) for way in ways[1:]]
            first = ways[0]
        faults |= lane.faults
        if is_through(lane):
            through.append(state)
        for end in lane.ends.values():
            end.close()
    if len(that_lead_to(through, next_states)) < len(next_states):
        faults.add("stuck")
    return faults, len(next_states), has_slept


def is_through(lane):
    return all(end.cr_frame is None for end in lane.ends.values())


def that_lead_to(states, next_states):
    """The states from which one of these can come."""
    before = {state: [] for state in next_states}
    for state, following in next_states.items():
        for each in following:
            before[each].append(state)
    found, waiting = set(states), list(states)
    while waiting:
        for state in before[waiting.pop()]:
            if state not in found:
                found.add(state)
                waiting.append(state)
    return found


# ---- lanes that are explored, from the smallest on

# How many places a lane has, how many items its inlet puts before it goes, how many its outlet takes at most before it
# goes, and how often an end looks again before it sleeps.
LANES = [(1, 0, 1, 0), (1, 2, 0, 0), (1, 2, 9, 0), (1, 3, 1, 0), (1, 2, 9, 1), (2, 3, 9, 0), (2, 4, 2, 0)]
# They have a tenth of that.
MOST_STATES = 30_000


def faults_of(model):
    """The faults of the first lane that has some. That no end ever sleeps is one of all lanes."""
    sleeps = False
    for options in LANES:
        faults, _, has_slept = explore(model, options)
        if faults:
            return faults
        sleeps = sleeps or has_slept
    return set() if sleeps else {"awake"}


# ---- wrong bodies: the fault that some order shows, the class, and what stands there for which text

INLET_LOOK = "has_to = await self.producer.is_full() and not await self.is_cut()"
OUTLET_LOOK = "has_to = await self.consumer.is_empty() and not await self.is_cut()"
PARK = "            await self.rings.park(heard)\n"
UNANNOUNCE = "await self.is_awaited.store(False)\n"
LOOP = "        while True:\n"
INLET_CUT = "            if await self.is_cut():\n                return False\n"
OUTLET_CUT = "            is_cut = await self.is_cut()\n"
OUTLET_TAKE = "            if await self.receive_ready():\n                return True\n"
OUTLET_END = "            if is_cut:\n                return False\n"

WRONG = {
    "a ring leaves the bell announced": ("wasted", "Bell", " and await self.is_awaited.swap(False)", ""),
    "a ring wakes each time": (
        "wasted",
        "Bell",
        "if await self.is_awaited.load() and await self.is_awaited.swap(False):",
        "if True:",
    ),
    "a ring wakes only who does not wait": (
        "stuck",
        "Bell",
        "if await self.is_awaited.load()",
        "if not await self.is_awaited.load()",
    ),
    "a ring counts and does not wake": ("stuck", "Bell", "await self.rings.wake_all()", "pass"),
    "a ring wakes and does not count": ("stuck", "Bell", "await self.rings.fetch_add(1)", "pass"),
    "a ring wakes before it counts": (
        "stuck",
        "Bell",
        ("self.rings.fetch_add(1)", "self.rings.wake_all()"),
        ("self.rings.wake_all()", "self.rings.fetch_add(1)"),
    ),
    "the rings are read after the announcement": (
        "stuck",
        "Bell",
        ("        heard = await self.rings.load()\n", "        return heard\n"),
        ("", "        heard = await self.rings.load()\n        return heard\n"),
    ),
    "nothing is announced": ("stuck", "Bell", "await self.is_awaited.store(True)", "pass"),
    "an end that need not sleep stays announced": (
        "wasted",
        "Bell",
        f"{PARK}        {UNANNOUNCE}",
        f"{PARK}            {UNANNOUNCE}",
    ),
    "an end sleeps where it has no reason to": ("stuck", "Bell", "if has_to:", "if not has_to:"),
    "an end that goes rings only for the outlet": ("stuck", "BellPull", "await self.taken.ring()", "pass"),
    "an end that goes rings only for the inlet": ("stuck", "BellPull", "await self.put.ring()", "pass"),
    "an end that waits looks for ever": ("awake", "Looks", "return False", "return True"),
    "an inlet that puts does not ring": ("stuck", "Inlet", "await self.pull.put.ring()", "pass"),
    "an outlet that takes does not ring": ("stuck", "Outlet", "await self.pull.taken.ring()", "pass"),
    "an inlet sleeps though the outlet is gone": ("stuck", "Inlet", " and not await self.is_cut()", ""),
    "an outlet sleeps though the inlet is gone": ("stuck", "Outlet", " and not await self.is_cut()", ""),
    "an inlet sleeps without a last look": ("stuck", "Inlet", "await self.producer.is_full() and ", ""),
    "an outlet sleeps without a last look": ("stuck", "Outlet", "await self.consumer.is_empty() and ", ""),
    "an inlet looks before it listens": (
        "stuck",
        "Inlet",
        ("        heard = await self.pull.taken.listen()\n", INLET_LOOK),
        ("", f"{INLET_LOOK}\n        heard = await self.pull.taken.listen()"),
    ),
    "an outlet looks before it listens": (
        "stuck",
        "Outlet",
        ("        heard = await self.pull.put.listen()\n", OUTLET_LOOK),
        ("", f"{OUTLET_LOOK}\n        heard = await self.pull.put.listen()"),
    ),
    "an inlet sleeps on the bell that it rings": (
        "stuck",
        "Inlet",
        ("taken.listen()", "taken.sleep("),
        ("put.listen()", "put.sleep("),
    ),
    "an outlet sleeps on the bell that it rings": (
        "stuck",
        "Outlet",
        ("put.listen()", "put.sleep("),
        ("taken.listen()", "taken.sleep("),
    ),
    "an inlet rings before it is gone": (
        "stuck",
        "Inlet",
        ("self.producer.drop()", "self.pull.drop()"),
        ("self.pull.drop()", "self.producer.drop()"),
    ),
    "an outlet rings before it is gone": (
        "stuck",
        "Outlet",
        ("self.consumer.drop()", "self.pull.drop()"),
        ("self.pull.drop()", "self.consumer.drop()"),
    ),
    "an inlet looks only once whether the outlet is gone": (
        "stuck",
        "Inlet",
        LOOP + INLET_CUT,
        f"        if await self.is_cut():\n            return False\n{LOOP}",
    ),
    "an inlet never finds the outlet gone": ("stuck", "Inlet", "await self.producer.is_abandoned()", "False"),
    "an outlet never finds the inlet gone": ("stuck", "Outlet", "await self.consumer.is_abandoned()", "False"),
    "an outlet looks last whether the inlet is gone": (
        "untrue",
        "Outlet",
        OUTLET_CUT + OUTLET_TAKE,
        OUTLET_TAKE + OUTLET_CUT,
    ),
    "an outlet leaves what still waits": ("untrue", "Outlet", OUTLET_TAKE + OUTLET_END, OUTLET_END + OUTLET_TAKE),
    "an outlet trusts what it saw before": (
        "untrue",
        "Outlet",
        "if not await self.consumer.pop():",
        "if self.consumer.known == 0 or not await self.consumer.pop():",
    ),
    "a lane that stays full is called closed": ("untrue", "Inlet", "await self.sleep()", "return False"),
}

# This one is right too.
RINGS_FIRST = (
    "Outlet",
    ("        if not await self.consumer.pop():\n", "        await self.pull.taken.ring()\n        return True\n"),
    ("        await self.pull.taken.ring()\n        if not await self.consumer.pop():\n", "        return True\n"),
)


def edited(part, old, new):
    """The model with other texts in one of its classes, each for one that stands there once."""
    whole, source = (without_comments(getsource(each)) for each in (lane_model, getattr(lane_model, part)))
    text = source
    for one, other in zip(*((old, new) if isinstance(old, tuple) else ((old,), (new,)))):
        expect(source.count(one), 1, f"{part}: {one!r}")
        text = text.replace(one, f"\0{other}")
    model = {"__name__": "edited"}
    exec(whole.replace(source, text.replace("\0", "")), model)
    return model


def without_comments(text):
    return re.sub(r"^ *#.*\n", "", text, flags=re.MULTILINE)


def is_found(title):
    fault, *edit = WRONG[title]
    faults = faults_of(edited(*edit))
    return None if faults == {fault} else f"found {sorted(faults)} and not {fault}"


# ---- the code that the model follows


def followed():
    """The functions of the model that follow lines of the code, with these lines."""
    parts = [getattr(lane_model, name) for name in ("Bell", "BellPull", "Looks", "Inlet", "Outlet")]
    for part in parts:
        for name, function in vars(part).items():
            if isinstance(function, types.FunctionType):
                lines = [line.strip() for line in getsource(function).splitlines()]
                lines = [line.removeprefix("# ") for line in lines if line.startswith("# ")]
                if lines and name != "__init__":
                    yield part.__name__, name, lines


def lines_of_code(kind, name):
    """The lines of a function, without comments and ends of blocks; or the fields of an end, which are dropped in
    their order."""
    lines = iter((SOURCES / ("ends.rt" if kind in ("Inlet", "Outlet") else "bells.rt")).read_text().splitlines())
    if name == "drop_fields":
        starts, end = [rf"pub struct {kind}<"], "}"
    elif kind == "Looks":
        starts, end = [rf"pub\(crate\) fn {name}\b"], "}"
    else:
        starts, end = [rf"impl(<.*?>)?( Drop for)? {kind}(<A>)? \{{$", rf"    (pub.* )?fn {name}\b"], "    }"
    for start in starts:
        line = next(line for line in lines if re.match(start, line))
    while not line.endswith("{"):
        line = next(lines)
    found = []
    while (line := next(lines)) != end:
        line = line.strip()
        if line.strip("};") and not line.startswith("//"):
            found.append(line)
    return found


# ---- the tests


def the_model_follows_the_code():
    names = []
    for kind, name, lines in followed():
        expect(lines_of_code(kind, name), lines, f"{kind}::{name}")
        names.append(name)
    expect(len(names), 15, "functions that the model follows")
    text = (SOURCES / "bells.rt").read_text()
    expect("const LOOKS: u32 = 64;" in text, True, "the looks before an end sleeps")


def no_order_of_steps_has_a_fault():
    expect(faults_of(vars(lane_model)), set())


def an_outlet_may_ring_before_it_takes():
    expect(faults_of(edited(*RINGS_FIRST)), set())


CASES = [
    case("Lanes", [the_model_follows_the_code, no_order_of_steps_has_a_fault, an_outlet_may_ring_before_it_takes]),
    case_of_pairs("WrongLanes", [(title, lambda title=title: is_found(title)) for title in WRONG]),
]
