"""Wrong histories: a history of the fixed schedule, or its script, with one thing changed.

Each is a kind, the place of the change, the script, the events, and whether the history still follows the script: True where that is known,
None where it may or not, because the definition leaves the event or the order of two open. Else it has to be refused, and not before its change.
"""
import copy
from collections import namedtuple

from follow_script import ACTS, ON_LINKS, Run
from journal_rules import EVENTS

Spoilt = namedtuple("Spoilt", "kind place script events follows")
OF_TURNS = ("wake", "take") + ACTS
TOLD_AT_ONCE = (
    "a wake too many", "an act too many", "another fate on a link", "a crash that is not due", "a crash put off", "a sweep without a hand",
)
OF_ROUNDS = ("remove", "window", "flush", "publish", "hand", "sweep")


class History:
    """A fixed history, with the state at its end."""

    def __init__(self, script, events):
        self.script = script
        self.events = events
        self.run = Run(script)
        self.start = len(self.run.events)
        for event in events[self.start:]:
            self.run.add(event)
        self.closing = next((place for place in range(len(events), 0, -1) if events[place - 1][0] not in OF_ROUNDS), 0)
        self.sweeps = len(events) - len(self.run.up())

    def spoilt(self, kind, place, events, follows=False):
        return Spoilt(kind, place, self.script, self.events[:place] + events, follows)

    def dropped(self):
        for place, event in enumerate(self.events):
            yield self.spoilt("an event left out", place, self.events[place + 1:], self.without(place, event))

    def without(self, place, event):
        """The last event of a link may be left out where no live message is left of it; so it is of a copy that was admitted before."""
        on_link = [one for one in self.events[place:] if one[0] in ON_LINKS and one[1:3] == event[1:3]]
        if event[0] not in ON_LINKS or set(on_link) != {event}:
            return False
        up = self.run.cluster.up
        is_copy = self.events.count(("admit", *event[1:])) > (event[0] == "admit")
        return is_copy or (None if self.run.turns == 0 or not up[event[1]] or not up[event[2]] else False)

    def swapped(self):
        for place, (first, second) in enumerate(zip(self.events, self.events[1:])):
            if first != second:
                kept = [second, first] + self.events[place + 2:]
                yield self.spoilt("two events swapped", place, kept, self.with_swapped(place, first, second))

    def with_swapped(self, place, first, second):
        """Two hands may change places, and so on; the events of one actor's turns, or of one link, may not."""
        forms = {first[0], second[0]}
        if place < self.start or "crash" in forms or place + 1 >= self.sweeps:
            return False
        if len(forms) == 1 and forms <= set(OF_ROUNDS):
            return True
        is_ordered = (forms <= set(OF_TURNS) and first[1] == second[1]) or (forms <= set(ON_LINKS) and first[1:3] == second[1:3])
        return False if is_ordered else None

    def doubled(self):
        for place, event in enumerate(self.events):
            yield self.spoilt("an event doubled", place, [event] + self.events[place:], None if place == self.sweeps else False)

    def changed(self):
        """One field of an event changed: the next node, serial or number."""
        for place, event in enumerate(self.events):
            kinds = EVENTS[event[0]].replace("*", "a" * len(event))
            for number, field in enumerate(event[1:], 1):
                other = self.other(kinds[number - 1], field)
                if other != field:
                    one = (*event[:number], other, *event[number + 1:])
                    yield self.spoilt("a field changed", place, [one] + self.events[place + 1:])

    def other(self, kind, field):
        if kind == "n":
            return (field + 1) % self.script["nodes"]
        return field + 1 if kind == "#" else (field[0], field[1] + 1)

    def added(self):
        """Wakes, acts and sweeps too many, copies lost or doubled against the plan, crashes too early or too late."""
        for name, actor in self.run.cluster.actors.items():
            if actor.root and self.run.cluster.up[name[0]]:
                yield self.put_in("a wake too many", self.closing, ("wake", name), ("rest", name))
        for place, event in enumerate(self.events):
            if event[0] == "rest":
                yield from self.added_to_turn(place, event[1])
            if event[0] in ON_LINKS:
                yield from self.other_fates(place, event)
        for node in range(self.script["nodes"] if self.start < self.sweeps else 0):
            yield self.put_in("a sweep without a hand", self.start, ("sweep", node))
        if self.run.up():
            yield self.put_in("a sweep too many", self.sweeps, *2 * [self.events[self.sweeps]])

    def other_fates(self, place, event):
        for form in ON_LINKS:
            if form != event[0]:
                yield self.spoilt("another fate on a link", place, [(form, *event[1:])] + self.events[place + 1:])

    def put_in(self, kind, place, *events):
        return self.spoilt(kind, place, list(events) + self.events[place:])

    def added_to_turn(self, place, name):
        for act in (("spawn", name), ("send", name, name), ("drop", name, name), ("retire", name)):
            yield self.put_in("an act too many", place, act)
        if self.events[place + 1:place + 2] == [("crash", name[0])]:
            yield self.put_in("a crash put off", place + 1, ("flush", name))
        else:
            yield self.put_in("a crash that is not due", place + 1, ("crash", name[0]))

    def closed_early(self):
        """The run is broken off before each of its events, and closed.

        Where only links have anything left it may be over. Where only links from nodes that crashed have, it is: removals close them.
        """
        for place in range(self.start, self.closing):
            run = Run(self.script)
            for event in self.events[self.start:place]:
                run.add(event)
            left = self.events[place:self.closing]
            closed = [event[0] in ON_LINKS and not run.cluster.up[event[1]] for event in left]
            may_be_over = any(closed) or all(event[0] in ON_LINKS for event in left)
            run.add_round()
            yield self.spoilt("a run closed too early", place, run.events[place:], all(closed) or (None if may_be_over else False))

    # Another script.

    def other_scripts(self):
        """Scripts that ask for something else, each with the history as it is."""
        begun = self.script["turns"] - self.run.turns
        if begun > 1:
            yield self.with_script("fewer turns", turns=begun - 1)
        seed = {"node": 0, "behaviour": self.script["behaviours"][0]["name"], "wakes": 0}
        yield self.with_script("a seed more", seeds=self.script["seeds"] + [seed])
        yield from self.other_wakes()
        yield from self.other_plans()

    def with_script(self, kind, **keys):
        return Spoilt(kind, 0, self.script | keys, self.events, False)

    def other_wakes(self):
        for name, number in zip(self.run.wakes, range(len(self.script["seeds"]))):
            actor = self.run.cluster.actors[name]
            is_woken = ("wake", name) in self.events
            if self.run.turns and self.run.cluster.up[name[0]] and actor.root:
                yield self.with_seed("a wake more", number, 1)
            if is_woken and self.run.wakes[name] == 0:
                yield self.with_seed("a wake less", number, -1)

    def with_seed(self, kind, number, more):
        seeds = copy.deepcopy(self.script["seeds"])
        seeds[number]["wakes"] += more
        return self.with_script(kind, seeds=seeds)

    def other_plans(self):
        for key, form in (("losses", "lose"), ("repeats", "repeat")):
            rows = self.script.get(key, [])
            for event in self.events:
                row = dict(zip(("from", "to", "number"), event[1:]))
                if event[0] == form:
                    yield self.with_script("a planned row less", **{key: [one for one in rows if one != row]})
                if event[0] == "admit" and row not in rows:
                    yield self.with_script("a planned row more", **{key: rows + [row]})
        for row in self.script.get("crashes", []):
            if ("crash", row["node"]) in self.events:
                others = [one for one in self.script["crashes"] if one != row]
                yield self.with_script("a crash later", crashes=others + [row | {"after": row["after"] + 1}])
                yield self.with_script("no crash", crashes=others)

    def all_spoilt(self):
        for ways in (self.dropped, self.swapped, self.doubled, self.changed, self.added, self.closed_early, self.other_scripts):
            yield from ways()
