"""Whether the history of a report follows its script, and which history the fixed schedule gives.

It is written from the words of docs/FORMATS.md (Runs) and docs/DEFINITIONS.md (Runs of scripts). The events are gone through in order,
beside the small model of a cluster of scripts/journal_rules.py, and of the first event that has no place the line is told and the reason.

A history that follows ends with one round, and what a run does before its end looks the same as the first part of that round: only its
sweeps differ. So the round may be taken to begin right before the last sweeps, one for each node that is up: all else was done by then.
"""
from collections import Counter

from journal_rules import HEADER, PRINTED, Cluster, Misspelled, lines_of, read_line, spell

TURNS_PER_ROUND = 64
FLUSHES_PER_PUBLISH = 32
ACTS = ("spawn", "send", "drop", "retire", "rest")
ON_LINKS = ("admit", "lose", "repeat")


def is_message_name(name):
    return name[0] == "m" and name[1:].isdigit()


def acts_of_turn(instructions, names, root):
    """The acts of a turn, each as a form and what goes with it; a spawn is answered with the child. The names change on the way."""
    for form, *operands in instructions:
        first = operands[0] if operands else None
        if form == "spawn":
            if first in names:
                yield "drop", names.pop(first)
            names[first] = yield form, operands[1]
        elif form == "send" and all(name in names for name in operands):
            yield form, *(names[name] for name in operands)
        elif form == "drop" and first in names:
            yield form, names.pop(first)
        elif form == "keep" and operands[1] in names:
            if first in names:
                yield "drop", names.pop(first)
            names[first] = names.pop(operands[1])
        elif form == "retire" and root:
            root = False
            yield (form,)
    for name in [name for name in names if is_message_name(name)]:
        yield "drop", names.pop(name)


class Player:
    """An actor between its turns and in one: its behaviour, its names, its turn and the act that is due in it."""

    def __init__(self, name, behaviour):
        self.behaviour = behaviour
        self.names = {"self": name}
        self.turn = None
        self.due = None

    def begin(self, instructions, references, root):
        self.names.update((f"m{number}", reference) for number, reference in enumerate(references))
        self.turn = acts_of_turn(instructions, self.names, root)
        self.due = next(self.turn, ("rest",))

    def go_on(self, child):
        try:
            self.due = self.turn.send(child)
        except StopIteration:
            self.due = ("rest",)


class Run:
    """A history of a script, event by event, and what the script has left for it."""

    def __init__(self, script):
        self.cluster = Cluster(2, script["nodes"])
        self.behaviours = {behaviour["name"]: behaviour for behaviour in script["behaviours"]}
        self.players = {}
        self.wakes = {}
        self.turns = script["turns"]
        self.rows = {
            form: {(row["from"], row["to"], row["number"]) for row in script.get(key, ())}
            for form, key in (("repeat", "repeats"), ("lose", "losses"))
        }
        self.lowest = Counter()
        self.after = {row["node"]: row["after"] for row in script.get("crashes", ())}
        self.ended = Counter()
        self.crash = None
        self.handed = set()
        self.may_sweep = set()
        self.events = []
        self.add_beginning(script["seeds"], script.get("ties", ()))

    def add_beginning(self, seeds, ties):
        """The seeds and the ties, in order."""
        names = []
        for seed in seeds:
            names.append(self.newborn(seed["node"]))
            self.players[names[-1]] = Player(names[-1], seed["behaviour"])
            self.wakes[names[-1]] = seed["wakes"]
            self.add(("seed", seed["node"]))
        for tie in ties:
            owner, target = names[tie["from"]], names[tie["to"]]
            self.players[owner].names[tie["as"]] = target
            self.add(("tie", owner, target))

    def newborn(self, node):
        return node, self.cluster.born[node]

    def up(self):
        return [node for node in range(self.cluster.nodes) if self.cluster.up[node]]

    # What may come next.

    def objection(self, event):
        """Why the event may not come next, or None."""
        form, *fields = event
        if self.crash is not None and event != ("crash", self.crash):
            return f"crash {self.crash} is due"
        if form == "crash" and self.crash is None:
            return "no crash is due"
        rule = self.cluster.refusal(event)
        if rule:
            return f"the rule {rule} refuses it"
        if form in ("seed", "tie"):
            return "seeds and ties stand at the beginning alone"
        if form in ("wake", "take"):
            return self.objection_to_turn(form, fields[0])
        if form in ("hand", "sweep"):
            return self.objection_to_collector(form, fields)
        due = self.due_of(form, fields)
        return None if due in (None, event) else f"{spell(due)} is due"

    def objection_to_turn(self, form, name):
        if self.turns == 0:
            return "all turns have begun"
        if form == "wake" and self.wakes.get(name, 0) == 0:
            return "no wake of it is left"
        return None

    def objection_to_collector(self, form, fields):
        if form == "hand" and tuple(fields) in self.handed:
            return "it was handed before"
        if form == "sweep" and fields[0] not in self.may_sweep:
            return "nothing was handed to the node since its last sweep"
        return None

    def due_of(self, form, fields):
        """The event that the script asks for in place of one of a turn or a link; None for an event of another form."""
        if form in ACTS:
            return self.due_act(fields[0])
        return self.due_on_link(*fields[:2]) if form in ON_LINKS else None

    def due_act(self, name):
        form, *rest = self.players[name].due
        return (form, name) if form == "spawn" else (form, name, *rest)

    def due_on_link(self, source, to):
        """What happens to the lowest number with a copy, as the plan says; a number without one never gets one again."""
        copies = self.cluster.links[source, to].copies
        number = self.lowest[source, to]
        while number < len(copies) and copies[number] == 0:
            number += 1
        self.lowest[source, to] = number
        row = source, to, number
        if number == len(copies):
            return None
        return next(((form, *row) for form in ("repeat", "lose") if row in self.rows[form]), ("admit", *row))

    # What an event changes.

    def add(self, event):
        form, *fields = event
        self.crash = None
        if form in ("wake", "take"):
            self.begin_turn(form, fields[0])
        elif form in ACTS:
            self.go_on(form, fields[0])
        elif form in self.rows:
            self.rows[form].discard(tuple(fields))
        elif form == "hand":
            self.handed.add(tuple(fields))
            self.may_sweep.add(fields[0])
        elif form == "sweep":
            self.may_sweep.discard(fields[0])
        self.cluster.apply(event)
        self.events.append(event)

    def begin_turn(self, form, name):
        actor = self.cluster.actors[name]
        self.turns -= 1
        if form == "wake":
            self.wakes[name] -= 1
        references = actor.mail[0] if form == "take" else ()
        behaviour = self.behaviours[self.players[name].behaviour]
        self.players[name].begin(behaviour.get("wake" if form == "wake" else "message", ()), references, actor.root)

    def go_on(self, form, name):
        node, player, child = name[0], self.players[name], None
        if form == "rest":
            self.ended[node] += 1
            self.crash = node if self.after.get(node) == self.ended[node] else None
            return
        if form == "spawn":
            child = self.newborn(node)
            self.players[child] = Player(child, player.due[1])
        player.go_on(child)

    # The end.

    def unfinished(self):
        """Why the run is not over, or None."""
        actors = self.cluster.actors
        up = self.up()
        if self.crash is not None:
            return f"crash {self.crash} is due"
        busy = [name for name, actor in actors.items() if actor.busy and name[0] in up]
        if busy:
            return f"the turn of {busy[0][0]}.{busy[0][1]} has not ended"
        if self.turns == 0:
            return None
        if any(actor.mail for name, actor in actors.items() if name[0] in up):
            return "a message waits"
        if any(self.is_under_way(ends) for ends in self.cluster.links if ends[1] in up):
            return "a message is under way"
        if any(left and actors[name].root for name, left in self.wakes.items() if name[0] in up):
            return "a wake is left"
        return None

    def is_under_way(self, ends):
        link = self.cluster.links[ends]
        is_closed = ends[::-1] in self.cluster.removed
        return not is_closed and any(copies and number not in link.admitted for number, copies in enumerate(link.copies))

    def attempt(self, *event):
        """Adds an event that no rule refuses; the answer is whether it was added."""
        if self.cluster.refusal(event):
            return False
        self.add(event)
        return True

    def add_round(self):
        up, nodes = self.up(), range(self.cluster.nodes)
        for form in ("remove", "window"):
            for node in up:
                for other in nodes:
                    self.attempt(form, node, other)
        for node in up:
            self.add_flushes(node)
        for node in up:
            for origin in nodes:
                for number in range(self.cluster.streams[origin]):
                    if (node, origin, number) not in self.handed:
                        self.add(("hand", node, origin, number))
        for node in up:
            self.add(("sweep", node))

    def add_flushes(self, node):
        flushes = 0
        for serial in range(self.cluster.born[node]):
            if self.attempt("flush", (node, serial)):
                flushes += 1
                if flushes % FLUSHES_PER_PUBLISH == 0:
                    self.add(("publish", node))
        self.attempt("publish", node)

    # The fixed schedule.

    def add_turn(self, beginning):
        """The whole turn that begins so, with the crash that is due and the round after a 64th turn."""
        self.add(beginning)
        name = beginning[1]
        while self.events[-1] != ("rest", name):
            self.add(self.due_act(name))
        if self.crash is not None:
            self.add(("crash", self.crash))
        if sum(self.ended.values()) % TURNS_PER_ROUND == 0:
            self.add_round()

    def add_next(self):
        """One thing more, as the fixed schedule says; the answer is whether there was one."""
        on_links = (self.due_on_link(*ends) for ends in sorted(self.cluster.links))
        event = self.first_legal(event for event in on_links if event)
        if event:
            self.add(event)
            return True
        takes = self.first_legal(("take", name) for name in sorted(self.cluster.actors)) if self.turns else None
        wakes = self.first_legal(("wake", name) for name in sorted(self.wakes) if self.wakes[name]) if self.turns else None
        if takes or wakes:
            self.add_turn(takes or wakes)
        return bool(takes or wakes)

    def first_legal(self, events):
        return next((event for event in events if not self.cluster.refusal(event)), None)


def fixed_run(script):
    """The history that the fixed schedule gives."""
    run = Run(script)
    while run.add_next():
        pass
    run.add_round()
    return run


def first_difference(found, wanted):
    """The place of the first event that is not the wanted one, and the wanted one; None where both lists are the same."""
    place = next((place for place, pair in enumerate(zip(found, wanted)) if pair[0] != pair[1]), min(len(found), len(wanted)))
    if place == len(found) == len(wanted):
        return None
    return place, f"{spell(wanted[place])} is due" if place < len(wanted) else "nothing is due"


def closing_places(script, events):
    """Where the last sweeps may begin, one for each node that is up: with the lowest such node, among the sweeps at the end."""
    crashed = {event[1] for event in events if event[0] == "crash"}
    lowest = next((node for node in range(script["nodes"]) if node not in crashed), None)
    start = next((place for place in range(len(events), 0, -1) if events[place - 1][0] != "sweep"), 0)
    places = [place for place in range(start, len(events)) if events[place][1] == lowest]
    return {places[0], places[-1]} if places else {start}


def deviation(script, events):
    """The place of the first event that does not follow the script, and the reason; None where all of them do."""
    found = [deviation_closed_at(place, script, events) for place in closing_places(script, events)]
    return None if None in found else max(found)


def deviation_closed_at(closing, script, events):
    run = Run(script)
    start = len(run.events)
    differs = first_difference(events[:start], run.events)
    if differs:
        return differs
    for place in range(start, closing):
        reason = run.objection(events[place])
        if reason:
            return place, reason
        run.add(events[place])
    reason = run.unfinished()
    if reason:
        return closing, f"the closing round begins, and {reason}"
    run.add_round()
    return first_difference(events, run.events)


def read_report(report):
    """The header of a report, and the numbers and events of its lines that are events."""
    header, *lines = lines_of(report) or [b""]
    numbers, events = [], []
    for number, line in enumerate(lines, 2):
        event = read_line(line)
        if event[0] not in PRINTED:
            numbers.append(number)
            events.append(event)
    return header, numbers, events


def judge(script, report, is_fixed=False):
    """What is wrong with a report as the history of a run of the script, or None; a fixed history has to be the one of the schedule."""
    try:
        header, numbers, events = read_report(report)
    except Misspelled as fault:
        return f"a line is misspelled: {fault}"
    match = HEADER.fullmatch(header)
    if not match or match.groups() != (b"2", b"%d" % script["nodes"]):
        return f"another header: {header!r}"
    found = first_difference(events, fixed_run(script).events) if is_fixed else deviation(script, events)
    if not found:
        return None
    place, reason = found
    if place == len(events):
        return f"at the end: {reason}"
    return f"line {numbers[place]}, {spell(events[place])}: {reason}"
