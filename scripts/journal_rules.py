"""A small model of journals: how their lines are spelled, and which event breaks which rule.

It is written from docs/FORMATS.md alone and knows nothing of collectors: no rule asks what a sweep found.
"""
import re
from collections import Counter, deque

NODES = 16
ACTORS = 262_144
NUMBERS = 1 << 32
REFERENCES = 16

# What follows the first word: n a node, a an actor, # a number, * up to 16 more actors.
EVENTS = {
    "seed": "n", "publish": "n", "crash": "n", "sweep": "n",
    "wake": "a", "take": "a", "spawn": "a", "retire": "a", "rest": "a", "flush": "a",
    "tie": "aa", "drop": "aa", "send": "aa*",
    "window": "nn", "remove": "nn",
    "admit": "nn#", "lose": "nn#", "repeat": "nn#", "hand": "nn#",
}
PRINTED = ("cut", "stop", "end")
RULES = {
    "seed": ("no-node", "down"),
    "tie": ("no-actor", "down", "same-actor", "not-root"),
    "wake": ("no-actor", "down", "not-root", "busy"),
    "take": ("no-actor", "down", "busy", "no-mail"),
    "spawn": ("no-actor", "down", "idle"),
    "send": ("no-actor", "down", "idle", "not-held"),
    "drop": ("no-actor", "down", "idle", "not-held", "supervisor"),
    "retire": ("no-actor", "down", "not-root", "idle"),
    "rest": ("no-actor", "down", "idle"),
    "flush": ("no-actor", "down", "blank"),
    "publish": ("no-node", "down", "empty-queue"),
    "window": ("no-node", "same-node", "down", "closed", "nothing-admitted"),
    "admit": ("no-node", "same-node", "down", "closed", "not-on-link"),
    "lose": ("no-node", "same-node", "down", "closed", "not-on-link"),
    "repeat": ("no-node", "same-node", "down", "closed", "not-on-link"),
    "crash": ("no-node", "down"),
    "remove": ("no-node", "same-node", "down", "not-crashed", "removed"),
    "hand": ("no-node", "down", "no-bulletin"),
    "sweep": ("no-node", "down"),
}
HEADER = re.compile(rb"crgc ([12]) nodes ([1-9]|1[0-6])")
DECIMAL = re.compile(r"0|[1-9][0-9]*")


class Misspelled(Exception):
    """A line is of no form; its one argument is the word of the fault."""


def number_of(word, below):
    if not DECIMAL.fullmatch(word) or len(word) > 10 or int(word) >= below:
        raise Misspelled("field")
    return int(word)


def actor_of(word):
    node, dot, serial = word.partition(".")
    if not dot:
        raise Misspelled("field")
    return number_of(node, NODES), number_of(serial, ACTORS)


def field_of(kind, word):
    return actor_of(word) if kind == "a" else number_of(word, NODES if kind == "n" else NUMBERS)


def read_event(form, words):
    fields = []
    kinds = EVENTS[form]
    for kind in kinds.rstrip("*"):
        if not words:
            raise Misspelled("field")
        fields.append(field_of(kind, words.pop(0)))
    if kinds.endswith("*"):
        fields.extend(actor_of(word) for word in words[:REFERENCES])
        del words[:REFERENCES]
    if words:
        raise Misspelled("extra")
    return (form, *fields)


def read_fixed(words, kinds):
    for kind in kinds:
        if not words:
            raise Misspelled("field")
        word = words.pop(0)
        if kind in ("n", "a", "#"):
            field_of(kind, word)
        elif word != kind:
            raise Misspelled("field")


def read_cut(words):
    read_fixed(words, "n#")
    counts = 1
    while counts < NODES and words and words[0] != "lost":
        read_fixed(words, "#")
        counts += 1
    read_fixed(words, ("lost",))
    for word in words[:NODES]:
        number_of(word, NODES)
    if len(words) > NODES:
        raise Misspelled("extra")


def read_printed(form, words):
    if form == "cut":
        read_cut(words)
    elif form == "stop":
        read_fixed(words, ("a", "by", "n", "received", "#", "told", "#", "admitted", "#", "owners"))
        for word in words:
            actor_of(word)
    else:
        read_fixed(words, ("events", "#", "stopped", "#"))
        if words:
            raise Misspelled("extra")
    return (form,)


def read_line(line):
    """What a line says: an event with its fields, or the first word of a line that only a report has."""
    form, *words = line.decode("latin-1").split(" ")
    if form in EVENTS:
        return read_event(form, words)
    if form in PRINTED:
        return read_printed(form, words)
    raise Misspelled("word")


def spell(event):
    return " ".join([event[0], *(f"{field[0]}.{field[1]}" if isinstance(field, tuple) else str(field) for field in event[1:])])


class Actor:
    def __init__(self, name, parent):
        self.parent = parent
        self.root = parent is None
        self.busy = False
        self.held = Counter({name: 1})
        self.mail = deque()
        self.noted = False
        self.told = None

    def flags(self):
        return self.busy, self.root

    def is_blank(self):
        return not self.noted and self.told == self.flags()


class Link:
    def __init__(self):
        self.sent = []
        self.copies = []
        self.admitted = set()
        self.fresh = False


class Cluster:
    """The state of a cluster after a legal history, as far as rules ask for it."""

    def __init__(self, version, nodes):
        self.version = version
        self.nodes = nodes
        self.up = [True] * nodes
        self.born = [0] * nodes
        self.actors = {}
        self.links = {(source, to): Link() for source in range(nodes) for to in range(nodes) if source != to}
        self.queued = [False] * nodes
        self.streams = [0] * nodes
        self.removed = set()

    def refusal(self, event):
        """The first rule that the event breaks, or None."""
        for rule in RULES[event[0]]:
            if self.breaks(rule, event[0], event[1:]):
                return rule
        return None

    def breaks(self, rule, form, fields):
        of_nodes = EVENTS[form].startswith("n")
        if rule == "no-node":
            return any(node >= self.nodes for node in fields[: EVENTS[form].count("n")])
        if rule == "no-actor":
            return any(name not in self.actors for name in fields)
        if rule == "down":
            acting = fields[:2] if form == "tie" else fields[1:2] if form in ("admit", "lose", "repeat") else fields[:1]
            return any(not self.up[one if of_nodes else one[0]] for one in acting)
        if rule in ("same-node", "same-actor"):
            return fields[0] == fields[1]
        return self.breaks_of_nodes(rule, form, fields) if of_nodes else self.breaks_of_actors(rule, form, fields)

    def breaks_of_nodes(self, rule, form, fields):
        if rule == "empty-queue":
            return not self.queued[fields[0]]
        if rule == "no-bulletin":
            return self.streams[fields[1]] <= fields[2]
        if rule == "not-crashed":
            return self.up[fields[1]]
        if rule == "removed":
            return tuple(fields) in self.removed
        to, source = fields[:2] if form == "window" else (fields[1], fields[0])
        if rule == "closed":
            return (to, source) in self.removed
        link = self.links[source, to]
        if rule == "nothing-admitted":
            return not link.fresh
        return fields[2] >= len(link.copies) or link.copies[fields[2]] == 0

    def breaks_of_actors(self, rule, form, fields):
        actor = self.actors[fields[0]]
        if rule == "not-root":
            return any(not self.actors[name].root for name in fields)
        if rule == "busy":
            return actor.busy
        if rule == "idle":
            return not actor.busy
        if rule == "no-mail":
            return not actor.mail
        if rule == "not-held":
            return any(actor.held[name] == 0 for name in fields[1:])
        if rule == "supervisor":
            return self.version == 2 and actor.parent == fields[1] and actor.held[fields[1]] == 1
        return actor.is_blank()

    def apply(self, event):
        getattr(self, "do_" + event[0])(*event[1:])

    def give_birth(self, node, parent):
        name = (node, self.born[node])
        self.born[node] += 1
        self.actors[name] = Actor(name, parent)
        return name

    def do_seed(self, node):
        self.give_birth(node, None)

    def do_tie(self, owner, target):
        self.actors[owner].held[target] += 1
        self.actors[target].noted = True

    def do_wake(self, name):
        self.actors[name].busy = True

    def do_take(self, name):
        actor = self.actors[name]
        actor.busy = True
        actor.held.update(actor.mail.popleft())
        actor.noted = True

    def do_spawn(self, name):
        actor = self.actors[name]
        child = self.give_birth(name[0], name)
        actor.held[child] += 1
        if self.version == 2:
            self.actors[child].held[name] += 1
            actor.noted = True

    def do_send(self, name, to, *references):
        self.actors[name].noted = True
        if name[0] == to[0]:
            self.actors[to].mail.append(references)
        else:
            link = self.links[name[0], to[0]]
            link.sent.append((to, references))
            link.copies.append(1)

    def do_drop(self, name, target):
        self.actors[name].held[target] -= 1
        self.actors[name].noted = True

    def do_retire(self, name):
        self.actors[name].root = False

    def do_rest(self, name):
        self.actors[name].busy = False

    def do_flush(self, name):
        actor = self.actors[name]
        actor.noted = False
        actor.told = actor.flags()
        self.queued[name[0]] = True

    def do_publish(self, node):
        self.queued[node] = False
        self.streams[node] += 1

    def do_window(self, to, source):
        self.links[source, to].fresh = False
        self.streams[to] += 1

    def do_admit(self, source, to, number):
        link = self.links[source, to]
        link.copies[number] -= 1
        if number not in link.admitted:
            link.admitted.add(number)
            link.fresh = True
            name, references = link.sent[number]
            self.actors[name].mail.append(references)

    def do_lose(self, source, to, number):
        self.links[source, to].copies[number] -= 1

    def do_repeat(self, source, to, number):
        self.links[source, to].copies[number] += 1

    def do_crash(self, node):
        self.up[node] = False

    def do_remove(self, node, other):
        self.removed.add((node, other))
        self.streams[node] += 1

    def do_hand(self, node, origin, number):
        pass

    def do_sweep(self, node):
        pass


def lines_of(text):
    lines = text.split(b"\n")
    return lines[:-1] if lines[-1] == b"" else lines


class Reading:
    """What can be said of a journal's text: its events up to its first fault, that fault, and the lines that could differ before it."""

    def __init__(self, text):
        lines = lines_of(text)
        self.events = []
        self.fault = None
        self.may_differ = []
        self.cluster = None
        header = HEADER.fullmatch(lines[0]) if lines else None
        if not header:
            self.fault = 1, "header"
            return
        self.cluster = Cluster(int(header[1]), int(header[2]))
        self.ended = False
        for number, line in enumerate(lines[1:], 2):
            cause = self.read(line, number)
            if cause:
                self.fault = number, cause
                return

    def read(self, line, number):
        """The cause of the line's fault, or None; an event is applied."""
        try:
            event = read_line(line)
        except Misspelled as fault:
            return fault.args[0]
        if self.ended:
            return "after-end"
        if event[0] in PRINTED:
            self.ended = event[0] == "end"
            self.may_differ.append(number)
            return None
        cause = self.cluster.refusal(event)
        if not cause:
            self.cluster.apply(event)
            self.events.append(event)
        return cause
