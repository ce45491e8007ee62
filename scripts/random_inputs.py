"""Random journals and scripts, legal and not."""
import json

from journal_rules import ACTORS, EVENTS, NODES, NUMBERS, REFERENCES, Cluster, spell

ACTIONS = ("send", "drop", "rest", "spawn", "retire")
WEIGHTS = {
    "seed": 4, "tie": 6, "wake": 8, "take": 14, "spawn": 8, "send": 16, "drop": 12, "retire": 2, "rest": 10, "flush": 14, "publish": 8,
    "window": 5, "admit": 14, "lose": 2, "repeat": 3, "crash": 0.4, "remove": 2, "hand": 12, "sweep": 4,
}
FORMS = tuple(WEIGHTS)
SHARES = tuple(WEIGHTS.values())
SIZES = (1, 2, 2, 2, 3, 3, 4, 5, 8, 16)


# Journals

def some_event(cluster, rng):
    """An event that is often legal."""
    form = rng.choices(FORMS, SHARES)[0]
    node = rng.randrange(cluster.nodes)
    other = rng.randrange(cluster.nodes)
    if form in ("seed", "publish", "crash", "sweep"):
        return form, node
    if form in ("window", "remove"):
        return form, node, other
    if form in ("admit", "lose", "repeat"):
        links = [ends for ends, link in cluster.links.items() if any(link.copies)]
        if not links:
            return form, node, other, rng.randrange(3)
        ends = rng.choice(links)
        copies = cluster.links[ends].copies
        return form, *ends, rng.choice([number for number, count in enumerate(copies) if count])
    if form == "hand":
        return form, node, other, rng.randrange(cluster.streams[other] + 1)
    if not cluster.actors:
        return "seed", node
    return event_of_actor(form, cluster, rng)


def event_of_actor(form, cluster, rng):
    names = list(cluster.actors)
    busy = [name for name in names if cluster.actors[name].busy]
    waiting = [name for name in names if cluster.actors[name].mail]
    name = rng.choice(busy if form in ACTIONS and busy else waiting if form == "take" and waiting else names)
    if form == "tie":
        return form, name, rng.choice(names)
    if form not in ("send", "drop"):
        return form, name
    held = list(+cluster.actors[name].held) or [name]
    if form == "drop":
        return form, name, rng.choice(held)
    return form, name, *(rng.choice(held) for _ in range(1 + rng.choice((0, 1, 1, 1, 2, 3, REFERENCES))))


def any_event(cluster, rng):
    """An event with fields of any kind, which is seldom legal."""
    names = list(cluster.actors)

    def field(kind):
        if kind == "n":
            return rng.randrange(NODES)
        if kind == "#":
            return rng.choice((0, 1, 2, 7, NUMBERS - 1))
        if names and rng.random() < 0.8:
            return rng.choice(names)
        return rng.randrange(NODES), rng.choice((0, 1, 2, ACTORS - 1))

    form = rng.choice(FORMS)
    kinds = EVENTS[form].replace("*", "a" * rng.choice((0, 1, 2)))
    return (form, *map(field, kinds))


def legal_events(cluster, length, rng):
    """Some `length` events after the cluster's history, each legal; they are applied."""
    events = []
    for _ in range(3 * length):
        event = some_event(cluster, rng)
        if len(events) < length and not cluster.refusal(event):
            cluster.apply(event)
            events.append(event)
    return events


def closing_hands(cluster, rng):
    """Every bulletin handed to every node that is up, in a random order and some twice, and then the sweeps."""
    up = [node for node in range(cluster.nodes) if cluster.up[node]]
    hands = [("hand", to, origin, number) for to in up for origin in range(cluster.nodes) for number in range(cluster.streams[origin])]
    hands += rng.sample(hands, len(hands) // 4)
    rng.shuffle(hands)
    return hands + [("sweep", node) for node in up]


def journal_text(cluster, events):
    return "".join([f"crgc {cluster.version} nodes {cluster.nodes}\n", *(spell(event) + "\n" for event in events)]).encode()


def legal_journal(rng):
    cluster = Cluster(rng.choice((1, 2)), rng.choice(SIZES) if rng.random() < 0.95 else rng.randint(1, NODES))
    events = [("seed", rng.randrange(cluster.nodes)) for _ in range(rng.randint(1, 4))]
    for event in events:
        cluster.apply(event)
    return cluster, events + legal_events(cluster, rng.choice((5, 10, 20, 40, 80, 160)), rng)


def misspell_line(line, rng):
    way = rng.randrange(6)
    place = rng.randrange(len(line) + 1)
    if way == 0:
        return line[:place] + bytes([rng.choice((0, 9, 13, 32, 43, 45, 46, 48, 49, 57, 65, 97, 127, 255))]) + line[place:]
    if way == 1:
        return line[:place] + line[place + 1:]
    if way == 2:
        return line[:place] + bytes([rng.randrange(256)]) + line[place + 1:]
    words = line.split(b" ")
    place = rng.randrange(len(words))
    if way == 3:
        words[place] = rng.choice((b"", b"0", b"00", b"16", b"15.0", b"0.262144", b"4294967296", b"4294967295", b"lost", b"-1", b"1e1", b"9" * 400))
    elif way == 4:
        del words[place]
    else:
        words.insert(place, rng.choice(words))
    return b" ".join(words)


def spoil(text, rng):
    """The text with one thing changed: lines cut, doubled, moved, misspelled or put in; the end cut off."""
    lines = text.split(b"\n")
    place = rng.randrange(len(lines))
    way = rng.randrange(8)
    if way == 0:
        del lines[place]
    elif way == 1:
        lines.insert(place, lines[place])
    elif way == 2:
        lines.insert(rng.randrange(len(lines)), lines.pop(place))
    elif way == 3:
        lines.insert(place, spell(any_event(Cluster(1, 1), rng)).encode())
    elif way == 4:
        lines.insert(place, some_printed(rng))
    elif way == 5:
        return text[: rng.randrange(len(text) + 1)]
    elif way == 6:
        lines[place] += b"\r"
    else:
        lines[place] = misspell_line(lines[place], rng)
    return b"\n".join(lines)


def some_printed(rng):
    return rng.choice((
        b"cut 0 0 lost", b"cut 0 1 lost 1", b"cut 0 1 1 lost", b"cut 1 " + b"0 " * rng.randint(14, 18) + b"lost" + b" 3" * rng.randint(0, 18),
        b"stop 0.0 by 0 received 0 told 0 admitted 0 owners 0.0", b"stop 0.1 by 0 received 1 told 1 admitted 0 owners",
        b"stop 0.1 by 0 received 1 told 1 admitted 0", b"end events 0 stopped 0", b"end events 9 stopped 1 1", b"crgc 1 nodes 1", b"",
    ))


def faulty_journal(cluster, events, rng):
    """The journal with one to three changes, or with an unlikely event, which may have made it faulty."""
    if rng.random() < 0.4:
        place = rng.randrange(len(events) + 1)
        return journal_text(cluster, events[:place] + [any_event(cluster, rng)] + events[place:])
    text = journal_text(cluster, events)
    for _ in range(rng.choice((1, 1, 2, 3))):
        text = spoil(text, rng)
    return text


# Scripts

LOCAL_NAMES = ("x", "y", "z", "k")
TIES = ("t", "u", "v")


def instructions(behaviours, on_message, rng):
    def name():
        return rng.choice(LOCAL_NAMES + ("self",) + 3 * TIES + (("m0", "m0", "m1", "m2", "m15") if on_message else ()))

    def one():
        form = rng.choices(("spawn", "send", "drop", "keep", "work", "retire"), (22, 40, 10, 18 if on_message else 1, 8, 3))[0]
        if form == "spawn":
            return [form, rng.choice(LOCAL_NAMES), rng.choice(behaviours)]
        if form == "send":
            return [form, rng.choice((*TIES, name())), *(name() for _ in range(rng.choice((0, 0, 1, 1, 2, 3))))]
        if form == "drop":
            return [form, name()]
        if form == "keep":
            return [form, rng.choice(LOCAL_NAMES), rng.choice(("m0", "m1", "m2"))]
        return [form, rng.randint(0, 20)] if form == "work" else [form]

    return [one() for _ in range(rng.randint(1, 9))]


def rows(nodes, count, rng):
    if nodes < 2:
        return []
    chosen = {(*rng.sample(range(nodes), 2), rng.choice((0, 0, 0, 1, 1, 2, 3, 5))) for _ in range(count)}
    return [{"from": source, "to": to, "number": number} for source, to, number in sorted(chosen)]


def legal_script(rng):
    nodes = rng.choice(SIZES)
    names = [f"b{number}" for number in range(rng.randint(1, 5))]
    behaviours = [{"name": name} for name in names]
    for behaviour in behaviours:
        for key in ("wake", "message"):
            if rng.random() < 0.85:
                behaviour[key] = instructions(names, key == "message", rng)
    count = rng.randint(0, 8)
    seeds = [{"node": rng.randrange(nodes), "behaviour": rng.choice(names), "wakes": rng.choice((0, 1, 2, 3, 5, 20))} for _ in range(count)]
    ties = {}
    for _ in range(3 * count if count > 1 else 0):
        owner, target = rng.sample(range(count), 2)
        ties[owner, rng.choice((*TIES, "x"))] = target
    script = {"nodes": nodes, "behaviours": behaviours, "seeds": seeds, "turns": rng.choice((1, 3, 10, 40, 70, 130))}
    script["ties"] = [{"from": owner, "to": target, "as": name} for (owner, name), target in ties.items()]
    script["losses"] = rows(nodes, rng.choice((0, 1, 4, 10)), rng)
    script["repeats"] = rows(nodes, rng.choice((0, 1, 4, 10)), rng)
    script["crashes"] = [
        {"node": node, "after": rng.choice((1, 1, 2, 3, 5, 10))} for node in rng.sample(range(nodes), rng.randint(0, min(nodes, 3)))
    ]
    for key in ("ties", "losses", "repeats", "crashes"):
        if rng.random() < 0.2:
            del script[key]
    return script


# Of each object its keys in order: whether it is required, a value of a wrong kind, and one out of range.
KEYS = {
    "script": {
        "nodes": (True, "1", 17), "behaviours": (True, {}, [{"name": f"c{number}"} for number in range(257)]), "seeds": (True, 1, None),
        "ties": (False, None, None), "losses": (False, {}, None), "repeats": (False, "", None), "crashes": (False, 0, None),
        "turns": (True, 1.5, 0),
    },
    "behaviour": {
        "name": (True, 1, "B"), "wake": (False, {}, [["retire"]] * 65), "message": (False, [["send"]], [["work", 10001]]),
    },
    "seed": {"node": (True, -1, 16), "behaviour": (True, None, "no way"), "wakes": (True, True, 1000001)},
    "tie": {"from": (True, "0", 4096), "to": (True, [], 4096), "as": (True, 7, "self")},
    "loss": {"from": (True, 0.5, 16), "to": (True, "1", 16), "number": (True, None, 1000000)},
    "repeat": {"from": (True, {}, 16), "to": (True, -1, 16), "number": (True, "", 1000000)},
    "crash": {"node": (True, "x", 16), "after": (True, 1e30, 0)},
}
ARRAYS = {"behaviours": "behaviour", "seeds": "seed", "ties": "tie", "losses": "loss", "repeats": "repeat", "crashes": "crash"}


def one_fault(script, rng):
    """Puts one fault into the script; the answer is the words of that fault, or None where nothing was changed."""
    objects = [("script", script)] + [(kind, one) for key, kind in ARRAYS.items() for one in script.get(key, ())]
    kind, one = rng.choice(objects if rng.random() < 0.8 else objects[:1])
    key = rng.choice(list(KEYS[kind]))
    required, wrong_kind, out_of_range = KEYS[kind][key]
    way = rng.choice(("key", "missing", "kind", "range", "member", "unknown"))
    if way == "key":
        one["more"] = None
        return f"key {kind}"
    if way == "missing" and required:
        one.pop(key)
        return f"missing {key}"
    if way == "kind":
        one[key] = wrong_kind
        return f"kind {key}"
    if way == "range" and out_of_range is not None:
        one[key] = out_of_range
        return f"range {key}"
    if way == "member":
        array = rng.choice([name for name in ARRAYS if name in script])
        script[array].insert(rng.randint(0, len(script[array])), rng.choice((None, 1, "", [], True)))
        return f"kind {ARRAYS[array]}"
    if way == "unknown" and script["seeds"]:
        rng.choice(script["seeds"])["behaviour"] = "nobody"
        return "unknown-behaviour nobody"
    return None


def faulty_script(rng):
    """The text of a script at fault and the words of its fault, or None where nothing is known of it."""
    script = legal_script(rng)
    if rng.random() < 0.7:
        fault = one_fault(script, rng)
        return json.dumps(script).encode(), fault
    text = json.dumps(script).encode()
    if rng.random() < 0.5:
        return text[: rng.randrange(len(text))], "json"
    for _ in range(rng.choice((1, 2, 5))):
        text = misspell_line(text, rng)
    return text, None
