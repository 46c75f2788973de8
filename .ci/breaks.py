"""Breaks a JSON in one place."""

import json
import random

WAYS = ["cut", "byte", "dropped", "turned", "doubled", "changed", "swapped"]
# What comes in place of a value, and of a letter.
OTHERS = [None, True, 0, -1, 1.5, 10**30, "", "x", "../..", [], {}, [[]], [{}], {"": None}]
LETTERS = [*"/.@# *^:(\\\"0aé\n\0\ud800", "", "dep:", "?/"]


def places_in(data):
    """Each place in a JSON: what holds it, and its key there."""
    places, holders = [], [data]
    for holder in holders:
        keys = list(holder) if isinstance(holder, dict) else range(len(holder))
        places += [(holder, key) for key in keys]
        holders += [holder[key] for key in keys if isinstance(holder[key], (dict, list))]
    return places


def cut_or_byte(drawn, way, given):
    """The first bytes alone, or all with one changed."""
    place = drawn.randrange(len(given))
    return given[:place] + (b"" if way == "cut" else drawn.randbytes(1) + given[place + 1 :]), f"{way} {place}"


def changed(drawn, text):
    """The text with a letter more, or another one."""
    place = drawn.randrange(len(text) + 1)
    return text[:place] + drawn.choice(LETTERS) + text[place + drawn.randrange(2) :]


def broken(text, number):
    """A JSON with one thing changed, and what that is."""
    drawn = random.Random(number)
    way = drawn.choice(WAYS)
    if way in ("cut", "byte"):
        return cut_or_byte(drawn, way, text.encode())
    data = json.loads(text)
    places = places_in(data)
    strings = [(holder, key) for holder, key in places if isinstance(holder[key], str)]
    listed = [(holder, key) for holder, key in places if isinstance(holder, list)]
    holder, key = drawn.choice({"doubled": listed, "changed": strings, "swapped": strings}.get(way, places))
    was, (other, place) = holder[key], drawn.choice(strings)
    if way == "dropped":
        del holder[key]
    elif way == "doubled":
        holder.insert(key, was)
    elif way == "turned":
        holder[key] = drawn.choice(OTHERS)
    else:
        holder[key] = changed(drawn, was) if way == "changed" else other[place]
    return json.dumps(data).encode(), f"{way} {was!s:.100} at {key}"
