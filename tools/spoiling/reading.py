"""Which texts are JSON for the program, by docs/FORMATS.md, and their values. A text takes as long as Python's json takes to read it."""
import json
import re


class NoJson(Exception):
    pass


def number(text):
    value = float(text)
    if value in (float("inf"), float("-inf")):
        raise NoJson("a number that is too large")
    return int(text) if len(text) < 19 and re.fullmatch("-?[0-9]+", text) else value


def constant(text):
    raise NoJson(text)


def has_half_pair(text):
    return any("\ud800" <= char <= "\udfff" for char in text)


def members(pairs):
    for key, value in pairs:
        checked(key)
        checked(value)
    return dict(pairs)


def checked(value):
    if isinstance(value, str) and has_half_pair(value):
        raise NoJson("half a surrogate pair")
    if isinstance(value, list):
        for entry in value:
            checked(entry)


def levels(text):
    """How many levels a JSON text nests, or 0 where it can't be more than 127."""
    if text.count("[") + text.count("{") <= 127:
        return 0
    deepest = level = 0
    for mark in re.sub(r'"(\\.|[^"\\])*"', "", text):
        level += (mark in "[{") - (mark in "]}")
        deepest = max(deepest, level)
    return deepest


def value_of(text):
    """The value of a JSON text."""
    try:
        text = text.decode()
        value = json.loads(text, object_pairs_hook=members, parse_float=number, parse_int=number, parse_constant=constant)
        checked(value)
    except (ValueError, RecursionError) as error:
        raise NoJson(str(error)) from None
    if levels(text) > 127:
        raise NoJson("nested too deep")
    return value


def is_json(text):
    try:
        value_of(text)
        return True
    except NoJson:
        return False
