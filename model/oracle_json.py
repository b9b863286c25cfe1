"""JSON as afplane reads and writes it: part of oracle.py."""
import json
import re

DEEPEST = 127


def whole_number(text):
    """An integer of 64 bits; any other number is a float, and one past the floats is no JSON here."""
    if text != "-0" and len(text) <= 20 and -(2**63) <= int(text) < 2**64:
        return int(text)
    return real_number(text)


def real_number(text):
    value = float(text)
    if value in (float("inf"), float("-inf")):
        raise ValueError("a number past the floats")
    return value


def no_constant(text):
    raise ValueError(text)


def check_texts(value):
    if isinstance(value, str):
        value.encode("utf-8")  # fails at half a pair of surrogates
    elif isinstance(value, list):
        for it in value:
            check_texts(it)


def read_object(pairs):
    for name, value in pairs:
        check_texts(name)
        check_texts(value)
    return dict(pairs)


def read_json(data):
    """The value that the bytes write; a ValueError where they write none."""
    text = data.decode("utf-8")
    depth = deepest = 0
    for it in re.findall(r'"(?:[^"\\]|\\.)*"|[][{}]', text, re.DOTALL):
        depth += {"[": 1, "{": 1, "]": -1, "}": -1}.get(it, 0)
        deepest = max(deepest, depth)
    if deepest > DEEPEST:
        raise ValueError(f"lists and objects nested deeper than {DEEPEST}")
    value = json.loads(
        text,
        object_pairs_hook=read_object,
        parse_int=whole_number,
        parse_float=real_number,
        parse_constant=no_constant,
    )
    check_texts(value)
    return value


def json_fault(why):
    """What is wrong with bytes that write no value, on one line."""
    return f"{why.msg} at line {why.lineno}, column {why.colno}" if isinstance(why, json.JSONDecodeError) else str(why)


def compact(value):
    """A value's bytes: no spaces, members in byte order of their names, and nothing escaped that need not be."""
    return json.dumps(value, separators=(",", ":"), ensure_ascii=False, sort_keys=True).encode()
