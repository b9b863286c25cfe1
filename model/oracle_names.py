"""Names, instants and the points of schedules, put plainly: part of oracle.py. An instant is its microseconds since 1970."""
import re
from datetime import datetime, timedelta, timezone

HOUR, DAY, MICROS = 3600, 86400, 1_000_000
LAST = (datetime(9999, 1, 1) - datetime(1970, 1, 1)) // timedelta(seconds=1) * MICROS - 1
PRESETS = ["@hourly", "@daily", "@weekly", "@monthly"]


def is_dag_id(text):
    return re.fullmatch(r"[A-Za-z0-9_.-]{1,250}", text) is not None


is_task_id = is_dag_id


def is_run_id(text):
    return text != "~" and re.fullmatch(r"[A-Za-z0-9_.~:+-]{1,250}", text) is not None


def is_label(text):
    """The name of a user or a role."""
    return re.fullmatch(r"[ -~]{1,64}", text) is not None


def is_pool_name(text):
    return re.fullmatch(r"[ -~]{1,250}", text) is not None


is_variable_key = is_pool_name


# ---- Instants ----------------------------------------------------------------------------------------------

YEAR, FRACTION = r"(\d{4}|[+-]\d{6})", r"(?:[.,](\d{1,9}))?"
DATE = rf"(?:{YEAR}-(\d\d)-(\d\d)|{YEAR}(\d\d)(\d\d))"
TIME = rf"(\d\d)(?::(\d\d)(?::(\d\d){FRACTION})?|(\d\d)(?:(\d\d){FRACTION})?)?"
OFFSET = r"(?:[Zz]|([+-])(\d\d)(?::?(\d\d)(?::?(\d\d)(?:[.,]\d{1,9})?)?)?)"
NOTES = r"(?:\[!?[A-Za-z_.][A-Za-z0-9_.+/-]*\])?(?:\[[a-z_][a-z0-9_-]*=[A-Za-z0-9-]+\])*"
INSTANT = re.compile(DATE + "[Tt ]" + TIME + OFFSET + NOTES, re.ASCII)


def instant_of(text):
    """The moment that the text states, from 1970 to the end of 9998; none where it states none."""
    found = INSTANT.fullmatch(text)
    if found is None:
        return None
    y1, m1, d1, y2, m2, d2, hour, min1, s1, f1, min2, s2, f2, sign, oh, om, os = found.groups()
    second, offset = int(s1 or s2 or 0), (int(oh or 0), int(om or 0), int(os or 0))
    try:
        clock = (int(hour), int(min1 or min2 or 0), 59 if second == 60 else second)
        there = datetime(int(y1 or y2), int(m1 or m2), int(d1 or d2), *clock)
    except ValueError:
        return None
    if offset[0] > 25 or offset[1] > 59 or offset[2] > 59:
        return None
    away = offset[0] * 3600 + offset[1] * 60 + offset[2]
    seconds = (there - datetime(1970, 1, 1)) // timedelta(seconds=1) + (away if sign == "-" else -away)
    micros = seconds * MICROS + int((f1 or f2 or "").ljust(9, "0")) // 1000
    return micros if 0 <= micros <= LAST else None


def isoformat(micros):
    return (datetime(1970, 1, 1, tzinfo=timezone.utc) + timedelta(microseconds=micros)).isoformat()


# ---- Points of a schedule ------------------------------------------------------------------------------------


def is_point(schedule, at):
    """Whether an instant at a whole hour or midnight is one of a preset's points."""
    day = at // (DAY * MICROS)
    civil = datetime(1970, 1, 1) + timedelta(days=day)
    return schedule in ("@hourly", "@daily") or schedule == "@weekly" and day % 7 == 3 or schedule == "@monthly" and civil.day == 1


def point_from(schedule, start, at):
    """The first point at or after `at` of a schedule that begins at `start`; none where instants end before it."""
    if type(schedule) is int:
        step = schedule * MICROS
        found = start + max(0, -(-(at - start) // step)) * step
        return found if found <= LAST else None
    step = (HOUR if schedule == "@hourly" else DAY) * MICROS
    at = -(-at // step) * step
    while at <= LAST:
        if is_point(schedule, at):
            return at
        at += step
    return None


def point_after(schedule, start, at):
    return point_from(schedule, start, at + 1)


def points_within(schedule, start, first, last, most):
    """The first so many points from `first` to `last`, both included, each with the next one; a point without a next one is none of them."""
    found, at = [], point_from(schedule, start, max(start, first))
    while at is not None and at <= last and len(found) < most:
        after = point_after(schedule, start, at)
        found, at = [*found, (at, after)] if after is not None else found, after
    return found
