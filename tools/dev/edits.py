"""Mutants as texts: how mutants/CRATE.edits is read, and what an edit makes of a crate's files.

An edit is a line 'file: PATH' and then pairs of lines 'old: TEXT' and 'new: TEXT'. Each old text stands exactly once in that file, as the
pairs before it have left it. mutants/CRATE.edits has many edits, each below a heading '## NAME'; crates/CRATE/must-fail/NAME.edit has one.
"""
import os
import re


class Unusable(Exception):
    """Why an edit cannot be applied."""


def edits_in(text):
    """The edits of a file of mutants/, by name."""
    before, *parts = re.split(r"(?m)^## (.*)\n", text)
    names = parts[0::2]
    twice = [it for it in names if names.count(it) > 1]
    if before.strip() or twice:
        raise Unusable(f"there are two mutants named {twice[0]}" if twice else "its first line is no heading '## NAME'")
    return {name: block.rstrip("\n") + "\n" for name, block in zip(names, parts[1::2])}


def applied(edit, folder):
    """The new texts of the files that the edit changes, by their path in the crate's folder."""
    path, old, texts = None, None, {}
    for line in edit.rstrip("\n").split("\n"):
        kind, _, rest = line.partition(":")
        rest = rest[1:] if rest.startswith(" ") else rest
        if kind == "file":
            path = rest.strip()
        elif kind == "old":
            old = rest
        elif kind == "new" and path and old:
            if path not in texts:
                texts[path] = text_of(path, folder)
            count = texts[path].count(old)
            if count != 1:
                raise Unusable(f"an old text is in {path} {count} times, and not once: {old}")
            texts[path], old = texts[path].replace(old, rest), None
        else:
            raise Unusable(f"a line that is none of an edit, or not in its place: {line}")
    if not texts or old:
        raise Unusable("it has no pair of an old and a new text" if not texts else f"an old text has no new one: {old}")
    if all(texts[it] == text_of(it, folder) for it in texts):
        raise Unusable("it changes nothing")
    return texts


def text_of(path, folder):
    if not re.match(r"(src|specs|proofs)/", path) or os.path.normpath(path) != path:
        raise Unusable(f"{path} is no path below src/, specs/ or proofs/")
    try:
        with open(os.path.join(folder, path), encoding="utf-8", newline="") as file:
            return file.read()
    except OSError:
        raise Unusable(f"there is no file {path}") from None
