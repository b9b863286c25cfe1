#!/usr/bin/env python3
"""Writes a configuration of afplane from what Airflow 2 exports.

    airflow roles export roles.json          (or: airflow roles list --permission --output json > roles.json)
    airflow users export users.json
    airflow dags list --output json > dags.json
    tools/from_airflow.py --roles roles.json --users users.json --dags dags.json --tokens tokens.txt afplane.json

Each file is optional. Every user gets a new token. The tokens are written once, one line of name, tab and token per user: to
standard output, or to the file of --tokens, which only its owner can read. The configuration has only their SHA-256.
What has no counterpart here is left out, and standard error says so with the reason.
"""
import argparse
import hashlib
import json
import os
import secrets
import sys

from airflow_exports import Unusable, read_dags, read_roles, read_users
from airflow_permissions import DAG_ID, DEFAULT_ROLES, LABEL, in_order, is_dag_id, is_label, listed, shown, whole_of, why_not

MOST_ROLES, MOST_USERS, MOST_DAGS, MOST_BYTES = 4096, 65536, 1024, 16 * 1024 * 1024
PLACEHOLDER = "placeholder"


class Draft:
    """The configuration in the making, and what is left out of it."""

    def __init__(self, tell):
        self.tell = tell
        self.roles, self.users, self.dags = [], [], []
        self.left_out = 0

    def leave_out(self, what, why):
        self.left_out += 1
        self.tell(f"{what}: left out: {why}")

    def add_roles(self, roles, untold):
        for name, pairs in sorted(roles.items()):
            if name in DEFAULT_ROLES:
                if name not in untold:
                    self.compare_default(name, {it for it in pairs if why_not(*it) is None})
            elif not is_label(name):
                self.leave_out(f"role {name!r}", f"{LABEL}: rename it in the files of roles and of users")
            else:
                self.add_role(name, {*pairs}, name in untold)
        if len(self.roles) + len(DEFAULT_ROLES) > MOST_ROLES:
            most = MOST_ROLES - len(DEFAULT_ROLES)
            raise Unusable(f"{len(self.roles)} roles are too many: at most {most} stand beside the default ones; take some out")

    def add_role(self, name, pairs, is_untold):
        if is_untold:
            self.leave_out(
                f"permissions of role {name!r}",
                "this export names roles alone; if your Airflow has it, give what 'airflow roles list --permission --output json' writes",
            )
        reasons = {}
        for pair in pairs:
            reasons.setdefault(why_not(*pair), set()).add(pair)
        kept = reasons.pop(None, set())
        for reason, without in sorted(reasons.items()):
            self.tell(f"role {name!r}: no place for {shown(listed(without))}: {reason}")
        actions = [{"action": {"name": action}, "resource": {"name": it}} for it, action in sorted(kept, key=in_order)]
        self.roles.append({"name": name, "actions": actions})

    def compare_default(self, name, pairs):
        """Tells how Airflow's role differs from the one of this name that is always there."""
        here = DEFAULT_ROLES[name]
        more = {it for it in pairs - here if (whole_of(it[0]), it[1]) not in here}
        fewer = here - pairs
        if more:
            self.tell(f"role {name!r}: is built in, and lacks here: {listed(more)}; a role of another name can grant it")
        if fewer:
            self.tell(f"role {name!r}: is built in, and grants more here: {listed(fewer)}; who should not have it needs another role")

    def add_users(self, users, token):
        known = {*DEFAULT_ROLES, *(it["name"] for it in self.roles)}
        tokens = []
        for name, roles in sorted(users.items()):
            if not is_label(name):
                self.leave_out(f"user {name!r}", f"{LABEL}: rename the user in the file of users")
                continue
            for it in sorted({*roles} - known):
                self.leave_out(f"role {it!r} of user {name!r}", "no such role is written; see the file of roles")
            made = token()
            digest = hashlib.sha256(made.encode()).hexdigest()
            kept = [{"name": it} for it in sorted({*roles} & known)]
            self.users.append({"username": name, "roles": kept, "token_sha256": digest})
            tokens.append((name, made))
        if len(self.users) > MOST_USERS:
            raise Unusable(f"{len(self.users)} users are too many: there is room for {MOST_USERS}; take some out")
        if not any({"name": "Admin"} in it["roles"] for it in self.users):
            raise Unusable("no user has the role Admin, and some user has to: --admin NAME gives it to NAME")
        return tokens

    def add_dags(self, dags):
        unsaid = []
        for name, is_paused in sorted(dags.items()):
            if not is_dag_id(name):
                self.leave_out(f"DAG {name!r}", DAG_ID)
                continue
            unsaid += [name] if is_paused is None else []
            tasks = [{"task_id": PLACEHOLDER}]
            self.dags.append({"dag_id": name, "is_paused": is_paused is not False, "tasks": tasks})
        for name in unsaid:
            self.tell(f"DAG {name!r}: Airflow does not say whether it is paused; it is paused here")
        if len(self.dags) > MOST_DAGS:
            raise Unusable(f"{len(self.dags)} DAGs are too many: there is room for {MOST_DAGS}; take some out")
        if self.dags:
            self.tell(f"Each DAG gets one task, {PLACEHOLDER!r}, and no schedule: `airflow dags list` exports neither. Add the real ones by hand.")

    def text(self):
        """The configuration, a row a line."""
        lists = {"roles": self.roles, "users": self.users, "dags": self.dags}
        parts = [f"{json.dumps(name)}: [\n  " + ",\n  ".join(map(json.dumps, rows)) + "]" for name, rows in lists.items() if rows]
        text = "{" + ",\n".join(parts) + "}\n"
        if len(text) > MOST_BYTES:
            raise Unusable(f"the configuration has {len(text)} bytes, and at most {MOST_BYTES} are read; take rows out")
        return text


# ---- Writing it ---------------------------------------------------------------------------------------------


def write_new(path, text, mode):
    """Writes a file that is not there yet."""
    with os.fdopen(os.open(path, os.O_WRONLY | os.O_CREAT | os.O_EXCL, mode), "w", encoding="ascii") as out:
        out.write(text)


def tell_tokens(told):
    if sys.stdout is None:
        raise Unusable("there is no standard output for the tokens; --tokens FILE writes them into a file")
    try:
        print(told, end="", flush=True)
    except OSError:
        # What is left in the buffer would be tried again at the end.
        os.dup2(os.open(os.devnull, os.O_WRONLY), sys.stdout.fileno())
        raise


def write(asked, text, tokens):
    """Writes the configuration last, so that none stands whose tokens were not told."""
    part = f"{asked.config}.part"
    told = "".join(f"{name}\t{token}\n" for name, token in tokens)
    try:
        write_new(part, text, 0o666)
        try:
            if asked.tokens is None:
                tell_tokens(told)
            else:
                if asked.force and os.path.lexists(asked.tokens):
                    os.remove(asked.tokens)
                write_new(asked.tokens, told, 0o600)
            os.replace(part, asked.config)
        except (OSError, Unusable):
            os.remove(part)
            raise
    except OSError as fault:
        raise Unusable(f"{fault.filename or 'standard output'}: can not be written: {fault.strerror}") from fault


def words_of(words):
    usage = "%(prog)s [--roles FILE] [--users FILE] [--dags FILE] [OPTION..] CONFIG"
    parser = argparse.ArgumentParser(
        prog="from_airflow.py",
        usage=usage,
        description=__doc__,
        formatter_class=argparse.RawDescriptionHelpFormatter,
        epilog="Status: 0 CONFIG is written, 1 nothing is written and standard error says why, 2 usage error.\n"
        "FILE can be - for standard input. Airflow's export does not say who is inactive, so remove such users from the file first.",
    )
    parser.add_argument("config", metavar="CONFIG", help="the configuration to write")
    parser.add_argument("--roles", metavar="FILE", help="what 'airflow roles export FILE' wrote, --pretty or not")
    parser.add_argument("--users", metavar="FILE", help="what 'airflow users export FILE' wrote")
    parser.add_argument("--dags", metavar="FILE", help="what 'airflow dags list --output json' wrote")
    parser.add_argument("--admin", metavar="NAME", help="give this user the role Admin; a user who is not in the file is added")
    parser.add_argument("--tokens", metavar="FILE", help="write the tokens to this file, which only its owner can read (mode 600)")
    parser.add_argument("--force", action="store_true", help="replace CONFIG and the file of --tokens if they exist")
    parser.add_argument("--strict", action="store_true", help="write nothing, with status 1, if a role, user or DAG is left out")
    asked = parser.parse_args(words)
    asked.tokens = None if asked.tokens == "-" else asked.tokens
    files = [it for it in (asked.roles, asked.users, asked.dags) if it is not None]
    if not files:
        parser.error("give one of --roles, --users and --dags")
    if files.count("-") > 1:
        parser.error("only one file can be standard input")
    if asked.admin is not None and not is_label(asked.admin):
        parser.error(f"--admin: {LABEL}")
    if asked.tokens is not None and os.path.realpath(asked.tokens) == os.path.realpath(asked.config):
        parser.error("--tokens: this is CONFIG; write the tokens to another file")
    return asked


def convert(asked, tell, token):
    """The configuration's text and the tokens, by name."""
    draft = Draft(tell)
    if asked.roles is not None:
        draft.add_roles(*read_roles(asked.roles, tell))
    users = {} if asked.users is None else read_users(asked.users, tell)
    if asked.admin is not None:
        users[asked.admin] = [*users.get(asked.admin, []), "Admin"]
    tokens = draft.add_users(users, token)
    if asked.dags is not None:
        draft.add_dags(read_dags(asked.dags, tell))
    if asked.strict and draft.left_out:
        raise Unusable(f"{draft.left_out} left out, as reported above, and --strict allows none")
    text = draft.text()
    counts = ((draft.roles, "roles"), (draft.users, "users"), (draft.dags, "DAGs"))
    tell(f"{asked.config}: {', '.join(f'{len(rows)} {name}' for rows, name in counts)}; left out: {draft.left_out}")
    return text, tokens


def main(words, token=lambda: secrets.token_urlsafe(32)):
    asked = words_of(words)

    def tell(line):
        print(f"from_airflow: {line}", file=sys.stderr)

    try:
        for path in (asked.config, asked.tokens):
            if path is not None and os.path.lexists(path) and not asked.force:
                raise Unusable(f"{path}: already exists; --force replaces it, and gives every user a new token")
        text, tokens = convert(asked, tell, token)
        write(asked, text, tokens)
    except Unusable as fault:
        tell(fault)
        return 1
    where = "standard output" if asked.tokens is None else asked.tokens
    tell(f"Wrote {len(tokens)} token{'s' * (len(tokens) != 1)} to {where}. This is the only copy; the configuration has their SHA-256.")
    return 0


if __name__ == "__main__":
    sys.exit(main(sys.argv[1:]))
