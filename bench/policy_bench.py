#!/usr/bin/env python3
"""What look-ups and changes of a policy cost, beside look-ups in sorted vectors.

  python3 bench/policy_bench.py                    10, 1,000 and 65,536 users; some minutes
  python3 bench/policy_bench.py --users 65536      so many users alone
  python3 bench/policy_bench.py --roles 4096       only the changes of 65,536 users, of so many roles, and syncs of their DAGs
  python3 bench/policy_bench.py --build            proves and builds the program of bench/policy/ anew, and measures nothing

A program of its own, bench/policy/, over the proved crate af_policy makes a policy of so many users and puts the same users into
two vectors, in order of their names and of their digests. In each round it looks up every user once, in an order without rule, by digest and by name:
in the policy; in the vector by binary search, comparing first eight bytes as a number and then all (vector); and comparing all bytes at once (plain).
policy_baseline.rs, in Rust with std alone, looks the same users up in sorted vectors of its own, comparing all bytes at once (Rust); both programs run in turn.
Then it changes users one after the other, each to another token and a role, and keeps each version; what that takes of memory is told of 65,536 users,
by the most that runs with more and with fewer changes held. Figures are medians of the rounds, and a ratio is that of one round, its median. `alike` is said of names that have their first bytes in common, and `apart` of others.
With --roles it changes users, or roles, or takes over the access control of DAGs that one role each has a permission on.
"""
import argparse
import os
import statistics
import subprocess
import sys

from building import OUT, build, build_plain

PROGRAM, BASELINE = os.path.join(OUT, "policy"), os.path.join(OUT, "policy_baseline")
TURNS = 5
DEFAULT_ROLES = 5


def rounds(users, count, names):
    """The nanoseconds of each operation, a list with a figure a round for each name of what is measured. Both programs run so many rounds in each of
    some turns."""
    figures = {}
    for turn in range(TURNS):
        both = [[PROGRAM, str(users), str(count), "500", names, "0", "user"], [BASELINE, str(users), str(count), names]]
        for words in both[::-1] if turn % 2 else both:
            output = subprocess.run(words, stdout=subprocess.PIPE, check=True, text=True).stdout
            for parts in map(str.split, output.splitlines()):
                if len(parts) == 4:
                    figures.setdefault(parts[0], []).append(int(parts[1]) / int(parts[2]))
    return figures


def peak(users, changes, names, roles=0, what="user"):
    """The most bytes that a run held, whose one round keeps so many changes."""
    ran = subprocess.Popen([PROGRAM, str(users), "1", str(changes), names, str(roles), what], stdout=subprocess.DEVNULL)
    _, status, used = os.wait4(ran.pid, 0)
    ran.returncode = os.waitstatus_to_exitcode(status)
    if ran.returncode:
        sys.exit(f"policy_bench.py: {PROGRAM} ended with status {ran.returncode}")
    return used.ru_maxrss * 1024


def kept(users, names, roles=0, what="user", count=10_000):
    """The bytes that a change takes while the version before it is kept, too."""
    return (peak(users, count + 500, names, roles, what) - peak(users, 500, names, roles, what)) / count


def of_roles(users, roles, count):
    """What a change takes where there are so many roles: of a user, of a role, and the access control of a DAG taken over."""
    print(f"{users:,} users, {roles + DEFAULT_ROLES:,} roles; medians of {count} rounds; load {os.getloadavg()[0]:.1f}.")
    for what in ("user", "role", "sync"):
        words = [PROGRAM, str(users), str(count), "500", "alike", str(roles), what]
        output = subprocess.run(words, stdout=subprocess.PIPE, check=True, text=True).stdout
        parts = [line.split() for line in output.splitlines() if line.startswith("change ")]
        if any(it[3] != "500" for it in parts):
            sys.exit(f"policy_bench.py: some changes were refused ({what})")
        us = statistics.median(int(it[1]) / int(it[2]) / 1_000 for it in parts)
        print(f"{what:8}{us:9.1f} us{kept(users, 'alike', roles, what, 40_000) / 1_000:10.1f} KB", flush=True)


def ratio(figures, what, other):
    pairs = zip(figures[what], figures[other])
    return statistics.median(ours / theirs for ours, theirs in pairs)


def main():
    parser = argparse.ArgumentParser(description=__doc__, formatter_class=argparse.RawDescriptionHelpFormatter)
    parser.add_argument("--users", type=int, action="append")
    parser.add_argument("--rounds", type=int, default=5, help=f"in each of {TURNS} turns; 5")
    parser.add_argument("--roles", type=int)
    parser.add_argument("--build", action="store_true")
    args = parser.parse_args()
    if args.build or not os.path.exists(PROGRAM):
        build("policy", "af_names af_policy af_role")
    if args.build:
        return
    if args.roles:
        for users in args.users or [65_536]:
            of_roles(users, args.roles - DEFAULT_ROLES, args.rounds * TURNS)
        return
    build_plain("policy_baseline")
    print(f"Medians of {args.rounds * TURNS} rounds; load {os.getloadavg()[0]:.1f}.\n")
    print(f"{'':28}{'policy':>10}{'of vector':>12}{'of plain':>12}{'of Rust':>12}{'a change':>12}")
    for users in args.users or (10, 1_000, 65_536):
        for names in ("alike", "apart"):
            figures = rounds(users, args.rounds, names)
            for kind in ("digest", "name"):
                ns = statistics.median(figures[f"{kind}_policy"])
                ratios = [ratio(figures, f"{kind}_policy", f"{kind}_{other}") for other in ("vector", "plain", "rust")]
                change = f"{statistics.median(figures['change']) / 1_000:9.1f} us" if kind == "name" else ""
                if kind == "name" and users == 65_536:
                    change += f"{kept(users, names) / 1_000:10.1f} KB"
                print(f"{users:>7,} {names:6} by {kind:11}{ns:7.0f} ns{ratios[0]:12.2f}{ratios[1]:12.2f}{ratios[2]:12.2f}{change:>12}", flush=True)


if __name__ == "__main__":
    main()
