#!/usr/bin/env python3
"""Refuses each allocation of afplane in turn, and looks at what it does then.

  python3 conformance/refusals.py                           the examples, each kind of change, event logs, readings of the policy, faults
  python3 conformance/refusals.py --program 'PATH/PROGRAM'
  python3 conformance/refusals.py --has dags,variables      the changes of these kinds alone
  python3 conformance/refusals.py --only clear,roles        the cases with one of these words in their names
  python3 conformance/refusals.py --tests                   each test that `rt test` has built, but those that compare whole answers
  python3 conformance/refusals.py --tests --only memory::   each that has this word in its name: those of modules of this name
  python3 conformance/refusals.py --tests --only memory:: --least 6         the same, and fewer tests than six are a fault
  python3 conformance/refusals.py --tests --only threads --most 300         the first 300 allocations of each test; how many were left out is said

A run is refused its first allocation, the next its second, and so on, until a run meets none to refuse. Each is to end in
one of three ways: as the run with all its memory does, which is as the oracle says; with some of its answers, whole and in
order, and then the fixed 503, status 1; or with the configuration refused for lack of memory, status 3, and nothing on standard output. A change is made once
its reply stands, so no reply of one is lost: nowhere is there a 500. Where each request names a path or a
method that is not there, the 503 comes at the opening alone.

A test is to pass, or to end in the fault that says out of memory and in no other; a run that is refused nothing is to pass. The allocations of all threads are
counted together, and a test of threads makes more or fewer of them by turns. So only several runs in a row that are refused nothing end the runs of a test.
Each test that --only names has to pass in one run at least that is refused an allocation: one that never does shows nothing of what stands after a refusal.

The last line is `N passed, M failed`, both numbers of runs; a test that shows nothing, or a test too few, counts as one that failed. The status is 0 only
where M is 0. Without a C compiler (`cc`) the status is 2.
"""
import argparse
import glob
import os
import re
import shlex
import shutil
import subprocess
import sys
import tempfile
from concurrent.futures import ThreadPoolExecutor

import with_model  # noqa: F401
import oracle
from oracle_table import GROUPS, having
from refusal_cases import EXAMPLES, OUT, ROOT, inputs

PROGRAM = os.path.join(ROOT, "crates", "afplane", "out", "afplane")
NOW = "2024-01-01T00:00:00Z"
BODY = b'{"detail":"out of memory","status":503,"title":"Service Unavailable","type":"about:blank"}'
NO_MEMORY = (
    b"HTTP/1.1 503 Service Unavailable\r\nContent-Type: application/problem+json\r\nContent-Length: 90\r\nConnection: close\r\n\r\n" + BODY
)
REFUSED = b"afplane: configuration refused: memory\n"
MOST, SECONDS = 100_000, 60  # how many allocations are refused at most, and the time of a run
# After so many runs in a row that were refused nothing, a test makes no further allocation; after so many that ended as they must not, it is given up.
TRIES, MOST_WRONG = 4, 5


def build():
    """The library that refuses, compiled into conformance/out/."""
    os.makedirs(OUT, exist_ok=True)
    library = os.path.join(OUT, "refuse.so")
    subprocess.run(["cc", "-O1", "-shared", "-fPIC", "-o", library, os.path.join(ROOT, "conformance", "refuse.c"), "-ldl"], check=True)
    return library


def answers_in(text):
    """Where each answer of an output ends, in order, the beginning counted too. A 204 has no length, and no body."""
    ends, at = [0], 0
    while at < len(text):
        head = text.index(b"\r\n\r\n", at) + 4
        lengths = [line for line in text[at:head].split(b"\r\n") if line.lower().startswith(b"content-length:")]
        at = head + (int(lengths[0].split(b":")[1]) if lengths else 0)
        ends.append(at)
    return ends


def run(program, words, data, library=None, number=0):
    """Exit status, standard output, standard error, and whether the allocation of that number was refused. Status None: it did not end.

    With number 0 none is refused, and the last is how many were asked for.
    """
    if library is None:
        it = subprocess.run([*program, *words], input=data, capture_output=True, timeout=SECONDS)
        return it.returncode, it.stdout, it.stderr, 0
    with tempfile.TemporaryFile() as told:
        env = {"LD_PRELOAD": library, "REFUSE": str(number), "REFUSE_FD": str(told.fileno())}
        try:
            it = subprocess.run([*program, *words], input=data, capture_output=True, timeout=SECONDS, env=env, pass_fds=[told.fileno()])
            status, out, err = it.returncode, it.stdout, it.stderr
        except subprocess.TimeoutExpired as why:
            status, out, err = None, why.stdout or b"", why.stderr or b""
        return status, out, err, os.fstat(told.fileno()).st_size


def run_test(program, name, library, number):
    """Exit status and output of a test, and whether the allocation of that number was refused; with number 0 how many were asked for."""
    status, out, err, met = run([program], [name], b"", library, number)
    return status, out + err, met


# Crates of tests that compare whole answers, where the fixed 503 is no fault of a test: the program itself is refused its memory.
WHOLE = {"af_http_tests_tests", "af_server_tests_tests"}
# The tests of these crates that compare none.
IN_PARTS = ("tests::memory::", "tests::operations::")
# What a test that is refused memory ends with: the fault after `Error`, or after the words for what should not fail; or the left of two that are compared.
OUT_OF_MEMORY = re.compile(rb"(: (\w+\()*(OutOfMemory|AllocError|AllocFailed|Memory)\b|left: \S*(OutOfMemory|Memory|AllocError))")


def is_passed(status, text):
    return status == 0 and b"test result: ok" in text


def is_end_of_test(status, text, met):
    """Whether a run of a test ended as it must: it passed, or it was refused an allocation and says so."""
    return is_passed(status, text) or (met and status in (101, -6) and OUT_OF_MEMORY.search(text) is not None)


class Played:
    """What the runs of a test came to: how many ended as they must, how many did not, in how many it was refused an allocation and passed, and how many
    allocations were left out."""

    def __init__(self, program, name, library):
        self.program, self.name, self.library = program, name, library
        self.right = self.wrong = self.passed = self.left = 0

    def run(self, number):
        """One run. Whether the allocation of that number was refused; with number 0 how many were asked for."""
        status, text, told = run_test(self.program, self.name, self.library, number)
        met = told if number else 0
        if is_end_of_test(status, text, met):
            self.right += 1
        else:
            what = f"allocation {number} refused" if met else "nothing refused"
            self.fail(f"{self.name}, {what}: {'it did not end' if status is None else f'status {status}'}, {text[-300:]!r}")
        self.passed += met and is_passed(status, text)
        return told

    def fail(self, why):
        self.wrong += 1
        print(why)


def refuse_each_of_test(program, name, library, most=MOST, goes_on=False):
    """Refuses a test so many of its first allocations, in a run each. `goes_on`: it has to pass in one at least of these runs."""
    it, number, unmet = Played(program, name, library), 1, 0
    while unmet < TRIES and it.wrong < MOST_WRONG and number <= most:
        met = it.run(number)
        number, unmet = number + met, 0 if met else unmet + 1
    if number > most:
        it.left = max(0, it.run(0) - most)
    if goes_on and not it.passed:
        what = f"of {number - 1} runs that were refused an allocation it passed in none" if number > 1 else "it was refused nothing in any run"
        it.fail(f"{name}: {what}, so it shows nothing of what stands after a refusal")
    return it


def tests_in(program, words):
    """The names of the tests of a program with one of these words in them; without words, of all but those that compare whole answers."""
    listed = subprocess.run([program, "--list"], capture_output=True, timeout=SECONDS, text=True).stdout
    names = [line[: -len(": test")] for line in listed.splitlines() if line.endswith(": test")]
    if words:
        return [name for name in names if has_word(name, words)]
    if os.path.basename(program) not in WHOLE:
        return names
    kept = [name for name in names if name.startswith(IN_PARTS)]
    return kept or sys.exit(f"refusals: {os.path.basename(program)} has no tests under {', '.join(IN_PARTS)}")


def has_word(name, words):
    return any(word in name for word in words)


def refuse_tests(library, words, jobs, least=0, most=MOST, top=ROOT):
    """The same of all tests that are built below a folder, so many at a time. How many runs ended as they must, and what did not, or lacks."""
    right = wrong = count = 0
    programs = sorted(glob.glob(os.path.join(top, "crates", "*", "out", "*_tests")))
    with ThreadPoolExecutor(jobs) as lanes:
        played = [(it, [lanes.submit(refuse_each_of_test, it, name, library, most, bool(words)) for name in tests_in(it, words)]) for it in programs]
        for program, tests in played:
            came = [it.result() for it in tests]
            one, other = sum(it.right for it in came), sum(it.wrong for it in came)
            if tests:
                left = "".join(f"; of {it.name} {it.left} allocations are left out" for it in came if it.left)
                print(f"{os.path.basename(program)}: {len(tests)} tests, {one} runs as they must be, {other} not{left}", flush=True)
            right, wrong, count = right + one, wrong + other, count + len(tests)
    if not count:
        print(f"refusals: no test {f'with {words} in its name ' if words else ''}is built; `rt test` builds those of a crate")
    if count < least:
        print(f"refusals: {count} tests were played, and there have to be {least} at least")
    return right, wrong + (count < least)


def refuse_program(program, library, has, words):
    """The same of the program, on the examples and the changes."""
    if not os.path.exists(program[0]):
        sys.exit(f"refusals: there is no program {program[0]}; ./afplane build makes it")
    right = wrong = 0
    for name, config, data in inputs(has):
        if not words or has_word(name, words):
            one, other = refuse_each(program, library, has, name, config, data)
            right, wrong = right + one, wrong + other
    return right, wrong


def fronts_of(text):
    """Fronts of the output that end with an answer."""
    return [text[:end] for end in answers_in(text)]


def is_right(whole, fronts, status, out, err):
    if (status, out, err) == whole or (status, out, err) == (3, b"", REFUSED):
        return True
    return status == 1 and err == b"" and out.endswith(NO_MEMORY) and out[: -len(NO_MEMORY)] in fronts


def refuse_each(program, library, has, name, config, data):
    """How many runs ended as they must, and how many did not."""
    words = ["once", os.path.join(EXAMPLES, config), NOW]
    *whole, _ = run(program, words, data)
    whole = tuple(whole)
    if whole != oracle.run(words, data, has):
        sys.exit(f"refusals: {name}, with all its memory, is not answered as the oracle says: status {whole[0]}, {whole[1][:600]!r}, {whole[2]!r}")
    fronts = fronts_of(whole[1])
    if name == "nowhere":
        fronts = fronts[:1]
    right, wrong, kinds = 0, 0, {}
    for number in range(1, MOST):
        status, out, err, met = run(program, words, data, library, number)
        if not met:
            break
        if is_right(whole, fronts, status, out, err):
            right += 1
            kind = "503" if out.endswith(NO_MEMORY) else f"status {status}"
            kinds[kind] = kinds.get(kind, 0) + 1
        else:
            wrong += 1
            print(f"{name}, allocation {number} refused: status {status}, {out[-200:]!r}, {err!r}")
    if not right + wrong:
        wrong = 1
        print(f"{name}: no allocation was refused")
    told = ", ".join(f"{count} with {kind}" for kind, count in sorted(kinds.items()))
    print(f"{name}: {right} runs as they must be ({told}), {wrong} not", flush=True)
    return right, wrong


def main():
    parser = argparse.ArgumentParser(description=__doc__.split("\n")[0])
    parser.add_argument("--program", default=PROGRAM, help="the program and its first words, as a shell would read them")
    parser.add_argument("--has", type=having, default=having("landed"), metavar="NAMES", help=f"what the program has: {', '.join(GROUPS)}, or single names")
    parser.add_argument("--tests", action="store_true", help="the tests of the crates in place of the program")
    parser.add_argument("--only", type=lambda text: text.split(","), default=[], metavar="WORD,..", help="the cases, or tests, with one of these words in their names")
    parser.add_argument("--jobs", type=int, default=1, metavar="N", help="how many tests are played at a time")
    parser.add_argument("--least", type=int, default=0, metavar="N", help="how many tests there have to be at least")
    parser.add_argument("--most", type=int, default=MOST, metavar="N", help="how many allocations of a test are refused at most, the first ones")
    asked = parser.parse_args()
    if not asked.tests and (asked.least or asked.most != MOST):
        parser.error("--least and --most need --tests")
    if shutil.which("cc") is None:
        print("refusals: a C compiler (cc) is not installed")
        return 2
    library = build()
    if asked.tests:
        right, wrong = refuse_tests(library, asked.only, asked.jobs, asked.least, asked.most)
    else:
        right, wrong = refuse_program(shlex.split(asked.program), library, asked.has, asked.only)
    print(f"{right} passed, {wrong} failed")
    return 1 if wrong or not right else 0


if __name__ == "__main__":
    sys.exit(main())
