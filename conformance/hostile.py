#!/usr/bin/env python3
"""Attacks the built server, on this machine alone and for about two minutes, while clients that behave ask it and then alone.

  python3 conformance/hostile.py
  python3 conformance/hostile.py --program 'PATH/PROGRAM' --seed 7 --only reset

The attacks (attacks.py): connections that are reset in a request, in an answer, or before a worker takes them; peers that are gone, or end one side and never
close; a byte a write; heads, lines and bodies at and past each limit (limit_cases.py), cut anywhere, or of random bytes; ten thousand requests in one write;
readers that never read; and two silent peers for every worker. What an attack is told must be what the model writes, and silent peers are ended in their time.
Meanwhile six clients of many_clients.py play, and history.py checks all their answers at the end: so no cut request had an effect.

Then the attacks are played once more alone. After that the server has as many files open as before, and its memory has grown by a few MB at most. At last each
worker is held by a silent peer, with nothing else to do: the next client is answered within eleven seconds. And each worker still serves.

The last line is `N passed, M failed`, N the connections of attacks and the answers that were compared. The status is 0 only where M is 0. Linux alone.
"""
import argparse
import contextlib
import shlex
import shutil
import sys
import threading
import time
from concurrent.futures import ThreadPoolExecutor

import with_model  # noqa: F401
import crowd_cases
import growth
from attacks import ATTACKS, TOKEN, WORKERS, Turn, Untimely, Wrong, compare, config_of, each_held
from history import fault
from many_clients import Player, all_rows
from request_cases import PLAIN
from serving import PROGRAM, Broken, Client, Serving

GUESTS, MOST_SECONDS = 6, 240
# What memory may grow by while the attacks are played for the second time: all buffers have the size that they keep, nobody changes the policy, and the
# entries of the scheduler take little.
ALONE_BYTES = 4 << 20
SETTLES, SERVES = 15, 8  # seconds: a little longer than a silent peer may take, and shorter than one that idles may
# With a full backlog the system drops what peers send, and they send it again, later and later. So a request may not be whole in the time that a peer is given,
# and the connection ends without an answer: what lasted so many seconds is tried again, so often at most. That is counted, and may be so often in all.
GIVEN, TIMES, MOST_AGAIN = 9.5, 3, 5


class Attacks:
    """What the attacks came to."""

    def __init__(self, port, seed, kinds):
        self.port, self.seed, self.kinds, self.until = port, seed, kinds, time.monotonic() + MOST_SECONDS
        self.count, self.again, self.faults, self.kept, self.sessions, self.lock = 0, 0, [], [], [], threading.Lock()

    def one(self, attack, number, part):
        for turn in range(1, TIMES + 1):
            began = time.monotonic()
            wrong = self.fault(attack, number, part)
            if wrong is None or isinstance(wrong, Untimely) or turn == TIMES or time.monotonic() - began < GIVEN:
                break
            with self.lock:
                self.again += 1
        with self.lock:
            self.count += 1
            self.faults += [f"{attack.__name__} {number}: {str(wrong) or repr(wrong)}"] if wrong else []

    def fault(self, attack, number, part):
        """What is wrong with a connection, or None."""
        try:
            if time.monotonic() > self.until:
                raise Wrong(f"the attacks were to end within {MOST_SECONDS} s")
            attack(self.port, Turn(f"{self.seed} {part} {attack.__name__}", number, self.kept, self.sessions))
        except (Wrong, Broken, OSError) as why:
            return why
        return None

    def play(self, part):
        """All of them at once, each by its own threads, for the first time or the second."""
        ended = []
        with contextlib.ExitStack() as pools:
            for attack, count, threads in self.kinds:
                pool = pools.enter_context(ThreadPoolExecutor(threads))
                ended += [pool.submit(self.one, attack, number, part) for number in range(count)]
        for it in ended:
            it.result()

    def close(self):
        """Closes the streams that peers left open."""
        while self.kept:
            self.kept.pop().close()


class Guest(Player):
    """A client that behaves. It takes another connection where one had no answer at all in the time that a peer is given, and counts how often."""

    again = 0

    def connection(self):
        began = time.monotonic()
        try:
            super().connection()
        except Broken:
            if self.sessions[-1:] != [[]] or time.monotonic() - began < GIVEN:
                raise
            self.again += 1


def settled(server, wanted):
    """Waits until no more files are open than before; how many there are then."""
    until = time.monotonic() + SETTLES
    while (found := server.open_files()) > wanted and time.monotonic() < until:
        time.sleep(0.1)
    return found


def every_worker(port, workers):
    """That each worker serves: so many connections are answered while all are kept open. What is wrong, or None."""
    with contextlib.ExitStack() as kept:
        for number in range(workers):
            try:
                compare(PLAIN, kept.enter_context(Client(port, SERVES)).ask(PLAIN).answer)
            except (Wrong, Broken, OSError) as why:
                return f"of {workers} connections at once, {number} were served: {why}"
    return None


def sample(server, sessions):
    counts = growth.counts_of(server.port, TOKEN, sessions)
    return growth.Sample(time.monotonic(), server.memory(), *counts)


def growth_fault(first, last):
    """That memory grew by too much while the attacks were played alone, or None."""
    return f"in attacks alone {growth.said_of(first, last)}, and may by {ALONE_BYTES / 1e6:.1f} MB" if growth.growth(first, last)[0] > ALONE_BYTES else None


def again_fault(attacks, threads):
    """That too many connections were tried again, or None."""
    count = attacks.again + sum(it.again for it in threads)
    return f"{count} connections had no answer in their time and were tried again, and {MOST_AGAIN} may be" if count > MOST_AGAIN else None


def attacked(server, attacks, threads, sessions):
    """Plays the attacks while the clients play, and then alone. What came of it, and what is wrong of clients, open files, workers and memory."""
    at_rest = server.open_files()
    for it in threads:
        it.start()
    attacks.play("first")
    for it in threads:
        it.until = 0
    for it in threads:
        it.join()
    settled(server, at_rest)
    first = sample(server, sessions)
    attacks.play("second")
    files, last = settled(server, at_rest), sample(server, sessions)
    wrong = [f"client {place}: {it.broken}" for place, it in enumerate(threads) if it.broken]
    if files != at_rest:
        wrong.append(f"{at_rest} files were open before, and {files} are now")
    took, held = each_held(server.port, server.workers)
    wrong += [it for it in (held, every_worker(server.port, server.workers), growth_fault(first, last), again_fault(attacks, threads)) if it]
    return [
        f"{files} files are open, and {at_rest} were before; in attacks alone {growth.said_of(first, last)}.",
        f"{attacks.again} connections of attacks, and {sum(it.again for it in threads)} of clients, had no answer in their time and were tried again.",
        *([] if took is None else [f"With each worker held by a silent peer the next client was answered after {took:.1f} s."]),
    ], wrong


def played(program, seed, kinds):
    """How many connections and answers were as they must be, and all that is wrong."""
    config, sessions, rows, wrong = config_of(time.time_ns() // 1000), [], [], []
    with Serving(program, config, WORKERS) as server, contextlib.closing(Attacks(server.port, seed, kinds)) as attacks:
        threads = [Guest(it, server.port, time.monotonic() + MOST_SECONDS) for it in crowd_cases.guests(seed, config, GUESTS)]
        try:
            said, wrong = attacked(server, attacks, threads, sessions)
            rows, last = all_rows(server.port, TOKEN)
        except (Broken, OSError) as why:
            return attacks.count, [*attacks.faults, *wrong, str(why)]
    sessions += attacks.sessions + last + [session for it in threads for session in it.sessions if session]
    count = sum(map(len, sessions))
    print("\n".join([f"{attacks.count} connections of attacks, and {count} answers to others.", *said]))
    wrong += attacks.faults + [it for it in (fault(config, sessions, rows), server.fault()) if it]
    return attacks.count + count, wrong


def main():
    parser = argparse.ArgumentParser(description=__doc__, formatter_class=argparse.RawDescriptionHelpFormatter)
    parser.add_argument("--program", default=PROGRAM, help="the program and its first words, as a shell would read them")
    parser.add_argument("--seed", default="1")
    parser.add_argument("--only", default="", metavar="WORD", help="the attacks with this word in their names")
    asked = parser.parse_args()
    program, kinds = shlex.split(asked.program), [it for it in ATTACKS if asked.only in it[0].__name__]
    if shutil.which(program[0]) is None:
        sys.exit(f"hostile.py: there is no program {program[0]}; ./afplane build makes it")
    try:
        count, wrong = played(program, asked.seed, kinds)
    except Broken as why:
        count, wrong = 0, [str(why)]
    for it in wrong[:20]:
        print(it[:2000])
    print(f"{max(0, count - len(wrong))} passed, {len(wrong)} failed")
    return 1 if wrong or not count else 0


if __name__ == "__main__":
    sys.exit(main())
