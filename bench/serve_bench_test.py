"""Tests of the arithmetic and of the reading of serve_bench.py, and of its loads. Nothing is timed, and no program runs.

  python3 bench/serve_bench_test.py
"""
import json
import re
import unittest

import serve_bench as bench
import serve_loads as loads

ANSWER = b"HTTP/1.1 200 OK\r\nContent-Type: application/json\r\nContent-Length: 2\r\nX-Policy-Version: 12\r\nX-Plane-Seq: 345\r\n\r\n{}"


class Stream:
    """In place of a socket: gives bytes in pieces."""

    def __init__(self, *pieces):
        self.pieces = list(pieces)

    def recv(self, _):
        return self.pieces.pop(0) if self.pieces else b""


def played(load, connection):
    return [(it.bytes.split(b" ", 2)[:2], it.bytes.partition(b"\r\n\r\n")[2], it) for it in load.plays(connection)]


class Figures(unittest.TestCase):
    def test_quartiles(self):
        self.assertEqual(bench.quartiles([4, 1, 3, 2, 5]), (2, 3, 4))
        self.assertEqual(bench.quartiles([7]), (7, 7, 7))

    def test_a_ratio_is_of_one_round(self):
        ours, theirs = [{"rate": 10}, {"rate": 40}, {"rate": 90}], [{"rate": 10}, {"rate": 20}, {"rate": 30}]
        self.assertEqual(bench.ratio(ours, theirs, "rate"), "2.00 [1.50 to 2.50]")

    def test_a_row_has_a_cell_for_each_column(self):
        rounds = [{"rate": 2000.0, "p50": 20.0, "p99": 50.0, "processor": 9.04}]
        row = bench.row_of("readers alone", 4, rounds, rounds)
        self.assertEqual(row.count("|"), bench.HEAD.partition("\n")[0].count("|"))
        self.assertIn("| readers alone, 4 | 2,000, 2,000 | 1.00 [1.00 to 1.00] |", row)
        self.assertIn("| 9.0, 9.0 us |", row)

    def test_each_round_is_of_one_start(self):
        self.assertEqual(bench.parts_of(9, 3), [range(3), range(3, 6), range(6, 9)])
        self.assertEqual(bench.parts_of(5, 2), [range(2), range(2, 5)])
        self.assertEqual(bench.parts_of(1, 4), [range(1)])
        self.assertEqual([it for part in bench.parts_of(63, 9) for it in part], list(range(63)))

    def test_instructions(self):
        self.assertEqual(bench.collected(b"==7== Events    : Ir\n==7== Collected : 123456\n"), 123456)
        with self.assertRaises(SystemExit):
            bench.collected(b"no")

    def test_bytes_of_each(self):
        self.assertEqual(bench.each(2_720_000, 10_000), "272.0")
        self.assertEqual(bench.each(5, 0), "-")


class Answers(unittest.TestCase):
    def test_version_and_entries(self):
        self.assertEqual(bench.numbers_of(ANSWER), (12, 345))

    def test_answers_in_pieces(self):
        self.assertEqual(bench.whole_answers(Stream(ANSWER[:9], ANSWER[9:-1], ANSWER[-1:]), 1), [ANSWER])
        bare = b"HTTP/1.1 204 No Content\r\n\r\n"
        self.assertEqual(bench.whole_answers(Stream(bare), 1), [bare])
        both = bare + ANSWER + bare
        for at in range(len(both)):
            self.assertEqual(bench.whole_answers(Stream(both[:at], both[at:]) if at else Stream(both), 3), [bare, ANSWER, bare])

    def test_answers_that_are_cut_off_or_too_many(self):
        for pieces, count in (([ANSWER[:-1]], 1), ([ANSWER], 2), ([ANSWER, ANSWER], 3), ([ANSWER + b"H"], 1)):
            with self.assertRaises(SystemExit):
                bench.whole_answers(Stream(*pieces), count)

    def test_batches(self):
        self.assertEqual(bench.batched([1, 2, 3, 4, 5], 2), [[1, 2], [3, 4], [5]])
        self.assertEqual(bench.batched([], 2), [])

    def test_answers_that_differ_end_it(self):
        asked = loads.Asked("/api/v1/dags", 7)
        bench.same(asked, [("plain", ANSWER), ("afplane", ANSWER)])
        for other in (ANSWER[:-2] + b"[]", ANSWER[:-1], b""):
            with self.assertRaises(SystemExit):
                bench.same(asked, [("plain", ANSWER), ("afplane", other)])
        with self.assertRaises(SystemExit):
            bench.same(loads.Asked("/api/v1/dags", 7, status=403), [("plain", ANSWER)])


class Loads(unittest.TestCase):
    def test_a_record(self):
        asked = loads.Asked("/own/me", 3, is_change=True)
        line, _, rest = asked.record(2).partition(b"\n")
        self.assertEqual(line, b"2 200 1 %d" % len(rest))
        self.assertEqual(rest, asked.bytes)

    def test_a_body_is_as_long_as_its_field_says(self):
        for _, body, it in played(loads.CHANGES, 5):
            length = re.search(rb"Content-Length: (\d+)", it.bytes)
            self.assertEqual(len(body), int(length[1]) if length else 0)

    def test_one_in_ten_is_a_change_and_half_of_these_are_pauses(self):
        methods = [what[0] for what, _, _ in played(loads.CHANGES, 0)]
        self.assertEqual(sum(it != b"GET" for it in methods) * loads.EVERY, len(methods))
        of_policy = sum(it.is_change for _, _, it in played(loads.CHANGES, 0))
        self.assertEqual(of_policy * 2 * loads.EVERY, len(methods))
        self.assertEqual({what[0] for what, _, _ in played(loads.READERS, 0)}, {b"GET"})

    def test_a_round_leaves_all_as_it_was(self):
        """Of what a connection pauses or gives to a user, the last value of a round is that of the configuration."""
        made = json.loads(loads.config())
        paused = {it["dag_id"]: it["is_paused"] for it in made["dags"]}
        roles = {it["username"]: it["roles"] for it in made["users"]}
        actions = {it["name"]: it["actions"] for it in made["roles"]}
        for load in (loads.CHANGES, loads.PAUSES, loads.POLICIES):
            for connection in range(loads.CONNECTIONS):
                last = {what[1].decode(): json.loads(body) for what, body, _ in played(load, connection) if body}
                for path, body in last.items():
                    name = path.split("/")[4 if path.startswith("/api") else 3]
                    if "is_paused" in body:
                        self.assertEqual(body["is_paused"], paused[name])
                    elif "roles" in body:
                        self.assertEqual(body["roles"], roles[name])
                    elif "actions" in body:
                        self.assertEqual(body["actions"], actions[name])
                    else:
                        self.assertEqual(body["access_control"].pop(f"Own{connection}"), [])
                        self.assertEqual(list(body["access_control"].values()), [["can_read", "can_edit"]])

    def test_each_pause_changes_its_dag(self):
        for connection in range(loads.CONNECTIONS):
            paused = {}
            for what, body, _ in played(loads.PAUSES, connection):
                if body:
                    is_paused = json.loads(body)["is_paused"]
                    self.assertNotEqual(paused.get(what[1], False), is_paused)
                    paused[what[1]] = is_paused

    def test_connections_change_nothing_of_each_other(self):
        paths = [{what[1] for what, body, _ in played(loads.CHANGES, it) if body} for it in range(loads.CONNECTIONS)]
        self.assertEqual(sum(map(len, paths)), len(set().union(*paths)))

    def test_who_asks_is_changed_by_nobody(self):
        every = [it.bytes for connection in range(loads.CONNECTIONS) for it in loads.READERS.plays(connection)]
        asking = {re.search(rb"Bearer (\S+)", it)[1].decode() for it in every}
        for connection in range(loads.CONNECTIONS):
            for user in loads.own_users(connection):
                self.assertNotIn(loads.token_of(user), asking)

    def test_runs_have_dates_of_their_own(self):
        bodies = [json.loads(loads.trigger(n, 0).bytes.partition(b"\r\n\r\n")[2]) for n in range(0, 200_000, 7)]
        self.assertEqual(len({it["logical_date"] for it in bodies}), len(bodies))


if __name__ == "__main__":
    unittest.main()
