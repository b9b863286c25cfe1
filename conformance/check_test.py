"""`afplane check` on every configuration of differential.py: its verdict is the model's, and of each that is refused it says where it is wrong.

  python3 conformance/check_test.py
"""
import os
import random
import re
import tempfile
import unittest

import with_model  # noqa: F401
import check_config
import oracle
from all_cases import NOW, Random, fixed_cases
from oracle_table import LANDED

LINE = re.compile(r"afplane: configuration refused: (\w+): (the file|[a-z]\S*(?: .*)?): expected .+")


class Configurations:
    """In place of a program: checks the configuration of each case, once each."""

    has = LANDED

    def __init__(self, test):
        self.test, self.seen, self.reasons = test, set(), set()

    def case(self, name, words, data, looks=0):
        if len(words) != 3 or words[0] != "once" or words[2] != NOW:
            return
        held = None
        if os.path.isfile(words[1]):
            with open(words[1], "rb") as file:
                held = hash(file.read())
        if held in self.seen:
            return
        self.seen.add(held)
        status, _, err = oracle.run(words, b"")
        found, said = check_config.check(words[1])
        with self.test.subTest(name):
            self.test.assertEqual(found, status, said)
            if status == 0:
                self.test.assertEqual((said, err), ("accepted", b""))
                return
            self.test.assertRegex(said, LINE)
            self.test.assertNotIn("\n", said)
            self.test.assertEqual(said.split(": ")[:3], err.decode().rstrip("\n").split(": "))
            self.reasons.add(said.split(": ")[2])


class Check(unittest.TestCase):
    def test_each_configuration(self):
        with tempfile.TemporaryDirectory() as folder:
            config, it = os.path.join(folder, "config.json"), Configurations(self)

            def write(data):
                with open(config, "wb") as file:
                    file.write(data)
                return ["once", config, NOW]

            fixed_cases(it, folder, write)
            cases = Random(random.Random(8), it, write, 8)
            for n in range(300):
                cases.configuration(f"case {n}")
        self.assertGreater(len(it.seen), 500)
        self.assertGreater(len(it.reasons), 10, it.reasons)


if __name__ == "__main__":
    unittest.main()
