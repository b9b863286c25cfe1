"""The tests of demo_cases.py over ./afplane model serve."""
import unittest

import demo_cases
from servers import MODEL


class Demo(demo_cases.Demo, unittest.TestCase):
    words = MODEL


if __name__ == "__main__":
    unittest.main()
