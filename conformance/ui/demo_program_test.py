"""The tests of demo_cases.py over the built program that AFPLANE_PROGRAM names."""
import unittest

import demo_cases
from servers import PROGRAM


class Demo(demo_cases.Demo, unittest.TestCase):
    words = PROGRAM


if __name__ == "__main__":
    unittest.main()
