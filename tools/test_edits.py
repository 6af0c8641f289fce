#!/usr/bin/env python3
"""Runs the tests of ./edits, which lie in edit_tests/."""
import os
import sys
import unittest

sys.dont_write_bytecode = True
TOOLS = os.path.dirname(os.path.realpath(__file__))
TESTS = os.path.join(TOOLS, "edit_tests")
sys.path[:0] = [TOOLS, TESTS]

if __name__ == "__main__":
    unittest.main(module=None, argv=[sys.argv[0], "discover", "-s", TESTS, *sys.argv[1:]])
