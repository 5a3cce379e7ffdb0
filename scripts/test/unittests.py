"""Runs tests of the Python package, which are in the folder where it begins, as `python3 -m unittest` does, and says what they leave out."""
import collections
import os
import sys
import unittest

from trials import left_out

sys.path[0] = os.getcwd()
result = unittest.main(module=None, exit=False).result
# python.sh itself says that tables aren't tested: most tests are run without pandas.
skipped = [(test.id().split(".")[0], why) for test, why in result.skipped if "pandas" not in why]
for (file, why), count in collections.Counter(skipped).items():
    left_out(f"tests of python/tests/{file}.py ({count})", why)
sys.exit(not result.wasSuccessful())
