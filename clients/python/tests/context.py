"""What all tests begin with: the package beside this folder, and the places of outside files."""

import os
import sys
import unittest

HERE = os.path.dirname(os.path.abspath(__file__))
TOP = os.path.dirname(os.path.dirname(os.path.dirname(HERE)))
sys.path.insert(0, os.path.dirname(HERE))

#: The built broker. SHAREBROKER names another one.
PROGRAM = os.environ.get("SHAREBROKER", os.path.join(TOP, "crates", "sharebroker", "out", "sharebroker"))


def needs_program(case: type) -> type:
    """Skips a test case where the broker isn't built."""
    is_built = os.access(PROGRAM, os.X_OK)
    return unittest.skipUnless(is_built, f"there is no built program at {PROGRAM}")(case)  # type: ignore
