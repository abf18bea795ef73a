"""What the front says for a while."""

import math
import unittest

import context  # noqa: F401

from mgr_front.remarks import Remarks


class TestRemarks(unittest.TestCase):
    def test_they_end(self) -> None:
        remarks = Remarks()
        self.assertIsNone(remarks.patience(0))
        remarks["a"] = 2
        remarks["b"] = 3
        self.assertEqual((remarks.at(1), remarks.patience(1)), (["a", "b"], 1))
        self.assertEqual((remarks.at(2), remarks.patience(2)), (["b"], 1))
        remarks["c"] = math.inf
        self.assertEqual((remarks.at(3), remarks.patience(3)), (["c"], None))
        remarks.acknowledge()
        self.assertEqual(remarks.at(3), [])
        remarks["d"] = 9
        remarks.pop("d", None)
        self.assertEqual(remarks.at(3), [])


if __name__ == "__main__":
    unittest.main()
