"""What mgr writes, and the statuses in it."""

import unittest

from context import BUFFER, OPERATION, written

from mgr_front.statuses import Status, Statuses

LINE = OPERATION.encode()
ROWS = ("a漢", "", "----Mg: n", "")
OTHER = BUFFER | {"name": "other", "changed": True}
PROMPT = {"answer": "no", "label": "Find file: "}

# What is written, and the status that it is after those before it.
SAID = [
    (written(ROWS, windows=[[2, "note"]]), Status(ROWS, (0, 0), (2,), buffer="note")),
    (
        written(begun=True, keys=3, message="Quit", more=True, reports=1, windows=[[2, "note"]]),
        Status(ROWS, (0, 0), (2,), 3, 1, True, message="Quit", buffer="note", more=True),
    ),
    (
        written(operations=2, keys=3, refused=[[1, "Far"]], saved="ok", windows=[[2, "note"]]),
        Status(ROWS, (0, 0), (2,), 3, buffer="note", saved="ok", operations=(LINE, LINE), refused={1: "Far"}),
    ),
    (
        written(("x", "y"), 1, buffer=OTHER, cursor=[1, 13], keys=8, mode="prompt", prompt=PROMPT),
        Status(
            ("x", "y"), (1, 13), (1,), 8, mode="prompt", label="Find file: ", answer="no", buffer="other",
            is_changed=True, operations=(LINE,), is_live=False,
        ),
    ),
    (
        written(places=[[4, 7, 0, 1]], point=[1, 2, 3, 7]),
        Status(("x", "y"), heights=(1,), buffer="note", point=(1, 2, 3, 7), places=((4, 7, 0, 1),)),
    ),
    (written(live=None), Status(("x", "y"), heights=(1,), buffer="note", is_live=False)),
]


class TestStatuses(unittest.TestCase):
    def setUp(self) -> None:
        self.all = b"".join(line for line, _ in SAID)
        self.wanted = [status for _, status in SAID]

    def test_whatever_the_sizes_of_the_reads(self) -> None:
        for size in (1, 2, 3, 7, 100, len(self.all)):
            with self.subTest(size=size):
                statuses = Statuses()
                reads = [self.all[i : i + size] for i in range(0, len(self.all), size)]
                self.assertEqual([status for read in reads for status in statuses.take(read)], self.wanted)

    def test_cut_at_each_byte(self) -> None:
        for cut in range(len(self.all) + 1):
            statuses = Statuses()
            first = statuses.take(self.all[:cut])
            whole = sum(len(b"".join(line for line, _ in SAID[: i + 1])) <= cut for i in range(len(SAID)))
            self.assertEqual((len(first), first + statuses.take(self.all[cut:])), (whole, self.wanted), cut)

    def test_mode_lines_stand_behind_the_rows_of_each_window(self) -> None:
        for heights, wanted in [((1,), [1]), ((3, 1, 7), [3, 5, 13])]:
            self.assertEqual(Status(heights=heights).mode_rows, wanted)


if __name__ == "__main__":
    unittest.main()
