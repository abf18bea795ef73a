"""What writers say of themselves, and who is known to be there by that."""

import unittest
from typing import Any
from unittest import mock

import context  # noqa: F401 (makes the package known)

from mgr_front.channels import Present
from mgr_front.channels.presence import Presence, place_of


class TestPresence(unittest.TestCase):
    def setUp(self) -> None:
        self.posted: list[Present] = []
        self.said: list[tuple[str, dict[str, Any]]] = []
        self.one = Presence(1, "One\x1b" + "x" * 40, self.posted.append)  # type: ignore[arg-type]
        self.now = 1000.0
        clock = mock.patch("time.monotonic", lambda: self.now)
        clock.start()
        self.addCleanup(clock.stop)
        self.one.begin()

    def turn(self) -> float:
        return self.one.turn(lambda op, **members: self.said.append((op, members)), lambda: b"claims")

    def hear(self, op: str = "place", **members: object) -> None:
        self.one.take({"op": op, "replica": 2, "name": "Two", "place": [3, 1, 1]} | members)

    def who(self) -> object:
        self.turn()
        return self.posted[-1].who

    def test_places(self) -> None:
        for place in ([1, 2, 3], [0, 0, 0], [(1 << 53) - 1, 65535, 9]):
            self.assertEqual(place_of({"place": place}), tuple(place))
        for none in (None, 1, [1, 2], [1, True, 1], [-1, 2, 3], [1, 65536, 3], [1 << 53, 1, 3], [1, 0, 3], [0, 1, 3], ["1", 2, 3]):
            self.assertIsNone(place_of({"place": none}), none)

    def test_what_is_said_of_oneself(self) -> None:
        self.assertEqual(self.turn(), 60)
        op, said = self.said[0]
        self.assertEqual((op, said["name"], said["replica"], said["place"]), ("place", "One?" + "x" * 28, 1, (0, 0, 0)))
        # At most five times a second.
        for counter in range(1, 11):
            self.one.place = counter, 1, 1
            self.turn()
            self.now += 0.05
        self.assertLessEqual(len(self.said), 4)
        self.now += 0.2
        self.turn()
        self.assertEqual(self.said[-1][1]["place"], (10, 1, 1))
        # Nothing but a sign of life each minute.
        self.said.clear()
        for _ in range(61):
            self.now += 1
            self.turn()
        self.assertEqual([op for op, _ in self.said], ["alive"])

    def test_who_is_there(self) -> None:
        self.hear()
        self.hear(replica=1)
        self.hear(replica="x")
        self.hear(replica=3, place=None)
        self.hear(replica=4, name=["x"])
        self.assertEqual(self.who(), {2: ("Two", (3, 1, 1))})
        self.now += 80
        self.hear("alive", place=[4, 1, 2])
        self.now += 80
        self.assertEqual(self.who(), {2: ("Two", (4, 1, 2))})
        self.assertAlmostEqual(self.turn(), 10)
        self.now += 11
        self.assertEqual(self.who(), {})
        self.hear()
        self.hear("leave")
        self.assertEqual(self.who(), {})

    def test_one_who_is_new_is_told(self) -> None:
        self.turn()
        self.now += 1
        self.hear()
        self.turn()
        self.now += 1
        self.hear()
        self.turn()
        self.assertEqual(len(self.said), 2)


if __name__ == "__main__":
    unittest.main()
