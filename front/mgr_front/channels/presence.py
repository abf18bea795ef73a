"""What writers say of themselves: where they are, that they live and what their notes have, that they leave."""

import time
from collections.abc import Callable
from typing import Any

from mgr_front.channels import MOST_NAME, Place, Post, Present, shown
from mgr_front.copies import digest

# Seconds for which one is there who says nothing, between two signs of life, and between two places.
GONE, ALIVE, MOVE = 90.0, 60.0, 0.2
MOST = 1 << 53, 1 << 16, 1 << 32


def place_of(told: dict[str, Any]) -> Place | None:
    """Returns the place that somebody says, if it is one."""
    place = told.get("place")
    if not (isinstance(place, list) and [type(part) for part in place] == [int] * 3):
        return None
    is_one = all(0 <= part < most for part, most in zip(place, MOST)) and bool(place[0]) == bool(place[1])
    return (place[0], place[1], place[2]) if is_one else None


class Presence:
    """Who else is there and where, and where this writer is."""

    def __init__(self, replica: int, name: str, post: Post) -> None:
        self.replica, self.name, self.post = replica, shown(name, MOST_NAME), post
        self.place: Place = (0, 0, 0)
        self.begin()

    def begin(self) -> None:
        """Nobody is known to be there, and nobody was told of this writer."""
        # Of each who is there the name and the place, when that was heard, and what was posted of all.
        self.who: dict[int, tuple[str, Place]] = {}
        self.times: dict[int, float] = {}
        self.told: dict[int, tuple[str, Place]] = {}
        # What was said of this writer, and when; when a sign of life was given.
        self.said: Place | None = None
        self.moved, self.signed = 0.0, time.monotonic()
        self.post(Present({}))

    def move(self, place: Place) -> bool:
        """Takes note of this writer's place; answers whether a turn is needed, if none is due already."""
        before, self.place = self.place, place
        return place != before == self.said

    def take(self, told: dict[str, Any]) -> None:
        """Takes what somebody says of themselves. To one who is new it is said where this writer is."""
        replica, name, place = told.get("replica"), told.get("name"), place_of(told)
        if type(replica) is not int or not 0 < replica < MOST[1] or replica == self.replica:
            return
        if told.get("op") == "leave":
            self.times.pop(replica, None)
        elif isinstance(name, str) and place:
            self.said = self.said if replica in self.times else None
            self.who[replica], self.times[replica] = (shown(name, MOST_NAME), place), time.monotonic()

    def turn(self, say: Callable[..., None], claims: Callable[[], bytes]) -> float:
        """Says what is due, and posts who is there, if that is news; returns seconds until the next turn."""
        now, place = time.monotonic(), self.place
        what = {"replica": self.replica, "name": self.name, "place": place}
        if now >= self.signed + ALIVE:
            self.signed = now
            say("alive", **what, digest=digest(claims()))
        if place != self.said and now >= self.moved + MOVE:
            self.moved, self.said = now, place
            say("place", **what)
        self.times = {who: heard for who, heard in self.times.items() if heard > now - GONE}
        self.who = {who: place for who, place in self.who.items() if who in self.times}
        if self.who != self.told:
            self.told = dict(self.who)
            self.post(Present(self.told))
        dues = [self.signed + ALIVE, *[self.moved + MOVE] * (self.place != self.said)]
        return max(0.0, min(dues + [heard + GONE for heard in self.times.values()]) - now)
