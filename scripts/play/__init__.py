"""Plays scenes: what one does with the built mgr, and what is to be seen of it."""
