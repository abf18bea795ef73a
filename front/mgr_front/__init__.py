"""The front of mgr: it stands between a terminal and `mgr edit`, which knows none, by the standard library alone."""

VERSION = "0.1.0"
