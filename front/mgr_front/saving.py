"""The report and the keys by which mgr saves, and what is said of that."""

# Nobody types: mgr saves what was made or taken, log and text.
REST = b'{"op":"rest"}'
CANCEL, SAVE = b"\x07", b"\x18\x13"

# What is said if a buffer was saved, and, by what a status says, if one could not be.
SAVED = "Wrote "
UNSAVED = {"file": "Not saved: File fault", "memory": "Not saved: Out of memory"}
AGAIN = "Saved again"
# Seconds without a change before all is saved, and between two savings of what others did; and if that failed.
IDLE, FAILING = 1.0, 5.0
