"""A terminal on the desk: a page in a browser with the live mask, its keys, and each frame in words (docs/DESK.md)."""
