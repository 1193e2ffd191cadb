"""Traces of other monitors: scripts of them, and what differs."""
