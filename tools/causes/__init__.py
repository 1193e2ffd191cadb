"""Causes of differences between another monitor and this board, a module for each part of the chipset: what a log tells
of the part's state, and the rows that name a difference by it. tools/traces/differences.py joins the rows to one table."""
