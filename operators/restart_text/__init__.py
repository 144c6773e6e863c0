"""Texts, explanations and drawings for operators of the restart planner.

No part of the planner: it reads what the program `restart` reads and prints, and writes what a person can read."""
