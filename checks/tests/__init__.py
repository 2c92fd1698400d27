"""Tests of the checkers: each gets wrong answers, and has to catch them."""
