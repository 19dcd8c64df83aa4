"""Writes crates/vectors/stdin and crates/vectors/stdout, always the same ones: the lists of leaves.py and steps.py.
The program crates/vectors answers the first file, and must write the second."""
import itertools
import sys

sys.dont_write_bytecode = True
import leaves
import steps
from records import write


write(itertools.chain(leaves.records(), steps.records()))
