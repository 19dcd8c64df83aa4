#!/usr/bin/env python3
"""Tries the must-fail edits that the gate leaves out for its time:  tests/edits.py [CRATE..]

They stand in tests/edits/CRATE, in the form of crates/CRATE/must-fail. In a copy of the repository they take the place of the gate's own, and `rt must-fail` tries those of the named crates, or of all: each has to be refused. The status is rt's.
"""
import os
import shutil
import subprocess
import sys
import tempfile

HERE = os.path.dirname(os.path.abspath(__file__))
EDITS = os.path.join(HERE, 'edits')

names = sys.argv[1:] or sorted(os.listdir(EDITS))
for name in names:
    if not os.path.isdir(os.path.join(EDITS, name)):
        sys.exit(f'no edits of {name}\n{__doc__}')

with tempfile.TemporaryDirectory() as place:
    shutil.copytree(os.path.join(HERE, '..', 'crates'), os.path.join(place, 'crates'), ignore=shutil.ignore_patterns('must-fail'))
    shutil.copy(os.path.join(HERE, '..', 'crates.txt'), place)
    for name in names:
        shutil.copytree(os.path.join(EDITS, name), os.path.join(place, 'crates', name, 'must-fail'))
    status = subprocess.run(['rt', 'must-fail', *names], cwd=place).returncode
sys.exit(status)
