#!/usr/bin/env python3
"""Runs the program with the words of this call, in the caller's folder: see `lsl --help`. It is the proved one where
that was made of the sources as they are, and else one without proofs, which is compiled where a source has changed. In
a package it is the package's."""
import os
import sys

sys.path.insert(0, os.path.join(os.path.dirname(os.path.realpath(__file__)), "tools"))
from lslkit import streams

streams.begin("lsl")
from lslkit import front

streams.run("lsl", front.main)
