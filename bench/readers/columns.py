#!/usr/bin/env python3
"""Reads a text from standard input by the Python package, as columns. Prints how many arcs it has, merged."""

import sys

import dnorm

print(len(dnorm.read(sys.stdin.buffer)), file=sys.stderr)
