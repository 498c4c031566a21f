"""Prints the least cost of a `min` text, and the flow on each of its arc lines, by scipy.

    least_cost.py FILE"""

import sys

import numpy
from scipy.optimize import linprog

import dnorm

flow, lines = dnorm.read(sys.argv[1], 2, lines=True)
if not isinstance(flow, dnorm.Min):
    sys.exit("this is no min text")
matrix, supplies = flow.to_scipy()
bounds = numpy.column_stack([flow.lows, flow.caps])
found = linprog(flow.costs, A_eq=matrix, b_eq=supplies, bounds=bounds, method="highs-ds")
if found.status != 0:
    sys.exit("there is no flow")
units = lines.spread(flow, numpy.rint(found.x).astype(int))
print("s", sum(cost * it for cost, it in zip(lines.c, units)), flush=True)
sys.stdout.buffer.writelines(lines.flow_lines(units))
