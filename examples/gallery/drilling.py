"""A drill with two heads: 1,000 holes in pairs, so that the heads move as little as can be."""
import numpy

import blossom

holes = numpy.random.default_rng(8).uniform((0, 0), (160, 100), (1000, 2)).round(1)
pairs = blossom.min_weight_perfect_matching(points=holes, scale=1000)
print("%d pairs, %.3f mm in all" % (len(pairs.edges), pairs.weight))
print("no pairing of all %d is shorter: %s" % (1000 * 999 // 2, bool(pairs.check())))
pairs.draw(file="drilling.svg", labels=False, dual_length=1, width=1100)
