"""A round of a Swiss tournament: 400 players in pairs of about equal points, none twice."""
import numpy

import blossom

chance = numpy.random.default_rng(6)
rating = numpy.sort(chance.normal(1800, 250, 400).round())[::-1]
points = (chance.binomial(12, 0.3 + 0.4 * (rating.argsort().argsort() / 400)) / 2).round(1)
met = numpy.eye(400, dtype=bool)
for first, second in chance.integers(0, 400, (1200, 2)):
    met[first, second] = met[second, first] = True
costs = 1000 * (2 * (points[:, None] - points)) ** 2 + abs(rating[:, None] - rating)
pairing = blossom.min_weight_perfect_matching(costs=numpy.where(met, numpy.inf, costs))
gaps = [abs(points[one] - points[other]) for one, other in pairing.edges]
print("%d games, %d of them between players of equal points" % (len(gaps), gaps.count(0)))
print("largest gap: %g; no pairing is better: %s" % (max(gaps), bool(pairing.check())))
places = {player: (rating[player], 160 * points[player]) for player in range(400)}
pairing.draw(places, "pairing.svg", labels=False, duals=False, odd_sets=False, unused_edges=False)
