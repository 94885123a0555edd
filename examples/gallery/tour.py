"""A snow plough in a small town: the shortest tour along all streets."""
import random

import blossom

chance = random.Random(11)
places = {
    (x, y): (100 * x + chance.uniform(-25, 25), 90 * y + chance.uniform(-25, 25))
    for x in range(9)
    for y in range(6)
}
streets = []
for x, y in places:
    for there in ((x + 1, y), (x, y + 1)):
        if there in places and chance.random() < 0.82:
            (x1, y1), (x2, y2) = places[x, y], places[there]
            length = round(((x1 - x2) ** 2 + (y1 - y2) ** 2) ** 0.5)
            streets.append(((x, y), there, length))
tour = blossom.chinese_postman(streets)
walked, whole = tour.weight, sum(street[2] for street in streets)
print("%d streets of %d metres, a tour of %d metres" % (len(streets), whole, walked))
print("%d metres are walked twice" % (walked - whole))
print("no tour is shorter:", bool(tour.check()))
tour.draw(places, file="tour.svg", labels=False, duals=False, odd_sets=False, width=900)
