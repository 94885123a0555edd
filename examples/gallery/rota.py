"""A rota of a week: every shift gets its people, nobody works too often, wishes count."""
import random

import blossom

days = ["Mon", "Tue", "Wed", "Thu", "Fri", "Sat", "Sun"]
people = ["Ada", "Ben", "Cleo", "Dan", "Eva", "Finn", "Gus", "Hal"]
needed = dict.fromkeys(days, 3) | {"Sat": 2, "Sun": 2}
chance = random.Random(3)
wishes = [
    (person, day, chance.randint(100, 999))
    for person in people
    for day in days
    if chance.random() < 0.75
]
lower = needed | dict.fromkeys(people, 2)
upper = needed | dict.fromkeys(people, 3)
rota = blossom.degree_constrained_subgraph(wishes, lower, upper)
for person in people:
    print(person.ljust(5), *(day for day in days if (person, day) in rota.edges))
print("cost of the rota: %d, and none costs less: %s" % (rota.weight, bool(rota.check())))
places = {day: (1.4 * place, 3.5) for place, day in enumerate(days)}
places |= {person: (1.2 * place, 0) for place, person in enumerate(people)}
rota.draw(places, file="rota.svg", weights=False, duals=False, odd_sets=False, width=760)
