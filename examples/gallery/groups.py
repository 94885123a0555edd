"""Who can be left over when people form pairs: the Gallai-Edmonds decomposition."""
import blossom

friends = """
    Ada Ben, Ben Cleo, Ada Cleo, Cleo Hub, Dan Hub, Eva Hub, Eva Finn, Finn Gus, Gus Eva,
    Hub Ida, Jo Ring, Kim Ring, Kim Lea, Lea Max, Max Nia, Nia Kim, Kim Max, Ring Hub,
    Ida Otto, Otto Pia, Pia Quinn, Quinn Ida, Ring Sam, Sam Tom, Tom Uma, Uma Sam
"""
pairs = [tuple(pair.split()) for pair in friends.split(",")]
answer = blossom.gallai_edmonds_decomposition(pairs)
D, A, C = answer.decomposition
print("at most %d pairs: %s" % (answer.weight, bool(answer.check())))
print("may be left over:", *D)
print("wanted by too many:", *A)
print("always paired among themselves:", *C)
paths = [answer.alternating_path(person) for person in D]
print("each of them is left over if pairs along a path change:", len(paths) == len(D))
answer.draw(file="groups.svg", weights=False, width=760)
