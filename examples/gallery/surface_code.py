"""A memory of a surface code of distance 5, decoded from Stim's model of its errors."""
import pathlib
import random

import blossom

decoder = blossom.Decoder.from_detector_error_model(pathlib.Path(__file__).with_suffix(".dem"))
print(decoder)
chance, fired, flipped = random.Random(5), set(), set()
for node1, node2, error in decoder.edges():
    if chance.random() < 2 * error["error_probability"]:
        fired ^= {node1} if node2 is None else {node1, node2}
        flipped ^= error["fault_ids"]
predicted = [number for number, flip in enumerate(decoder.decode(fired)) if flip]
answer = decoder.answer(fired)
print("%d detectors fired; flipped observables: %s" % (len(fired), sorted(flipped)))
print("predicted: %s; no errors are likelier: %s" % (predicted, bool(answer.check())))
places = {
    detector: (1.6 * x + 0.8 * y, 0.5 * y + 7 * time)
    for detector, (x, y, time) in decoder.detector_coordinates().items()
}
boundary = [node for node in answer.instance.nodes if node not in places]
places |= {node: (4 * place, -3) for place, node in enumerate(boundary)}
words = {"unused_edges": False, "duals": False, "odd_sets": False}
answer.draw(places, "surface_code.svg", labels={boundary[0]: "boundary"}, **words)
