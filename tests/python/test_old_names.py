"""Names of release 1.0.0 that have others now: each still works, and warns."""
import pickle
import unittest
import warnings

import blossom
from blossom.commands import parser
from support import StandIn

PAIR = [("a", "b", 3), ("b", "c", 4)]
MATCHED = b"s OPTIMAL perfect 3\nx 1 1\ny 1 3\ny 2 3\n"
TOUR = b"s OPTIMAL postman 6\nw 1 2 1 1\ny 1 3\ny 2 3\n"
# The old name of the module's, and what it stands for.
OF_MODULE = (
    ("perfect_matching", blossom.min_weight_perfect_matching),
    ("b_matching", blossom.perfect_b_matching),
    ("capacitated_b_matching", blossom.perfect_capacitated_b_matching),
    ("postman", blossom.chinese_postman),
    ("NoBest", blossom.NoOptimum),
    ("NonConservative", blossom.NegativeCycle),
    ("ProgramFailed", blossom.SolverError),
    ("RoundedWeights", blossom.RoundedWeightsWarning),
    ("Copy", blossom.vertices.Copy),
    ("Gate", blossom.vertices.Subdivision),
    ("Port", blossom.vertices.Port),
)
OF_ANSWERS = (
    ("uses", "multiplicities"),
    ("counts", "edge_counts"),
    ("indices", "edge_indices"),
    ("partner", "mate"),
    ("steps", "edge_walk"),
    ("walk", "node_walk"),
    ("step_indices", "edge_walk_indices"),
)
OF_CERTIFICATES = (
    ("names", "vertex_names"),
    ("bound", "dual_value"),
    ("part", "closed_set"),
    ("circuit", "negative_cycle"),
)
# Names that no release had: they are gone.
GONE = ("between", "bottleneck_matching", "gallai_edmonds", "NestedSet", "Half", "Side", "nothing")


class OldNames(unittest.TestCase):
    def told(self, call, *expected):
        """What the call answers. It warns so, once for each text, of a line of this file."""
        with warnings.catch_warnings(record=True) as seen:
            warnings.simplefilter("always")
            found = call()
        self.assertEqual([str(one.message) for one in seen], list(expected))
        for one in seen:
            self.assertIs(one.category, DeprecationWarning)
            self.assertEqual(one.filename, __file__)
        return found

    def test_of_the_module(self):
        for old, new in OF_MODULE:
            with self.subTest(old):
                place = "vertices." if new.__module__ == "blossom.vertices" else ""
                said = "blossom.%s is deprecated: use blossom.%s%s" % (old, place, new.__name__)
                self.assertIs(self.told(lambda: getattr(blossom, old), said), new)
                self.assertNotIn(old, blossom.__all__)

    def test_instances(self):
        said = "blossom.instance is deprecated: use blossom.Instance.from_graph"
        made = self.told(lambda: blossom.instance, said)
        self.assertEqual(
            made(PAIR, "match"), self.told(lambda: blossom.Instance.from_graph(PAIR, "match"))
        )

    def test_names_that_no_release_had_are_gone(self):
        for name in GONE:
            with self.subTest(name), self.assertRaisesRegex(AttributeError, name):
                getattr(blossom, name)

    def test_of_answers_and_certificates(self):
        answers = (
            blossom.solve([("a", "b", 3)], "perfect", engine=StandIn(0, MATCHED)),
            blossom.solve([("a", "b", 3)], "postman", engine=StandIn(0, TOUR)),
        )
        self.assertTrue(answers[0].mate and answers[1].edge_walk_indices)
        for subject, names in [(answer, OF_ANSWERS) for answer in answers] + [
            (answers[0].certificate, OF_CERTIFICATES)
        ]:
            for old, new in names:
                with self.subTest(old):
                    said = "%s.%s is deprecated: use %s" % (type(subject).__name__, old, new)
                    known = self.told(lambda: getattr(subject, new))
                    self.assertEqual(self.told(lambda: getattr(subject, old), said), known)

    def refused(self, kind, text, **words):
        with self.assertRaises(blossom.NoOptimum) as told:
            blossom.solve(PAIR, kind, engine=StandIn(0, text), **words)
        return told.exception

    def test_of_exceptions(self):
        error = self.refused("tjoin", b"s INFEASIBLE tjoin\nt 3 1 2 3\n", terminals=["a"])
        said = "Infeasible.part is deprecated: use closed_set"
        self.assertEqual(self.told(lambda: error.part, said), ["a", "b", "c"])
        error = self.refused("path", b"s NONCONSERVATIVE path\nw 1 2 1 1\n", source="a", target="b")
        said = "NegativeCycle.circuit is deprecated: use negative_cycle"
        self.assertEqual(self.told(lambda: error.circuit, said), [("a", "b"), ("b", "a")])
        self.assertEqual(pickle.loads(pickle.dumps(error)).negative_cycle, error.negative_cycle)

    def test_of_subdivisions(self):
        vertex = blossom.vertices.Subdivision(("a", "b"), 4, "b")
        said = "Subdivision.%s is deprecated: use %s"
        self.assertEqual(self.told(lambda: vertex.gate, said % ("gate", "unit")), 4)
        self.assertEqual(self.told(lambda: vertex.side, said % ("side", "node")), "b")

    def test_keywords(self):
        by = StandIn(0, b"s OPTIMAL bmatch 3\nx 1 1\n")
        words = {"via": by, "brief": True, "values": {"c": 0}}
        said = (
            "via= is deprecated: use engine=",
            "values= is deprecated: use degrees=",
            "brief=True is deprecated: use certificate=False",
        )
        for call in (
            lambda: blossom.perfect_b_matching(PAIR, **words),
            lambda: blossom.solve(PAIR, "bmatch", **words),
            lambda: blossom.solve_many("bmatch", [PAIR], **words)[0],
        ):
            self.assertEqual(self.told(call, *said).weight, 3)
        self.assertEqual([asked[0] for asked in by.asked], ["brief"] * 3)
        self.assertTrue(all(asked[2].endswith(b"n 3 0\n") for asked in by.asked))
        self.told(lambda: blossom.Instance.from_graph(PAIR, "bmatch", values={"c": 0}), said[1])
        call = self.told(
            lambda: blossom.perfect_b_matching(PAIR, engine=by, brief=False),
            "brief=False is deprecated: use certificate=True",
        )
        self.assertEqual((call.weight, by.asked[-1][0]), (3, "solve"))

    def test_each_call_takes_via(self):
        said = "via= is deprecated: use engine="
        join = StandIn(0, b"s OPTIMAL tjoin 3\nx 1 1\ny 1 3\ny 2 3\n")
        judge = StandIn(0, b"s ACCEPTED\n")
        answer = blossom.solve([("a", "b", 3)], "perfect", engine=StandIn(0, MATCHED))
        edges = [(0, 1, 3)]
        calls = (
            lambda: blossom.t_join(PAIR, ["a", "b"], via=join),
            lambda: answer.check(via=judge),
            lambda: answer.certificate.check(via=judge),
            lambda: blossom.check([("a", "b", 3)], "perfect", answer, via=judge),
            lambda: blossom.Decoder([[1]], via=join),
            lambda: blossom.Decoder.from_edges(edges, via=join),
            lambda: blossom.Decoder.from_check_matrix([[1]], via=join),
        )
        for number, call in enumerate(calls):
            with self.subTest(number):
                self.assertTrue(self.told(call, said))

    def test_an_argument_by_both_names_is_refused(self):
        for old, new in (("via", "engine"), ("values", "degrees"), ("brief", "certificate")):
            with self.subTest(old), warnings.catch_warnings():
                warnings.simplefilter("ignore")
                with self.assertRaisesRegex(TypeError, "%s= and %s= are one" % (old, new)):
                    blossom.solve(PAIR, "bmatch", **{old: None, new: None})

    def test_the_option_of_the_command(self):
        given = parser().parse_args(["solve", "file", "--values", "a=2"])
        self.assertEqual(given.degrees, "a=2")


if __name__ == "__main__":
    unittest.main()
