"""Documents over the numbers of an answer: they state what the same documents read from a text
state, and go back to the checker as they came, unless somebody changed what they state."""
import pickle
import random
import unittest
from array import array

import blossom
from blossom import array_documents, documents
from blossom.array_documents import ArrayDocument, copied
from blossom.array_library import made_numbers, numbers_of_document
from support import library_or_skip, made, wanted

SETS = (1, 3, 0, 4, 4, 2, 6, 0, 1, 0, 0, 1, 2, -2, 3, 5, 11, 13, 0, 3, 6, 1, 2, 3, 2, 3, 4)
NESTED = (1, 3, 0, 1, 2, 2, 6, 0, 1, 4, 2, 7, 8, 0, 3, 6, 1, 2, 3, 4, 5, -1)
PATHS = (1, 1, 0, 2, 0, 2, 2, 1, 1, 0, 1, 3, 0, 2, 2, 1, 2, 2)
#: The numbers of answers with their proofs, the kind, and how many edges the graph has.
ANSWERS = (
    (SETS, "perfect", 4),
    (NESTED, "perfect", 1),
    ((2, 0, 0, 1, 0, 0, 0, 0, 0, 0), "perfect", 1),
    ((1, 6, 2, 3, 0, 0, 0, 0, 2, 3, 1, 0), "postman", 3),
    ((1, 0, 0, 0, 0, 0, 0, 0, 0), "postman", 0),
    ((2, 0, 0, 0, 0, 0, 0, 2, 0, 1, 2), "postman", 2),
    ((2, 0, 0, 0, 0, 0, 0, 2, 0, 1, 2), "path", 2),
    ((3, 0, 1, 2, 0, 0, 0, 0, 1, 1, 0), "path", 3),
    ((1, 8, 0, 2, 0, 0, 0, 0, 3, 1, 0), "bmatch", 2),
    ((1, 6, 2, 3, 0, 0, 0, 0, 2, 3, 1, 0), "oddpath", 3),
    ((1, 6, 0, 4, 0, 0, 0, 2, 0, 0, 1, 1, 0, 1, 2), "bottleneck", 4),
    ((1, 6, 0, 1, 0, 0, 0, 0, 1, 0), "bottleneck", 1),
    ((1, 0, 0, 0, 0, 0, 0, 0, 0), "bottleneck", 0),
    ((2, 0, 0, 3, 0, 0, 0, 2, 0, 0, 0, 0, 1, 3), "bottleneck", 3),
    ((1, 8, 0, 2, 1, 0, 0, 0, 3, 1, 5, 0), "interval", 2),
    (PATHS, "gallai", 2),
    ((1, 1, 0, 1, 0, 0, 0, 0, 1, 0), "gallai", 1),
    ((1, 0, 0, 0, 0, 2, 0, 0, 1, 2, 0, 0, 0), "gallai", 0),
    ((2, 0, 0, 0, 0, 0, 0, 2, 0, 1, 3), "evenpath", 3),
    ((2, 0, 0, 3, 0, 0, 0, 2, 0, 0, 0, 0, 1, 3), "tjoin", 3),
)


def document_of(numbers, kind, brief=False):
    return ArrayDocument(kind, array("q", numbers), brief)


class States(unittest.TestCase):
    def each(self):
        """Each answer, with what its document reads as from its text."""
        for numbers, kind, edges in ANSWERS:
            for brief in (False, True):
                written = documents.read(documents.spelled(document_of(numbers, kind, brief)))
                yield document_of(numbers, kind, brief), written, numbers, edges

    def test_what_the_text_states(self):
        for document, written, numbers, _ in self.each():
            with self.subTest(kind=document.kind, numbers=numbers):
                self.assertEqual(document, written)
                self.assertEqual(written, document)
                self.assertEqual(document, document.changed())
                self.assertEqual(repr(document), repr(written))

    def test_without_making_lists(self):
        for document, written, numbers, edges in self.each():
            with self.subTest(kind=document.kind, numbers=numbers):
                self.assertEqual(document.places(), written.places())
                self.assertEqual(document.is_whole(), written.is_whole())
                self.assertEqual(set(document.node_numbers()), set(written.node_numbers()))
                most = max(document.edge_numbers(), default=0)
                self.assertLessEqual(max(written.edge_numbers(), default=0), most)
                self.assertLessEqual(most, edges)
                self.assertTrue(array_documents.MADE.isdisjoint(vars(document)))

    def test_the_parts_of_one(self):
        document = document_of(SETS, "perfect")
        self.assertEqual((document.counts, document.walk), ({1: 1, 4: 1}, None))
        self.assertEqual(document.set_lines, [(11, [1, 2, 3], []), (13, [2, 3, 4], [])])
        self.assertEqual(document_of(NESTED, "perfect").set_lines[1], (8, [4, 5], [1]))
        self.assertEqual(document_of(PATHS, "gallai").paths, {1: [1, 2], 3: []})
        self.assertEqual(document_of(PATHS, "gallai", True).outer, None)

    def test_documents_that_differ(self):
        for _, written, numbers, _ in self.each():
            other = documents.Document("optimal", written.kind, 77)
            self.assertNotEqual(document_of(numbers, written.kind), other)
        self.assertNotEqual(document_of(SETS, "perfect"), document_of(SETS, "match"))
        self.assertNotEqual(document_of(SETS, "perfect"), "a text")
        self.assertEqual(document_of(SETS, "perfect").changed(weight=4).weight, 4)
        self.assertIs(type(document_of(SETS, "perfect").changed(weight=4)), documents.Document)

    def test_copies(self):
        for document, written, numbers, edges in self.each():
            with self.subTest(kind=document.kind, numbers=numbers):
                copy = pickle.loads(pickle.dumps(document))
                self.assertEqual(copy.numbers_for(edges), document.numbers_for(edges))
                self.assertEqual(copy, written)

    def test_counts_that_are_used_few_or_many(self):
        for many in (0, 1, 7, array_documents.FEW, array_documents.FEW + 1, 500):
            counts = [(0, 1, 0, 2, 256)[place % 5] for place in range(many)]
            self.assertEqual(
                array_documents.used(memoryview(array("q", counts))),
                {place + 1: counts[place] for place in range(many) if place % 5 in (1, 3, 4)},
            )

    def test_many_counts_are_looked_at_by_numpy(self):
        wanted("numpy")
        self.test_counts_that_are_used_few_or_many()


class GoesBack(unittest.TestCase):
    def test_as_it_came(self):
        for numbers, kind, edges in ANSWERS:
            with self.subTest(kind=kind, numbers=numbers):
                document = document_of(numbers, kind)
                found = numbers_of_document(document, edges)
                self.assertIs(found, document.numbers_for(edges))
                self.assertEqual(tuple(found), numbers)
                self.assertEqual(made_numbers(document, edges)[0], numbers[0])

    def test_and_as_what_it_states(self):
        for numbers, kind, edges in ANSWERS:
            if (kind, numbers[0]) != ("path", 3):  # (whose numbers count no edge that isn't walked)
                document = document_of(numbers, kind)
                self.assertEqual(tuple(made_numbers(document, edges)), numbers)
                self.assertEqual(tuple(numbers_of_document(document, edges)), numbers)

    def test_what_was_changed_goes_back(self):
        def count(document):
            document.counts[2] = 5

        def dual(document):
            document.duals[3] = 7

        def one_set(document):
            document.set_lines[0].vertices.pop()

        def weight(document):
            document.weight = 9

        def status(document):
            document.status = "infeasible"

        for change in (count, dual, one_set, weight, status):
            document = document_of(SETS, "perfect")
            change(document)
            found = tuple(numbers_of_document(document, 4))
            self.assertNotEqual(found, SETS, change.__name__)
            self.assertEqual(found, tuple(made_numbers(document, 4)))

    def test_what_proves_nothing_does_not(self):
        self.assertIsNone(document_of(SETS, "perfect", True).numbers_for(4))

    def test_to_a_graph_of_other_edges(self):
        document = document_of(SETS, "perfect")
        for edges in (2, 6):
            found = tuple(numbers_of_document(document, edges))
            self.assertEqual((found[3], found[8:8 + edges]), (edges, (1, 0, 0, 1, 0, 0)[:edges]))

    def test_the_buffer_is_used_again(self):
        buffer = array("q", SETS)
        document = ArrayDocument("perfect", copied(memoryview(buffer)))
        buffer[:] = array("q", [0] * len(SETS))
        self.assertEqual(tuple(numbers_of_document(document, 4)), SETS)


class Refused(unittest.TestCase):
    def refuse(self, numbers, kind, said):
        class Engine:
            def run(self, *words):
                raise AssertionError

            def solve(self, *words):
                return 0, document_of(numbers, kind)

        with self.assertRaisesRegex(blossom.SolverError, said):
            blossom.solve([("a", "b", 1)], "gallai" if kind == "gallai" else "tjoin",
                          engine=Engine(), **({} if kind == "gallai" else {"terminals": []}))

    def test_numbers_of_another_graph(self):
        self.refuse((1, 0, 0, 2, 0, 0, 0, 0, 0, 0, 0), "tjoin", "edge 2, but the graph has 1")
        self.refuse((2, 0, 0, 1, 0, 0, 0, 1, 0, 0, 3), "tjoin", "node 3, but the graph has 2")
        self.refuse((1, 0, 0, 1, 0, 1, 0, 0, 0, 5, 0, 0), "gallai", "node 5, but the graph has 2")
        self.refuse((1, 0, 0, 1, 0, 1, 1, 0, 0, 1, 0, 1, 9), "gallai", "edge 9")
        self.refuse((1, 0, 0, 1, 0, 0, 0, 1, 0, 0, 8), "gallai", "node 8")
        self.refuse((1, 1, 0, 1, 0, 0, 0, 0, 1, 0), "perfect", "wrong kind: expected tjoin")


class ByTheLibrary(unittest.TestCase):
    def test_answers_are_accepted_before_and_after_they_are_looked_at(self):
        library_or_skip()
        chance = random.Random(4)
        for kind in ("perfect", "match", "capmatch", "tjoin", "postman", "path", "gallai"):
            edges, words = made(chance, kind)
            try:
                answer = blossom.solve(edges, kind, engine="library", **words)
            except blossom.BlossomError as error:
                answer = getattr(error, "certificate", None)
            if answer is not None:
                certificate = getattr(answer, "certificate", answer)
                self.assertTrue(certificate.check())
                self.assertTrue(certificate.text)  # (which makes all that it states)
                self.assertTrue(certificate.check())


if __name__ == "__main__":
    unittest.main()
