"""Parts of the package by themselves, of which whole calls show little."""
import concurrent.futures
import io
import unittest

from blossom.batch import awaited
from blossom.drawing.proof_lines import listed
from blossom.formats.graphml import edge_row, keys_of

GRAPHML = """<graphml><graph edgedefault="undirected"><node id="a"/><node id="b"/>
<edge id="first" source="a" target="b"/><edge source="b" target="a"/></graph></graphml>"""


class Parts(unittest.TestCase):
    def test_what_is_not_begun_is_cancelled(self):
        ended, waiting = concurrent.futures.Future(), concurrent.futures.Future()
        ended.set_result(7)
        found = awaited({ended: 0, waiting: 1})
        self.assertEqual(next(found)[0], 0)
        found.close()
        self.assertTrue(waiting.cancelled())

    def test_a_list_says_how_many_it_leaves_out(self):
        self.assertTrue(listed(range(12)).endswith("11"))
        self.assertTrue(listed(range(13)).endswith("11, .. (13 in all)"))

    def test_an_edge_keeps_its_id(self):
        from xml.etree import ElementTree

        root = ElementTree.parse(io.StringIO(GRAPHML)).getroot()
        rows = [edge_row(edge, keys_of(root)) for edge in root.iter("edge")]
        self.assertEqual(
            rows, [{"u": "a", "v": "b", "key": "first"}, {"u": "b", "v": "a"}]
        )

    def test_pairs_across_parts(self):
        try:
            import numpy
        except ImportError:
            self.skipTest("numpy isn't installed")
        from blossom.dense.pairs import EdgePairs

        ends = [numpy.array(one) for one in ([2, 0, 1, 0], [3, 1, 3, 2])]
        pairs = EdgePairs(4, *ends, numpy.array([1, 5, 2, 4]))
        first, second = pairs.across(numpy.array([0, 0, 1, -1]))
        self.assertEqual((first.tolist(), second.tolist()), ([0], [2]))


if __name__ == "__main__":
    unittest.main()
