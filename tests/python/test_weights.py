"""Weights: whole, or the caller says what to do."""
import unittest
from decimal import Decimal
from fractions import Fraction

import blossom


def weights(*given, **how):
    return blossom.Instance.from_graph(
        [(0, 1, weight) for weight in given], "perfect", **how
    ).weights


class Weights(unittest.TestCase):
    def test_whole_numbers_of_any_type(self):
        self.assertEqual(weights(3, -3, 2.0, Fraction(4), Decimal("5"), True), [3, -3, 2, 4, 5, 1])

    def test_others_are_refused_with_what_to_do(self):
        with self.assertRaisesRegex(
            blossom.WeightError,
            r"weight of edge \(0, 1\) must be an integer, got 0.125: pass scale=1000 to",
        ):
            weights(0.125)
        with self.assertRaisesRegex(blossom.WeightError, "scale='finest'"):
            weights(Fraction(1, 3))
        for nothing in (float("nan"), float("inf"), None, "3", 1j):
            with self.assertRaisesRegex(blossom.WeightError, "must be a finite number"):
                weights(nothing)

    def test_a_float_is_the_decimal_that_is_printed(self):
        self.assertEqual(weights(0.1, 0.7, scale=10), [1, 7])

    def test_scales(self):
        self.assertEqual(weights(0.5, 1, scale=2), [1, 2])
        self.assertEqual(weights(5 * 10**12, scale=Fraction(1, 5)), [10**12])
        self.assertEqual(weights(0.25, scale="4"), [1])
        with self.assertRaisesRegex(blossom.WeightError, "scale 10"):
            weights(0.125, scale=10)
        for scale in (0, -1, "much", float("nan"), None):
            with self.assertRaises(blossom.WeightError):
                weights(1, scale=scale)

    def test_rounding(self):
        self.assertEqual(weights(0.4, 0.6, 2.5, 3.5, rounding="nearest"), [0, 1, 2, 4])
        with self.assertRaises(ValueError):
            weights(1, rounding="down")

    def test_the_finest_scale(self):
        of = blossom.Instance.from_graph(
            [(0, 1, 3.14159265358979), (0, 1, -2.5)], "perfect", scale="finest"
        )
        self.assertEqual(of.scale, 2**38)
        self.assertEqual(of.weights[1], -5 * 2**37)
        self.assertEqual(
            blossom.Instance.from_graph([(0, 1, 7)], "perfect", scale="finest").scale, 1
        )
        self.assertEqual(
            blossom.Instance.from_graph([(0, 1, 4 * 10**12)], "perfect", scale="finest").weights,
            [10**12],
        )
        self.assertEqual(
            blossom.Instance.from_graph([(0, 1, 10**12 + 0.5)], "perfect", scale="finest").scale,
            Fraction(1, 2),
        )
        self.assertEqual(
            blossom.Instance.from_graph([(0, 1, 0)], "perfect", scale="finest").weights, [0]
        )

    def test_the_limit(self):
        self.assertEqual(weights(10**12, -(10**12)), [10**12, -(10**12)])
        for weight in (10**12 + 1, -(10**12) - 1, 1e300, 10**400):
            with self.assertRaisesRegex(blossom.WeightError, "outside"):
                weights(weight)

    def test_tours_have_none_below_0(self):
        with self.assertRaisesRegex(blossom.WeightError, "negative weight -2"):
            blossom.chinese_postman([("a", "b", 1), ("b", "c", -2)])
