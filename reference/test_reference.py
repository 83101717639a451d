# Holds the reference to figures worked by hand.
#
#     python3 reference/test_reference.py

import unittest

from hydrograph import page
from reservoirs import BAD_SETTINGS, CAPACITY, TOO_FULL, Lag, Linear, Refusal, Series


def outflows(reservoir, inflows):
    return [reservoir.take(inflow) for inflow in inflows]


class RefusalCase(unittest.TestCase):
    def assert_refused(self, cause, action, *arguments):
        with self.assertRaises(Refusal) as caught:
            action(*arguments)
        refusal = caught.exception
        self.assertEqual((refusal.cause, refusal.layer, refusal.place), (cause, 4, 0))


class LinearReservoir(RefusalCase):
    def test_recession(self):
        linear = Linear(32768, 49152)
        self.assertEqual(outflows(linear, [100, 0, 0]), [25, 38, 19])
        self.assertEqual(linear.held(), 18)

    def test_one_centilitre_is_not_kept(self):
        linear = Linear(32768, 49152)
        self.assertEqual(linear.take(1), 1)
        self.assertEqual(linear.held(), 0)

    def test_settings(self):
        Linear(65535, 65535)
        Linear(0, 0)
        self.assert_refused(BAD_SETTINGS, Linear, 0, 65536)
        self.assert_refused(BAD_SETTINGS, Linear, 2, 1)


class LagReservoir(RefusalCase):
    def test_two_steps(self):
        lag = Lag(2)
        self.assertEqual(outflows(lag, [5, 7, 0, 0]), [0, 0, 5, 7])
        self.assertEqual(lag.held(), 0)

    def test_cells_are_oldest_first(self):
        lag = Lag(3)
        outflows(lag, [1, 2, 3, 4])
        self.assertEqual(lag.cells(), [2, 3, 4])

    def test_settings(self):
        Lag(1)
        Lag(12)
        self.assert_refused(BAD_SETTINGS, Lag, 0)
        self.assert_refused(BAD_SETTINGS, Lag, 13)

    def test_full(self):
        lag = Lag(1)
        lag.take(CAPACITY)
        self.assertEqual(lag.held(), 10**14)
        self.assert_refused(TOO_FULL, lag.take, 1)
        self.assertEqual(lag.held(), 10**14)
        self.assertEqual(lag.take(0), 10**14)
        self.assertEqual(lag.held(), 0)


class SeriesOfTwo(RefusalCase):
    def test_linear_then_lag(self):
        series = Series(Linear(32768, 49152), Lag(1))
        self.assertEqual(outflows(series, [100, 0]), [0, 25])
        self.assertEqual(series.held(), 75)
        self.assertEqual(series.cells(), [37, 38])

    def test_joining_empties_both(self):
        linear, lag = Linear(32768, 49152), Lag(1)
        linear.take(100)
        lag.take(CAPACITY)
        self.assertEqual(Series(linear, lag).cells(), [0, 0])

    def test_refuses_by_its_own_sum(self):
        series = Series(Linear(32768, 32768), Lag(1))
        series.take(CAPACITY)
        self.assertEqual(series.cells(), [5 * 10**13, 5 * 10**13])
        self.assert_refused(TOO_FULL, series.take, 1)
        self.assertEqual(series.cells(), [5 * 10**13, 5 * 10**13])
        self.assertEqual(series.take(0), 5 * 10**13)


class Page(unittest.TestCase):
    def test_whole_page(self):
        storm = b"# worked by hand\n32768 49152 1\n100\n\n01\n0\n99999999999963"
        blanks = " " * 13
        expected = [
            " " * 24 + " " * 26 + "linear" + " " * 29 + "lag" + " " * 17 + "linear then lag",
            "    line           takes" + "           gives           holds" * 3,
            "       3" + blanks + "100" + blanks + " 25" + blanks + " 75"
            + blanks + "  0" + blanks + "100" + blanks + "  0" + blanks + "100",
            "line 5 refused: not a number",
            "       6" + blanks + "  0" + blanks + " 38" + blanks + " 37"
            + blanks + "100" + blanks + "  0" + blanks + " 25" + blanks + " 75",
            "line 7 refused: cause 5, layer 4, place 0: the linear reservoir then lag"
            " would hold more than 100000000000000 centilitres",
            "linear: taken 100 = given 63 + held 37",
            "lag: taken 100 = given 100 + held 0",
            "linear then lag: taken 100 = given 25 + held 75",
        ]
        self.assertEqual(page(storm).decode("ascii").splitlines(), expected)
        self.assertTrue(page(storm).endswith(b"held 75\n"))

    def test_no_settings(self):
        for storm in (b"", b"\n", b"# remark", b"\n# 0 0 1\n\n"):
            self.assertEqual(page(storm), b"no settings: the first line gives a, b and n\n")

    def test_refused_settings(self):
        cause = b"line 2 refused: cause 4, layer 4, place 0: "
        linear = cause + b"the linear reservoir takes a <= b <= 65535\n"
        lag = cause + b"the lag takes n of 1 to 12\n"
        malformed = b"line 2 refused: not three numbers a, b and n\n"
        self.assertEqual(page(b"#\n0 65536 0\n1\n"), linear)
        self.assertEqual(page(b"#\n2 1 1"), linear)
        self.assertEqual(page(b"\n0 0 0\n1\n"), lag)
        self.assertEqual(page(b"\n0 0 13"), lag)
        for settings in (b"0 0", b"0 0 1 ", b"0  0 1", b"0\t0 1", b"0 0 01", b"0 0 1\r", b"0 0 -1"):
            self.assertEqual(page(b"\n" + settings + b"\n1\n"), malformed)


if __name__ == "__main__":
    unittest.main()
