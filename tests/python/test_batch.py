"""Many graphs at once."""
import concurrent.futures
import os
import subprocess
import sys
import threading
import time
import unittest
from unittest import mock

import blossom
from blossom.library import loaded
from support import STAR, TRIANGLES, StandIn, library_or_skip, wanted
from test_process import stand_in

MIXED = [TRIANGLES, STAR, [("a", "b", 0.5)], [("a", "b", 7)]]


def names(results):
    return [type(one).__name__ for one in results]


class Batches(unittest.TestCase):
    def test_answers_come_in_order_over_any_executor(self):
        graphs = [[("a", "b", weight)] for weight in range(20)]
        for executor in (
            None,
            concurrent.futures.ThreadPoolExecutor(3),
            concurrent.futures.ProcessPoolExecutor(2),
        ):
            answers = blossom.solve_many("perfect", graphs, executor=executor)
            self.assertEqual([answer.weight for answer in answers], list(range(20)))
            if executor is not None:
                executor.shutdown()

    def test_errors_come_back_in_their_places(self):
        results = blossom.solve_many("perfect", MIXED, errors="return")
        self.assertEqual(names(results), ["Answer", "Infeasible", "WeightError", "Answer"])
        self.assertEqual(results[1].barrier, ["hub"])

    def test_or_the_first_is_raised(self):
        with self.assertRaises(blossom.WeightError):
            blossom.solve_many("perfect", MIXED)
        with self.assertRaises(blossom.Infeasible):
            blossom.solve_many("perfect", MIXED[:2])
        with self.assertRaises(ValueError):
            blossom.solve_many("perfect", [], errors="ignore")

    def test_instances_keep_their_own_words(self):
        graphs = [
            blossom.Instance.from_graph([("a", "b", 5), ("b", "c", 6)], "tjoin", terminals=ends)
            for ends in (["a", "b"], ["a", "c"])
        ]
        self.assertEqual([answer.weight for answer in blossom.solve_many("tjoin", graphs)], [5, 11])
        self.assertEqual(
            blossom.solve_many("perfect", [[("a", "b", 0.5)]], scale=2)[0].weight * 2, 1
        )

    def test_no_graphs(self):
        self.assertEqual(blossom.solve_many("perfect", []), [])

    def test_progress_is_told(self):
        seen = []
        blossom.solve_many(
            "perfect",
            MIXED,
            errors="return",
            progress=lambda done, total: seen.append((done, total)),
        )
        self.assertEqual(seen, [(2, 4), (3, 4), (4, 4)])  # one was no instance, and done at once

    def test_progress_by_tqdm(self):
        wanted("tqdm")
        self.assertEqual(len(blossom.solve_many("perfect", [TRIANGLES] * 3, progress=True)), 3)

    def test_time_limits_are_for_each(self):
        with stand_in(
            "read line; case $line in *' 4 '*) exec sleep 60;; esac; cat >/dev/null; echo s OPTIMAL perfect 0"
        ) as path:
            graphs = [[("a", "b")], [("a", "b"), ("c", "d")]]
            self.assertEqual(
                names(
                    blossom.solve_many("perfect", graphs, program=path, timeout=4, errors="return")
                ),
                ["Answer", "TimeLimit"],
            )

    def test_an_error_stops_what_runs(self):
        with stand_in("read line; case $line in *' 4 '*) exec sleep 60;; esac; exit 8") as path:
            start = time.monotonic()
            with self.assertRaises(blossom.SolverError):
                blossom.solve_many(
                    "perfect", [[("a", "b"), ("c", "d")], [("a", "b")]], program=path
                )
            self.assertLess(time.monotonic() - start, 30)

    def test_a_single_graph_makes_no_pool(self):
        by = StandIn()
        with mock.patch("concurrent.futures.ThreadPoolExecutor", side_effect=AssertionError):
            answers = blossom.solve_many("perfect", [[("a", "b", 1)]], engine=by, timeout=5)
        self.assertEqual((answers[0].weight, by.asked[0][3]), (1, 5))

    def test_several_are_run_at_once(self):
        turn = threading.Barrier(3, timeout=60)

        class Meeting(StandIn):
            def run(self, *words, **how):
                turn.wait()  # ends when three are here
                return super().run(*words, **how)

        with mock.patch("blossom.batch.processors", lambda: 3):
            answers = blossom.solve_many("perfect", [[("a", "b", 1)]] * 3, engine=Meeting())
        self.assertEqual([answer.weight for answer in answers], [1] * 3)

    def test_answers_are_checked_as_they_were_found(self):
        by = StandIn()
        for answer in blossom.solve_many(
            "perfect", [[("a", "b", 1)]] * 2, engine=by, certificate=False
        ):
            self.assertIs(answer.certificate.by, by)
        self.assertEqual([asked[0] for asked in by.asked], ["brief", "brief"])

    def test_over_dask(self):
        distributed = wanted("distributed")
        with distributed.Client(
            processes=False, n_workers=1, threads_per_worker=2, dashboard_address=None
        ) as client:
            answers = blossom.solve_many("perfect", [TRIANGLES] * 3, executor=client.get_executor())
        self.assertEqual([answer.weight for answer in answers], [12] * 3)

    def test_an_interrupt_ends_all(self):
        # Where the tests run in the background, interrupts are ignored unless they are asked for.
        code = (
            "import blossom, os, signal, threading\n"
            "signal.signal(signal.SIGINT, signal.default_int_handler)\n"
            "threading.Timer(1, lambda: os.kill(os.getpid(), signal.SIGINT)).start()\n"
            "blossom.solve_many('perfect', [[(1, 2)]] * 4, program=%r)\n"
        )
        with stand_in("exec sleep 60") as path:
            start = time.monotonic()
            done = subprocess.run(
                [sys.executable, "-c", code % path],
                capture_output=True,
                timeout=50,
                env=dict(os.environ),
            )
        self.assertIn(b"KeyboardInterrupt", done.stderr)
        self.assertLess(time.monotonic() - start, 40)


class ByLibrary(unittest.TestCase):
    SMALL = [[("a", "b", weight), ("b", "c", 3)] for weight in range(300)]

    def test_small_graphs_make_no_pool_and_take_no_longer_than_a_loop(self):
        by = blossom.Library(library_or_skip())
        looped = batched = 1.0
        for _ in range(40):  # (other work on the machine may slow some of them)
            start = time.process_time()
            one_by_one = [blossom.max_weight_matching(graph, engine=by) for graph in self.SMALL]
            looped = min(looped, time.process_time() - start)
            start = time.process_time()
            with mock.patch("concurrent.futures.ThreadPoolExecutor", side_effect=AssertionError):
                answers = blossom.solve_many("match", self.SMALL, engine=by)
            batched = min(batched, time.process_time() - start)
            if batched < 1.2 * looped and batched / len(self.SMALL) < 5e-4:
                break
        self.assertEqual([one.weight for one in answers], [one.weight for one in one_by_one])
        self.assertLess(batched, 1.2 * looped)
        self.assertLess(batched / len(self.SMALL), 5e-4)  # (0.1 ms, on an idle machine)

    def test_large_and_small_ones_come_in_order(self):
        by = blossom.Library(library_or_skip())
        large = [(node, node + 1, node % 7) for node in range(399)]
        graphs = [large, [(0, 1, 5)], large, [(0, 1, 6)], large]
        weights = [blossom.max_weight_matching(graph, engine=by).weight for graph in graphs]
        self.assertEqual(
            [one.weight for one in blossom.solve_many("match", graphs, engine=by)], weights
        )
        found = blossom.solve_many(
            "perfect", [large[:-1], [(0, 1, 5)]] * 2, engine=by, errors="return"
        )
        self.assertEqual(names(found), ["Infeasible", "Answer"] * 2)

    def test_calls_leave_the_interpreter_to_other_threads(self):
        by = blossom.Library(library_or_skip())
        of = blossom.Instance.from_graph(
            [
                (node, other, (node * other) % 97)
                for node in range(400)
                for other in range(node + 1, min(node + 40, 400))
            ],
            "perfect",
        )
        document = by.solve("solve", of)[1]
        for name, call in (
            ("blossom_call", lambda: by.run("solve", "perfect", of.text)),
            ("blossom_solve_arrays", lambda: by.solve("solve", of)),
            ("blossom_check_arrays", lambda: by.judge(of, document)),
        ):
            with self.subTest(name):
                self.assertTrue(self.leaves_turns(loaded(by.path), name, call))

    def leaves_turns(self, library, name, call):
        """Whether another thread has a turn while the function of this name runs, in one of many
        calls. No thread is made to give up its turn, so it has one only if the function does."""
        function, turns, inside, done = getattr(library, name), [0], [], threading.Event()

        def watched(*words):
            before = turns[0]
            status = function(*words)
            inside.append(turns[0] > before)
            return status

        def count():
            while not done.is_set():
                turns[0] += 1
                time.sleep(0)

        thread, interval = threading.Thread(target=count), sys.getswitchinterval()
        with mock.patch.object(library, name, watched):
            sys.setswitchinterval(1000)
            try:
                thread.start()
                while not any(inside) and len(inside) < 500:
                    call()
            finally:
                done.set()
                sys.setswitchinterval(interval)
                thread.join()
        return any(inside)
