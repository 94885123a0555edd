#!/usr/bin/env python3
"""The counted steps of `solve perfect`, as a part of the number that is promised at most, (n +
1)(3n + 2)(m + 1); and those of each phase of a pass with weights, as a part of 4m(1 + s) + 3n + 2,
where s is the number of blossoms that it begins with.

The counter of the program is a number of contracts that no code reads, so this makes a copy of
the crates in which it is a real one that the program prints after its answer, and runs the copy
unproved (`rt try`), which is slow. A run isn't made of phases: a second program, which is made
here, calls `phase` until no exposed node is left."""
import os
import shutil
import subprocess
import sys
import tempfile

import families
from timing import HERE

TOP = os.path.join(HERE, "..")
EDITS = {
    "crates/base_types/src/steps.rt": [
        ("    share: Share<L>,\n}", "    share: Share<L>,\n    count: u64,\n}"),
        (
            "        Steps { book, share }",
            "        Steps {\n            book,\n            share,\n            count: 0,\n        }",
        ),
        (
            "        self.book.add(&mut self.share, 1);",
            "        self.book.add(&mut self.share, 1);\n        self.count = self.count.wrapping_add(1);",
        ),
        (
            "    /// Counts one step more.",
            "    pub fn counted(&self) -> u64 {\n        self.count\n    }\n\n    /// Counts one step more.",
        ),
    ],
    "crates/blossom/src/main.rt": [
        (
            "use mb_base::{OutOfMemory, RealIn, RealOut, Steps};",
            "use mb_base::{OutOfMemory, RealIn, RealOut, Steps, write_all};",
        ),
        (
            "    run(rt.alloc(), words, &mut source, &mut sink, &mut steps)\n",
            "    let status = run(rt.alloc(), words, &mut source, &mut sink, &mut steps);\n"
            "    let mut power = 100_000_000_000_000u64;\n"
            "    while power > 0 {\n"
            "        let digit = (steps.counted() / power % 10) as u8 + 48;\n"
            "        let _ = write_all(&mut sink, &[digit]);\n"
            "        power /= 10;\n"
            "    }\n"
            "    status\n",
        ),
    ],
}


PHASES = """#![tactic(auto)]

use alt_forest::{Search, Weights};
use dimacs_read::read;
use mb_base::{OutOfMemory, RealIn, RealOut, Sink, Steps, read_all, write_all};
use mb_problem::Kind;
use mwpm_engine::{PhaseEnd, phase, start_duals};
use std::alloc::Global;
use std::io;
use std::marker::Brand;
use std::process::ExitCode;
use std::sync::ledger::{Blank, Ledger};
use weighted_graph::Graph;

fn least(graph: &Graph) -> i64 {
    let mut least = 0;
    for edge in graph.edge_list() {
        if edge.w < least {
            least = edge.w;
        }
    }
    least
}

fn go<L: Ledger>(alloc: Global, graph: &Graph, blank: Blank, sink: &mut impl Sink) -> Result<(), OutOfMemory> {
    let mut steps = Steps::<L>::new(blank);
    let mut search = Search::new(alloc, graph)?;
    search.reset(graph, Weights::Given, least(graph));
    start_duals(&mut search, graph, &mut steps);
    loop {
        let blossoms = search.arena.blossoms().count();
        let before = steps.counted();
        let end = phase(&mut search, graph, &mut steps);
        if end == PhaseEnd::Stuck {
            return Ok(());
        }
        let counted = steps.counted() - before;
        let text = format!(in alloc; "phase {blossoms} {counted}\n")?;
        let _ = write_all(sink, text.as_bytes());
    }
}

fn main(rt: HostRuntime) -> ExitCode {
    let alloc = rt.alloc();
    let Ok(bytes) = read_all(alloc, &mut RealIn::new(rt.reader()), 1_073_741_824) else {
        return ExitCode::from(1u8);
    };
    let Ok((instance, _)) = read(alloc, &bytes, Kind::Perfect) else {
        return ExitCode::from(2u8);
    };
    let Ok(graph) = instance.graph() else {
        return ExitCode::from(3u8);
    };
    let _ = go::<Brand>(alloc, &graph, Blank::new(1), &mut RealOut::new(io::writer(&rt)));
    ExitCode::SUCCESS
}
"""


def copy_that_counts(folder):
    """A copy of the crates whose program prints its steps, 15 digits, after its answer."""
    shutil.copytree(
        os.path.join(TOP, "crates"),
        os.path.join(folder, "crates"),
        ignore=shutil.ignore_patterns("out", "proofs", "must-fail"),
    )
    for name in ("crates.txt", "HANDLES"):
        shutil.copy(os.path.join(TOP, name), folder)
    for path, edits in EDITS.items():
        with open(os.path.join(folder, path), encoding="utf-8") as file:
            text = file.read()
        for old, new in edits:
            if text.count(old) != 1:
                sys.exit("%s has no such line once: %s" % (path, old))
            text = text.replace(old, new)
        with open(os.path.join(folder, path), "w", encoding="utf-8") as file:
            file.write(text)
    phases = os.path.join(folder, "crates", "phases")
    os.makedirs(os.path.join(phases, "src"))
    with open(os.path.join(phases, "src", "main.rt"), "w", encoding="utf-8") as file:
        file.write(PHASES)
    with open(os.path.join(folder, "crates.txt"), "a", encoding="utf-8") as file:
        file.write(
            "phases: base_types mb_base graph_theory weighted_graph mb_problem dimacs_read blossom_arena alt_forest mwpm_engine\n"
        )
    return os.path.join(folder, "crates", "blossom"), phases


def printed(program, words, given):
    """What a run of the copy wrote, by lines, and what it said."""
    done = subprocess.run(
        ["rt", "try", "--seconds", "600", "--"] + words,
        cwd=program,
        input=given,
        capture_output=True,
    )
    return done.stdout.decode("latin-1").replace("\r", "").split("\n"), done


def phase_part(program, given, n, m):
    """Of the phases of a pass with weights: how many there were, and the greatest part of its
    bound that one has counted."""
    lines, done = printed(program, [], given)
    phases = [tuple(map(int, line.split()[1:])) for line in lines if line.startswith("phase ")]
    if not phases and done.returncode:
        sys.exit("no phases in %r %r" % (done.stdout[-300:], done.stderr[-300:]))
    return len(phases), max(
        (counted / (4 * m * (1 + blossoms) + 3 * n + 2) for blossoms, counted in phases), default=0
    )


def steps(program, given):
    last, done = printed(program, ["solve", "perfect", "--brief"], given)
    digits = [line[:15] for line in last if line[:15].isdigit() and len(line) >= 15]
    if not digits:
        sys.exit("no count in %r %r" % (done.stdout[-300:], done.stderr[-300:]))
    return int(digits[-1])


def main():
    with tempfile.TemporaryDirectory() as folder:
        program, phases = copy_that_counts(folder)
        for name, given in (
            ("random, 3 edges a vertex, weights 0", families.random_graph(100, 300, 0)),
            ("random, 3 edges a vertex", families.random_graph(100, 300, 10**9)),
            ("random, 16 edges a vertex", families.random_graph(100, 1600, 10**9)),
            ("a chain of triangles", families.chain_of_triangles(96, 10**9)),
            ("nearest neighbours in a plane", families.nearest_neighbours(100, 8)),
            ("nested odd sets", families.nested_sets(100, 10**6)),
            ("no perfect matching", families.without_matching(100, 400, 10**9)),
        ):
            n, m = map(int, given.split(b"\n")[0].split()[2:4])
            most = (n + 1) * (3 * n + 2) * (m + 1)
            counted = steps(program, given)
            count, part = phase_part(phases, given, n, m)
            print(
                "%-40s n %4d  m %5d  steps %9d  of at most %11d  %.4f  phases %3d  the greatest %.2f"
                % (name, n, m, counted, most, counted / most, count, part),
                flush=True,
            )


if __name__ == "__main__":
    main()
