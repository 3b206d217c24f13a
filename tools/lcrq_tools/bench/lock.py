"""How long a short hold of the ticket lock takes: four threads with 20,000 holds each, beside one thread with 80,000.

    python3 tools/bench.py lock [--runs N] [--holds N]

A program is written into a temporary folder beside a copy of `crates/rd_lock`, and `rt try` builds and runs it there,
several times over. It is not proved: it is only timed, and each run checks that no hold was lost. Standard output gets
one Markdown table with the median, the least and the greatest of the runs. `rt` has to be on the PATH. Only Python's
standard library is used.

A hold takes the value, adds 1 to a number in it, and puts it back. The program reads the clock before the first thread
starts and after the last has ended.
"""

import re
import statistics
import sys

from lcrq_tools import program
from lcrq_tools.bench.measures import SPREAD, print_times
from lcrq_tools.faults import Parser

PROGRAM = """//! Times short holds of the ticket lock.
#![tactic(auto)]

use rd_lock::{Pass, Recorded, TicketLock};
use std::io;
use std::process::Abort;
use std::sync::Wait;
use std::thread::join;
use std::time::Instant;

#[derive(Drop)]
struct Count {
    holds: u64,
}

impl Recorded for Count {
    type Entry = ();
    type Origin = ();

    ghost use Rattle.std.specs.Prelude.{[]};

    ghost history = { λ _. [] };

    ghost origin = { λ _. tt };
}

fn work<R: Abort + Wait>(rt: &R, lock: &TicketLock<Count>, mut pass: Pass<Count>, holds: u64) -> Pass<Count> {
    for _ in 0..holds {
        let Ok(mut count) = lock.take(rt, &mut pass) else {
            panic!(rt; "no tickets")
        };
        count.holds += 1;
        lock.put_back(&mut pass, count);
    }
    pass
}

fn next_pass(rt: &impl Abort, passes: &mut Vec<Pass<Count>>) -> Pass<Count> {
    let Some(pass) = passes.pop() else {
        panic!(rt; "too few passes")
    };
    pass
}

fn main(rt: HostRuntime) -> io::Result<()> {
    for _run in 0..RUNS {
        let Ok((lock, mut passes)) = TicketLock::open(rt.alloc(), Count { holds: 0 }, 5) else {
            panic!(&rt; "out of memory")
        };
        let host = &rt;
        let shared = &lock;
        let a = next_pass(&rt, &mut passes);
        let b = next_pass(&rt, &mut passes);
        let c = next_pass(&rt, &mut passes);
        let d = next_pass(&rt, &mut passes);
        let start = Instant::now(&rt)?;
        let ((a, b), (c, d)) = join(
            host,
            move || join(host, move || work(host, shared, a, HOLDS), move || work(host, shared, b, HOLDS)),
            move || join(host, move || work(host, shared, c, HOLDS), move || work(host, shared, d, HOLDS)),
        );
        let four = start.elapsed(&rt)?.as_micros();
        let alone = next_pass(&rt, &mut passes);
        let start = Instant::now(&rt)?;
        let alone = work(&rt, &lock, alone, 4 * HOLDS);
        let one = start.elapsed(&rt)?.as_micros();
        let Ok(handed) = vec![in rt.alloc(); a, b, c, d, alone] else {
            panic!(&rt; "out of memory")
        };
        let Ok(count) = lock.close(handed) else {
            panic!(&rt; "busy")
        };
        let holds = count.holds;
        println!(rt; "four {four} one {one} holds {holds}")?;
    }
    Ok(())
}
"""


def main() -> int:
    parser = Parser(__doc__, "--runs 3")
    parser.add_argument("--runs", type=int, default=9, help="how often both are timed (9)")
    parser.add_argument("--holds", type=int, default=20_000, help="holds of each thread (20000)")
    given = parser.parse_args()
    source = PROGRAM.replace("RUNS", str(given.runs)).replace("HOLDS", str(given.holds))
    ran = program.try_program(source, ["rd_lock"], ["rd_lock"])
    found = re.findall(r"four (\d+) one (\d+) holds (\d+)", ran.stdout)
    rows = [(int(four), int(alone)) for four, alone, holds in found if int(holds) == 8 * given.holds]
    if len(rows) != given.runs or len(found) != given.runs:
        print(ran.stdout, ran.stderr, sep="\n", file=sys.stderr)
        return 1
    program.print_head("What", *SPREAD, "A hold")
    names = [f"4 threads, {given.holds:,} holds each", f"1 thread, {4 * given.holds:,} holds"]
    for name, micros in zip(names, zip(*rows)):
        a_hold = 1000 * statistics.median(micros) / (4 * given.holds)
        print_times(name, [time / 1000 for time in micros], "{:.1f} ms", f"{a_hold:,.0f} ns")
    return 0
