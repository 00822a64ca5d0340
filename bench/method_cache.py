#!/usr/bin/env python3
"""Measures look-ups of kept methods in the method cache, beside reads of an object. Not part of the tests.

    bench/method_cache.py [TIMES]

Proves and builds a program over method_lookup in a folder of its own, and runs it by turns both ways: 200,000,000
rounds, each of which looks one of sixteen kept methods of Integer up, or gets one of sixteen objects. It prints the best
processor time of a round of each, in nanoseconds (of three runs without a number).
"""
import sys
import tempfile

from program import built, seconds

ROUNDS = 200_000_000

# The crates below the program, lowest first.
BELOW = ("rb_base", "chunk_list", "key_list", "list_queue", "pair_table", "rb_value", "row_table", "def_core",
         "rb_store", "rb_raise", "class_model", "method_lookup")

PROGRAM = """//! Looks kept methods up, or gets objects.
#![tactic(auto)]

ghost use Rattle.std.specs.Prelude.{◌≡◌, ◌≤◌, false, length};
ghost use Rattle.rb_value.specs.CoreClass.{is_module};
ghost use Rattle.def_core.specs.Sound.{Sound, census, Is, ClassOrModule};
ghost use Rattle.method_lookup.specs.Cache.{GoesWith};

use method_lookup::{Cache, find_cached, new_cache};
use rb_base::Steps;
use rb_store::Store;
use rb_value::{CoreClass, ObjId, SymId};
use std::alloc::AllocError;
use std::env;
use std::process::ExitCode;

/// The symbol of the first method of Integer.
const FIRST: u64 = 39;

fn look_up(cache: &mut Cache, st: &Store, class: ObjId, rounds: u64) -> Result<u64, AllocError>
    requires sound { Sound st.now.store }
    requires class { Is (census st.now.store) ClassOrModule class }
    requires goes_with { GoesWith cache.old st.now }
{
    let mut steps = Steps::new();
    let mut sum: u64 = 0;
    for round in 0..rounds {
        let name = SymId(FIRST + round % 16);
        if let Some(found) = find_cached(cache, st, class, name, &mut steps)? {
            sum = sum.wrapping_add(found.owner.0);
        }
    }
    Ok(sum.wrapping_add(steps.count()))
}

#[tactic(auto, using(def_core::proofs::Good::good_below))]
fn get(st: &Store, rounds: u64) -> u64
    requires { 16 ≤ length st.now.store.objects }
{
    let mut sum: u64 = 0;
    for round in 0..rounds {
        sum = sum.wrapping_add(st.get(ObjId(round % 16)).class().0);
    }
    sum
}

#[tactic(auto, using(class_model::proofs::Lineages::core_is_class))]
fn core_class(st: &Store, class: CoreClass) -> ObjId
    requires sound { Sound st.now.store }
    requires plain { is_module class ≡ false }
    ensures { Is (census st.now.store) ClassOrModule result }
{
    st.class_object(class)
}

fn run(rt: &HostRuntime, cached: bool, rounds: u64) -> Result<u64, AllocError> {
    let st = Store::new(rt.alloc())?;
    if cached {
        let mut cache = new_cache(rt.alloc());
        return look_up(&mut cache, &st, core_class(&st, CoreClass::Integer), rounds);
    }
    if st.len() < 16 {
        return Ok(0);
    }
    Ok(get(&st, rounds))
}

fn main(rt: HostRuntime) -> ExitCode {
    let count = match env::args(&rt) {
        Ok(args) => args.count(),
        Err(_) => 0,
    };
    // With one word the cache, else the objects; the sum is used, so that no round is left out.
    match run(&rt, count == 2, ROUNDS) {
        Ok(sum) if sum != 1 => ExitCode::SUCCESS,
        _ => ExitCode::FAILURE,
    }
}
""".replace("ROUNDS", str(ROUNDS))

INVARIANTS = """use Rattle.method_lookup.specs.Cache.{GoesWith}
use Rattle.cached.proofs.look_up.Given as goal

abbrev pub invariant-loop-round : goal.invariant-loop-round
invariant-loop-round l = record { goes_with : GoesWith l.cache l.st }
"""

ANSWERS = """use Rattle.cached.proofs.run.Goals as goal

pub look_up-requires-clause-goes_with : goal.look_up-requires-clause-goes_with
look_up-requires-clause-goes_with c = c.new_cache-cache.ensures.goes_with _
"""


FILES = {
    "src/main.rt": PROGRAM,
    "proofs/look_up/Invariants.antt": INVARIANTS,
    "proofs/run/Answers.antt": ANSWERS,
}


def main(times):
    with tempfile.TemporaryDirectory() as folder:
        program = built(folder, "cached", BELOW, FILES)
        runs = [(seconds([program]), seconds([program, "cached"])) for _ in range(times)]
        get, cached = (min(kind) * 1e9 / ROUNDS for kind in zip(*runs))
        print(f"get {get:.2f} ns, find_cached {cached:.2f} ns")


main(int(sys.argv[1]) if len(sys.argv) > 1 else 3)
