#!/usr/bin/env python3
"""Measures reads and writes of registers through a window, beside those of a plain vector. Not part of the tests.

    bench/registers.py [TIMES]

Proves and builds a program over stack_bank in a folder of its own, and runs it by turns both ways: 2,000,000,000
rounds, each of which reads one slot and writes another. It prints the best processor time of each (of three without a
number) and their ratio, which is to stay below 1.3.
"""
import sys
import tempfile

from program import built, seconds

# The crates below the program, lowest first.
BELOW = ("rb_base", "slot_pool", "key_list", "list_queue", "pair_table", "rb_value", "stack_bank")

PROGRAM = """//! Reads and writes registers through a window of a stack, or places of a vector.
#![tactic(auto)]

ghost use Rattle.std.specs.Prelude.{◌≡◌, ◌+◌, ◌≤◌, length, vec_len};
ghost use Rattle.stack_bank.specs.Bank.{IsLive, slots};
ghost use Rattle.stack_bank.specs.Window.{Reaches};

use rb_value::Value;
use stack_bank::{StackBank, Window};
use std::alloc::AllocError;
use std::env;
use std::process::ExitCode;

const SIZE: usize = 64;

fn through_window(bank: &mut StackBank, window: Window, rounds: u64)
    requires reaches { Reaches bank.old window }
    requires live { IsLive bank.old window.id.0 }
    requires within { window.base + 64 ≤ length (slots bank.old window.id.0) }
{
    for round in 0..rounds {
        let i = (round % 32) as usize;
        let value = bank.get_in(window, i);
        bank.set_in(window, i + 32, value);
    }
}

fn through_vector(places: &mut Vec<Value>, rounds: u64)
    requires { 64 ≤ vec_len places.old }
{
    for round in 0..rounds {
        let i = (round % 32) as usize;
        let value = places[i];
        places[i + 32] = value;
    }
}

fn run(rt: &HostRuntime, window: bool, rounds: u64) -> Result<(), AllocError> {
    if window {
        let mut bank = StackBank::new(rt.alloc());
        let stack = bank.open_stack()?;
        bank.grow(stack, SIZE)?;
        let window = bank.window(stack, 0, SIZE);
        through_window(&mut bank, window, rounds);
    } else {
        let mut places = Vec::new(rt.alloc());
        places.resize(SIZE, Value::Nil)?;
        through_vector(&mut places, rounds);
    }
    Ok(())
}

fn main(rt: HostRuntime) -> ExitCode {
    let count = match env::args(&rt) {
        Ok(args) => args.count(),
        Err(_) => 0,
    };
    // With one word the window, else the vector.
    match run(&rt, count == 2, 2_000_000_000) {
        Ok(()) => ExitCode::SUCCESS,
        Err(_) => ExitCode::FAILURE,
    }
}
"""

INVARIANTS = """use Rattle.std.proofs.Common.{◌≡◌, ◌+◌, ◌≤◌, length}
use Rattle.stack_bank.specs.Bank.{IsLive, slots}
use Rattle.stack_bank.specs.Window.{Reaches}
use Rattle.registers.proofs.through_window.Given as goal

abbrev pub invariant-loop-round : goal.invariant-loop-round
invariant-loop-round l = record {
  reaches : Reaches l.bank l.window;
  live : IsLive l.bank l.window.id.0;
  within : l.window.base + 64 ≤ length (slots l.bank l.window.id.0);
}
"""


FILES = {"src/main.rt": PROGRAM, "proofs/through_window/Invariants.antt": INVARIANTS}


def main(times):
    with tempfile.TemporaryDirectory() as folder:
        program = built(folder, "registers", BELOW, FILES)
        runs = [(seconds([program]), seconds([program, "window"])) for _ in range(times)]
        vector, window = (min(kind) for kind in zip(*runs))
        print(f"vector {vector:.2f} s, window {window:.2f} s, ratio {window / vector:.2f}")


main(int(sys.argv[1]) if len(sys.argv) > 1 else 3)
