#!/usr/bin/env python3
"""How long the proved code takes to build the parts of the library.

    python3 bench/library_build.py [RUNS]

Run from the top of the repository, where th_base, th_num and th_count are built: it writes a crate `library_times`, a program that starts a kernel,
builds as many parts of the library as it is given words, and ends with the number of definitions as its status; proves it and builds it (`rt run`);
prints the least and the mean milliseconds of RUNS runs (30) for no part, one, two and three; and takes the crate away again."""
import os
import shutil
import subprocess
import sys
import time

PROGRAM = """//! Builds parts of the library.
#![tactic(auto)]

ghost use Rattle.std.specs.Prelude.{◌≡◌, IfOk};
ghost use Rattle.hol_terms.specs.Base.{base};
ghost use Rattle.script_core.specs.Shelves.{AreOn, ShelfHad};
ghost use Rattle.nd_rules.specs.Kept.{HasRules};
ghost use Rattle.th_base.specs.Facts.{base_facts};
ghost use Rattle.th_num.specs.Facts.{num_facts};

use hol_kernel::Kernel;
use kernel_lines::start;
use nd_rules::Rules;
use script_core::Shelf;
use std::alloc::{AllocError, Global};
use std::env;
use std::process::ExitCode;
use std::rt::Env;

// A kernel, the rules that serve it, and a shelf.
#[derive(Drop)]
struct Built {
    kernel: Kernel,
    rules: Rules,
    shelf: Shelf,
}

// With the first library.
#[tactic(auto, using(crate::proofs::Built::first_lemmas))]
fn first(alloc: Global) -> Result<Built, AllocError>
    ensures rules { IfOk result (λ b. HasRules b.kernel b.rules) }
    ensures defs { IfOk result (λ b. b.kernel.defs ≡ base 33) }
    ensures base_facts { IfOk result (λ b. AreOn b.shelf base_facts) }
    ensures shelf { IfOk result (λ b. ShelfHad b.kernel b.shelf) }
{
    let mut kernel = start(alloc)?;
    let rules = Rules::new(alloc, &mut kernel)?;
    let mut shelf = Shelf::new(alloc)?;
    th_base::build(alloc, &mut kernel, &rules, &mut shelf)?;
    Ok(Built {
        kernel,
        rules,
        shelf,
    })
}

// With numbers and path codes behind it.
#[tactic(auto, using(crate::proofs::Built::more_lemmas))]
fn with_numbers(alloc: Global) -> Result<Built, AllocError>
    ensures rules { IfOk result (λ b. HasRules b.kernel b.rules) }
    ensures defs { IfOk result (λ b. b.kernel.defs ≡ base 43) }
    ensures base_facts { IfOk result (λ b. AreOn b.shelf base_facts) }
    ensures num_facts { IfOk result (λ b. AreOn b.shelf num_facts) }
    ensures shelf { IfOk result (λ b. ShelfHad b.kernel b.shelf) }
{
    let Built {
        mut kernel,
        rules,
        mut shelf,
    } = first(alloc)?;
    th_num::build(alloc, &mut kernel, &rules, &mut shelf)?;
    Ok(Built {
        kernel,
        rules,
        shelf,
    })
}

// And with countable sets.
fn with_countable_sets(alloc: Global) -> Result<Built, AllocError> {
    let Built {
        mut kernel,
        rules,
        mut shelf,
    } = with_numbers(alloc)?;
    th_count::build(alloc, &mut kernel, &rules, &mut shelf)?;
    Ok(Built {
        kernel,
        rules,
        shelf,
    })
}

// The words of the command line begin with the program's name.
fn built(alloc: Global, words: usize) -> Result<Kernel, AllocError> {
    match words {
        0 | 1 => start(alloc),
        2 => {
            let Built { kernel, .. } = first(alloc)?;
            Ok(kernel)
        }
        3 => {
            let Built { kernel, .. } = with_numbers(alloc)?;
            Ok(kernel)
        }
        _ => {
            let Built { kernel, .. } = with_countable_sets(alloc)?;
            Ok(kernel)
        }
    }
}

fn words<R: Env + AllocGlobal>(rt: &R) -> Result<Vec<String>, AllocError> {
    match env::args(rt) {
        Ok(args) => args.collect(rt.alloc()),
        Err(_) => Ok(Vec::new(rt.alloc())),
    }
}

fn main(rt: HostRuntime) -> ExitCode {
    let Ok(words) = words(&rt) else {
        return ExitCode::from(0);
    };
    match built(rt.alloc(), words.len()) {
        Ok(kernel) => match kernel.defs().len() {
            10 => ExitCode::from(10),
            33 => ExitCode::from(33),
            43 => ExitCode::from(43),
            49 => ExitCode::from(49),
            _ => ExitCode::from(1),
        },
        Err(AllocError) => ExitCode::from(0),
    }
}
"""
USES = "hol_kernel hol_terms kernel_lines library_facts library_steps nd_rules script_core th_base th_count th_num"
CRATE = "crates/library_times"


def milliseconds(parts, runs):
    """The least and the mean of the runs, and the status."""
    command = ["./out/library_times"] + ["part"] * parts
    times = []
    for _ in range(runs):
        before = time.perf_counter()
        status = subprocess.run(command, cwd=CRATE).returncode
        times.append(1000 * (time.perf_counter() - before))
    return min(times), sum(times) / runs, status


def main():
    runs = int(sys.argv[1]) if len(sys.argv) > 1 else 30
    crates = open("crates.txt").read()
    os.makedirs(CRATE + "/src")
    os.makedirs(CRATE + "/proofs")
    try:
        with open("crates.txt", "a") as file:
            file.write("library_times: %s\n" % USES)
        with open(CRATE + "/src/main.rt", "w") as file:
            file.write(PROGRAM)
        for name in ("Lib", "Built"):
            shutil.copy("crates/library_tests/proofs/%s.antt" % name, CRATE + "/proofs")
        lemma = open(CRATE + "/proofs/Built.antt").read().replace("library_tests", "library_times")
        with open(CRATE + "/proofs/Built.antt", "w") as file:
            file.write(lemma)
        subprocess.run(["rt", "run"], cwd=CRATE, stdout=subprocess.DEVNULL)
        for parts in range(4):
            print("%d parts: least %.1f ms, mean %.1f ms, %d definitions" % (parts, *milliseconds(parts, runs)))
    finally:
        shutil.rmtree(CRATE)
        with open("crates.txt", "w") as file:
            file.write(crates)


main()
