//! The library against the second program, through the C boundary.

use compare::boundary::Library;
use compare::differential::random::seed;
use compare::differential::{blocks, damage, free_lines, paced_lines, refusals, run, Check};
use compare::entry::{EntryPoints, Opening};
use compare::layout::{FreeLayout, PacedLayout};
use compare::reference::free::RUN_BITS;

fn hold_to(checks: &[Check]) {
    if let Err(difference) = run(checks, &Library, seed()) {
        panic!("{difference}");
    }
}

#[test]
fn the_records_have_the_layouts_sizes() {
    assert_eq!(Library.free_record_bytes(), FreeLayout::BYTES);
    assert_eq!(Library.paced_record_bytes(), PacedLayout::BYTES);
}

#[test]
fn blocks() {
    hold_to(blocks::CHECKS);
}

#[test]
fn free_lines() {
    hold_to(free_lines::CHECKS);
}

#[test]
fn paced_lines() {
    hold_to(paced_lines::CHECKS);
}

#[test]
fn refusals() {
    hold_to(refusals::CHECKS);
}

#[test]
fn damaged_records() {
    hold_to(damage::CHECKS);
}

/// Patterns and blackouts as often as the rule can have them: 3,855 of them, on
/// a stack of 64 KiB.
#[test]
fn the_worst_run_on_a_small_stack() {
    let opening =
        Opening { key: vec![0x2B; 16], iv: vec![0x7E; 16], pattern: 0, l: 1, direction: 1 };
    let mut record = vec![0; FreeLayout::BYTES];
    assert_eq!(Library.free_open(&mut record, &opening), 0);
    let input = vec![0; RUN_BITS as usize / 8];
    let mut output = input.clone();
    let run = std::thread::Builder::new()
        .stack_size(64 << 10)
        .spawn(move || Library.free_run(&mut record, RUN_BITS, &input, &mut output))
        .expect("a thread");
    assert_eq!(run.join().expect("the run returns"), 0);
}
