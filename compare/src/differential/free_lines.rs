//! Free lines: streams in pieces, patterns at every offset, any state, and runs
//! of full length.

use super::case::{Case, Difference};
use super::random::Random;
use super::states::{any_free_line, opened_rule, opening};
use super::streams::{buffer, input_for, line_bits, packed, pattern, piece};
use super::Check;
use crate::entry::{EntryPoints, Opening};
use crate::layout::FreeLayout;
use crate::reference::bits::unpack;
use crate::reference::free::RUN_BITS;
use crate::reference::mode::BLOCK;

pub const CHECKS: &[Check] = &[streams_in_pieces, patterns_at_every_offset, any_state, full_length];

/// Gives a line the bits in pieces.
fn run_in_pieces(case: &mut Case, record: &mut [u8], bits: &[u8]) -> Result<(), Difference> {
    let mut rest = bits;
    while !rest.is_empty() {
        let (now, later) = rest.split_at(piece(&mut case.random, rest.len()));
        let input = packed(&mut case.random, now);
        let mut output = buffer(&mut case.random, now.len().div_ceil(8));
        case.free_run(record, now.len() as u64, &input, &mut output)?;
        rest = later;
    }
    Ok(())
}

pub fn streams_in_pieces(library: &dyn EntryPoints, seed: u64) -> Result<(), Difference> {
    for number in 0..2000 {
        let mut case = Case::new(library, "streams in pieces", seed, number);
        let opening = opening(&mut case.random);
        let mut record = buffer(&mut case.random, FreeLayout::BYTES);
        case.free_open(&mut record, &opening)?;
        let count = case.random.below(6000);
        let line_bits = line_bits(&mut case.random, opening.pattern, count);
        let bits = input_for(&opened_rule(&opening), &line_bits);
        run_in_pieces(&mut case, &mut record, &bits)?;
    }
    Ok(())
}

/// Every L, and patterns that end at every place of a block, with more of them
/// in the blackout and across its end.
pub fn patterns_at_every_offset(library: &dyn EntryPoints, seed: u64) -> Result<(), Difference> {
    for number in 0..11 * 136 {
        let mut case = Case::new(library, "patterns at every offset", seed, number);
        let (l, lead) = (1 + number / 136, number % 136);
        let opening = Opening { l, ..opening(&mut case.random) };
        let line_bits = around_a_blackout(&mut case.random, &opening, lead as usize);
        let bits = input_for(&opened_rule(&opening), &line_bits);
        let mut record = buffer(&mut case.random, FreeLayout::BYTES);
        case.free_open(&mut record, &opening)?;
        run_in_pieces(&mut case, &mut record, &bits)?;
    }
    Ok(())
}

fn around_a_blackout(random: &mut Random, opening: &Opening, lead: usize) -> Vec<u8> {
    let pattern = unpack(&[opening.pattern], 8);
    // A bit that no pattern ends with finds nothing, however often it comes.
    let quiet = 1 - pattern[7];
    let blackout = BLOCK * opening.l as usize;
    let before_the_end = 1 + random.below(7);

    let mut bits = vec![quiet; lead];
    bits.extend(&pattern);
    bits.extend(line_bits(random, opening.pattern, blackout - before_the_end));
    bits.extend(&pattern);
    bits.extend(vec![quiet; random.below(140)]);
    bits.extend(&pattern);
    bits.extend(line_bits(random, opening.pattern, 300));
    bits
}

pub fn any_state(library: &dyn EntryPoints, seed: u64) -> Result<(), Difference> {
    for number in 0..5000 {
        let mut case = Case::new(library, "any state of a free line", seed, number);
        let line = any_free_line(&mut case.random);
        let mut record = FreeLayout::encode(&line);
        let count = case.random.below(700);
        let line_bits = line_bits(&mut case.random, line.rule.pattern, count);
        let bits = input_for(&line.rule, &line_bits);
        run_in_pieces(&mut case, &mut record, &bits)?;
    }
    Ok(())
}

/// Runs of 524,288 bits, two on one line, and one bit more, which is refused 5.
/// Pattern 00 and zeros bring a pattern as often as the rule can find one.
pub fn full_length(library: &dyn EntryPoints, seed: u64) -> Result<(), Difference> {
    for number in 0..8 {
        let mut case = Case::new(library, "runs of full length", seed, number);
        let pattern = if number < 4 { 0x00 } else { pattern(&mut case.random) };
        let l = if number < 6 { 1 } else { 11 };
        let opening = Opening { pattern, l, direction: number % 2, ..opening(&mut case.random) };
        let count = 2 * RUN_BITS as usize;
        let line_bits = match number {
            0..4 => vec![0; count],
            _ => line_bits(&mut case.random, pattern, count),
        };
        let bits = input_for(&opened_rule(&opening), &line_bits);
        let mut record = buffer(&mut case.random, FreeLayout::BYTES);
        case.free_open(&mut record, &opening)?;
        for half in bits.chunks(RUN_BITS as usize) {
            let mut input = packed(&mut case.random, half);
            input.push(0);
            let mut output = vec![0x5A; input.len()];
            case.free_run(&mut record, RUN_BITS + 1, &input, &mut output)?;
            case.free_run(&mut record, RUN_BITS, &input, &mut output)?;
        }
    }
    Ok(())
}
