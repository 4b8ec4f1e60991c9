//! Paced lines: every L with every D allowed, ticks and closings, and any state.

use super::case::{Case, Difference};
use super::states::{any_paced_line, greatest_d, opened_rule, opening};
use super::streams::{buffer, input_for, line_bits, packed};
use super::Check;
use crate::entry::{EntryPoints, Opening};
use crate::layout::PacedLayout;
use crate::reference::bits::bytes_for;
use crate::reference::paced::hold;

pub const CHECKS: &[Check] = &[every_l_and_d, any_state];

/// Gives a line its ticks, then closes it, then finds it closed.
fn tick_and_close(
    case: &mut Case,
    record: &mut [u8],
    d: usize,
    bits: &[u8],
) -> Result<(), Difference> {
    let needed = d.div_ceil(8);
    for now in bits.chunks_exact(d) {
        let input = packed(&mut case.random, now);
        let mut output = buffer(&mut case.random, needed);
        case.paced_tick(record, &input, &mut output)?;
    }
    let mut output = buffer(&mut case.random, bytes_for(hold(d) as u64) as usize);
    case.paced_close(record, &mut output)?;
    let (input, mut output) = (case.random.bytes(needed), case.random.bytes(60));
    case.paced_tick(record, &input, &mut output)?;
    case.paced_close(record, &mut output)?;
    Ok(())
}

/// Long enough for several blackouts to pass the queue, and at least 200 ticks;
/// now and then shorter, down to a closing right after the opening.
pub fn every_l_and_d(library: &dyn EntryPoints, seed: u64) -> Result<(), Difference> {
    let mut number = 0;
    for l in 1..=11 {
        for d in 1..=greatest_d(l) {
            let mut case = Case::new(library, "every L and D", seed, number);
            number += 1;
            let opening = Opening { l, ..opening(&mut case.random) };
            let mut record = buffer(&mut case.random, PacedLayout::BYTES);
            case.paced_open(&mut record, &opening, d)?;
            let d = d as usize;
            let mut count = (hold(d) + 256 * l as usize + 800).max(200 * d);
            if case.random.once_in(4) {
                count = case.random.below(count);
            }
            let line_bits = line_bits(&mut case.random, opening.pattern, count);
            let bits = input_for(&opened_rule(&opening), &line_bits);
            tick_and_close(&mut case, &mut record, d, &bits)?;
        }
    }
    Ok(())
}

pub fn any_state(library: &dyn EntryPoints, seed: u64) -> Result<(), Difference> {
    for number in 0..5000 {
        let mut case = Case::new(library, "any state of a paced line", seed, number);
        let line = any_paced_line(&mut case.random);
        let mut record = PacedLayout::encode(&line);
        let count = line.d * case.random.below(8);
        let line_bits = line_bits(&mut case.random, line.rule.pattern, count);
        let mut after_the_waiting = line.rule.clone();
        after_the_waiting.pass_all(&line.waiting);
        let bits = input_for(&after_the_waiting, &line_bits);
        tick_and_close(&mut case, &mut record, line.d, &bits)?;
    }
    Ok(())
}
