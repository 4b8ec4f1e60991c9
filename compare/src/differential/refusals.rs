//! Every refusal and the order of tries: openings, runs, ticks and closings with
//! several things wrong at once.

use super::case::{Case, Difference};
use super::random::Random;
use super::states::{any_free_line, any_paced_line, greatest_d, opening};
use super::Check;
use crate::entry::{EntryPoints, Opening};
use crate::layout::{FreeLayout, PacedLayout};
use crate::reference::bits::bytes_for;
use crate::reference::free::RUN_BITS;
use crate::reference::paced::hold;

pub const CHECKS: &[Check] = &[openings, runs, ticks_and_closings];

/// Numbers at the edges, and ones that would be in range if they were cut to 8,
/// 16 or 32 bits.
const LS: [u64; 11] = [0, 1, 2, 10, 11, 12, 255, 256 + 3, (1 << 16) + 3, (1 << 32) + 3, u64::MAX];

/// Of these some would be in range if D(L + 1) were cut to 64 bits.
fn ds(l: u64) -> Vec<u64> {
    let l = l.clamp(1, 11);
    let edge = greatest_d(l);
    let wraps = u64::MAX / (l + 1) + 1;
    vec![0, 1, edge, edge + 1, 128, 255, 256 + 5, (1 << 32) + 5, 1 << 63, wraps, u64::MAX]
}

/// An opening with the L and the lengths of key and IV given, in any direction.
fn unusual_opening(random: &mut Random, key: usize, iv: usize, l: u64) -> Opening {
    Opening {
        key: random.bytes(key),
        iv: random.bytes(iv),
        l,
        direction: random.one_of(&[0, 1, 2, 256, 1 << 32, u64::MAX]),
        ..opening(random)
    }
}

pub fn openings(library: &dyn EntryPoints, seed: u64) -> Result<(), Difference> {
    let mut number = 0;
    let lengths: [fn(usize) -> usize; 4] =
        [|_| 0, |needed| needed - 1, |needed| needed, |needed| needed + 9];
    for length in lengths {
        for key in [0, 15, 16, 17, 32] {
            for iv in [0, 15, 16, 17, 32] {
                for l in LS {
                    let mut case = Case::new(library, "openings", seed, number);
                    number += 1;
                    let opening = unusual_opening(&mut case.random, key, iv, l);
                    let mut free = case.random.bytes(length(FreeLayout::BYTES));
                    case.free_open(&mut free, &opening)?;
                    for d in ds(l) {
                        let mut paced = case.random.bytes(length(PacedLayout::BYTES));
                        case.paced_open(&mut paced, &opening, d)?;
                    }
                }
            }
        }
    }
    Ok(())
}

/// A record for a call: good, of the other kind, zeros, or too short.
fn any_record(random: &mut Random, paced: bool) -> Vec<u8> {
    let free_record = FreeLayout::encode(&any_free_line(random));
    let paced_record = PacedLayout::encode(&any_paced_line(random));
    let (mut good, other) =
        if paced { (paced_record, free_record) } else { (free_record, paced_record) };
    match random.below(8) {
        0 => other,
        1 => vec![0; good.len()],
        2 => {
            good.truncate(random.below(good.len()));
            good
        }
        3 => {
            good.extend(random.bytes(9));
            good
        }
        _ => good,
    }
}

/// So many bytes, or a few fewer or more.
fn about(random: &mut Random, needed: usize) -> Vec<u8> {
    let bytes = match random.below(6) {
        0 => 0,
        1 => needed.saturating_sub(1),
        2 => needed / 2,
        3 => needed + 1,
        _ => needed,
    };
    random.bytes(bytes)
}

pub fn runs(library: &dyn EntryPoints, seed: u64) -> Result<(), Difference> {
    for number in 0..6000 {
        let mut case = Case::new(library, "refused runs", seed, number);
        let mut record = any_record(&mut case.random, false);
        let bits = case.random.one_of(&[
            0,
            1,
            8,
            9,
            200,
            RUN_BITS + 1,
            RUN_BITS + 8,
            (1 << 32) + 1,
            1 << 61,
            (1 << 61) + 1,
            u64::MAX,
        ]);
        let needed = bytes_for(bits).min(100) as usize;
        let input = about(&mut case.random, needed);
        let mut output = about(&mut case.random, needed);
        case.free_run(&mut record, bits, &input, &mut output)?;
    }
    Ok(())
}

pub fn ticks_and_closings(library: &dyn EntryPoints, seed: u64) -> Result<(), Difference> {
    for number in 0..6000 {
        let mut case = Case::new(library, "refused ticks and closings", seed, number);
        let mut record = any_record(&mut case.random, true);
        let line = PacedLayout::decode(&record);
        let d = line.as_ref().map_or(64, |line| line.d);
        let input = about(&mut case.random, d.div_ceil(8));
        let mut output = about(&mut case.random, d.div_ceil(8));
        case.paced_tick(&mut record, &input, &mut output)?;
        let queued = PacedLayout::decode(&record)
            .map_or(hold(d), |line| line.ready.len() + line.waiting.len());
        let mut output = about(&mut case.random, queued.div_ceil(8));
        case.paced_close(&mut record, &mut output)?;
    }
    Ok(())
}
