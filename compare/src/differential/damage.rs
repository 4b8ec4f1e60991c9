//! Damaged records: every byte by itself, several fields at once, and counts that
//! still fit together.

use super::case::{Case, Difference};
use super::random::Random;
use super::states::{any_free_line, any_paced_line};
use super::Check;
use crate::entry::EntryPoints;
use crate::layout::{Field, FreeLayout, PacedLayout, FILLERS, READY, WAITING};
use crate::reference::bits::bytes_for;

pub const CHECKS: &[Check] = &[
    every_byte_of_a_free_record,
    every_byte_of_a_paced_record,
    fields_of_a_free_record,
    fields_of_a_paced_record,
    counts_of_a_paced_record,
];

fn run(case: &mut Case, record: &mut [u8]) -> Result<(), Difference> {
    let bits = case.random.one_of(&[0, 1, 9, 40, 140]);
    let input = case.random.bytes(bytes_for(bits) as usize);
    let mut output = case.random.bytes(input.len());
    case.free_run(record, bits, &input, &mut output)?;
    Ok(())
}

fn tick_and_close(case: &mut Case, record: &mut [u8]) -> Result<(), Difference> {
    let input = case.random.bytes(15);
    let mut output = case.random.bytes(60);
    case.paced_tick(record, &input, &mut output)?;
    case.paced_close(record, &mut output)?;
    Ok(())
}

/// The record with one byte changed: each byte of a number to every value, and
/// of bits each bit alone.
fn with_one_byte_changed(record: &[u8], fields: &[Field]) -> Vec<Vec<u8>> {
    let mut damaged = Vec::new();
    for field in fields {
        for at in field.start..field.start + field.bytes {
            let values: Vec<u8> = if field.bytes <= 2 {
                (0..=255).collect()
            } else {
                (0..8).map(|bit| record[at] ^ (1 << bit)).collect()
            };
            for value in values {
                let mut record = record.to_vec();
                record[at] = value;
                damaged.push(record);
            }
        }
    }
    damaged
}

pub fn every_byte_of_a_free_record(library: &dyn EntryPoints, seed: u64) -> Result<(), Difference> {
    for number in 0..20 {
        let mut case = Case::new(library, "every byte of a free record", seed, number);
        let record = FreeLayout::encode(&any_free_line(&mut case.random));
        for mut damaged in with_one_byte_changed(&record, &FreeLayout::fields()) {
            run(&mut case, &mut damaged)?;
        }
    }
    Ok(())
}

pub fn every_byte_of_a_paced_record(
    library: &dyn EntryPoints,
    seed: u64,
) -> Result<(), Difference> {
    for number in 0..12 {
        let mut case = Case::new(library, "every byte of a paced record", seed, number);
        let record = PacedLayout::encode(&any_paced_line(&mut case.random));
        for mut damaged in with_one_byte_changed(&record, &PacedLayout::fields()) {
            tick_and_close(&mut case, &mut damaged)?;
        }
    }
    Ok(())
}

/// Changes a field: a number to one near it or at an edge, bits by one bit.
fn damage(random: &mut Random, record: &mut [u8], field: &Field) {
    if field.bytes <= 2 {
        let edges = [0, 1, 7, 8, 11, 12, 64, 65, 117, 118, 127, 128, 129, 256, 1408, 1409];
        let number = field.number(record);
        let number = match random.below(4) {
            0 => number + 1,
            1 => number.saturating_sub(1),
            2 => random.below(1 << (8 * field.bytes)),
            _ => random.one_of(&edges),
        };
        field.put_number(record, number % (1 << (8 * field.bytes)));
    } else {
        record[field.start + random.below(field.bytes)] ^= 1 << random.below(8);
    }
}

/// Damages one to three fields.
fn damage_some(random: &mut Random, record: &mut [u8], fields: &[Field]) {
    for _ in 0..=random.below(3) {
        let field = &fields[random.below(fields.len())];
        damage(random, record, field);
    }
}

pub fn fields_of_a_free_record(library: &dyn EntryPoints, seed: u64) -> Result<(), Difference> {
    let fields = FreeLayout::fields();
    for number in 0..20_000 {
        let mut case = Case::new(library, "fields of a free record", seed, number);
        let mut record = FreeLayout::encode(&any_free_line(&mut case.random));
        damage_some(&mut case.random, &mut record, &fields);
        run(&mut case, &mut record)?;
    }
    Ok(())
}

pub fn fields_of_a_paced_record(library: &dyn EntryPoints, seed: u64) -> Result<(), Difference> {
    let fields = PacedLayout::fields();
    for number in 0..20_000 {
        let mut case = Case::new(library, "fields of a paced record", seed, number);
        let mut record = PacedLayout::encode(&any_paced_line(&mut case.random));
        damage_some(&mut case.random, &mut record, &fields);
        tick_and_close(&mut case, &mut record)?;
    }
    Ok(())
}

/// Bits moved between the queue's counts, so that they stay M together.
pub fn counts_of_a_paced_record(library: &dyn EntryPoints, seed: u64) -> Result<(), Difference> {
    for number in 0..10_000 {
        let mut case = Case::new(library, "counts of a paced record", seed, number);
        let mut record = PacedLayout::encode(&any_paced_line(&mut case.random));
        let counts = [FILLERS, READY, WAITING];
        let (from, to) = (&counts[case.random.below(3)], &counts[case.random.below(3)]);
        let moved = case.random.below(from.number(&record) + 1);
        let fewer = from.number(&record) - moved;
        from.put_number(&mut record, fewer);
        let more = to.number(&record) + moved;
        to.put_number(&mut record, more);
        tick_and_close(&mut case, &mut record)?;
    }
    Ok(())
}
