//! A text crosses a line that loses one bit; then two circuits of one building.

use tisarqluk::{Direction, FreeLine, Refusal, Settings};

const TEXT: &str = "07:00 level 4.12 m, inflow 31 l/s, pump 1 on. \
07:05 level 4.15 m, inflow 33 l/s, pump 1 on. \
07:10 level 4.19 m, inflow 36 l/s, pumps 1 and 2 on. \
07:15 level 4.16 m, inflow 34 l/s, pumps 1 and 2 on. \
07:20 level 4.11 m, inflow 30 l/s, pump 1 on.";

const KEY: [u8; 16] = *b"a key of 16 byte";
const IV: [u8; 16] = *b"and a start one.";

fn settings(direction: Direction) -> Settings<'static> {
    Settings { key: &KEY, iv: &IV, pattern: 0x80, l: 1, direction }
}

fn bits_of(bytes: &[u8]) -> Vec<u8> {
    bytes.iter().flat_map(|byte| (0..8).map(move |i| byte >> (7 - i) & 1)).collect()
}

fn text_of(bits: &[u8]) -> String {
    let bytes = bits.chunks(8).map(|c| c.iter().fold(0u8, |byte, bit| byte << 1 | bit));
    bytes.map(|b| if (32..127).contains(&b) { b as char } else { '.' }).collect()
}

/// Passes one bit through a line.
fn pass(line: &mut FreeLine, bit: u8) -> Result<u8, Refusal> {
    let mut out = [0];
    line.run(1, &[bit << 7], &mut out)?;
    Ok(out[0] >> 7)
}

/// Whether two ends stand alike: their records are equal but for the direction, byte 3.
fn in_step(a: &FreeLine, b: &FreeLine) -> bool {
    a.record().iter().zip(b.record()).enumerate().all(|(i, (x, y))| i == 3 || x == y)
}

/// Sends the text over a line that loses one bit, and tells what came out and when the ends stood alike again.
fn with_a_lost_bit(lost: usize) -> Result<(), Refusal> {
    let mut sender = FreeLine::open(&settings(Direction::Send))?;
    let mut receiver = FreeLine::open(&settings(Direction::Receive))?;
    let plain = bits_of(TEXT.as_bytes());
    let mut recovered = Vec::new();
    let mut back = None;
    for (i, bit) in plain.iter().enumerate() {
        let line_bit = pass(&mut sender, *bit)?;
        if i == lost {
            // Nothing arrives for this bit; a 0 keeps its place, so that the letters after it can be read.
            recovered.push(0);
            continue;
        }
        recovered.push(pass(&mut receiver, line_bit)?);
        if i > lost && back.is_none() && in_step(&sender, &receiver) {
            back = Some(i);
        }
    }
    println!("The text, {} bits:\n  {TEXT}\n", plain.len());
    println!("The line loses bit {}. The receiver reads:\n  {}\n", lost + 1, text_of(&recovered));
    match back {
        Some(i) => println!("Back in step after bit {}: {} bits after the one that was lost.\n", i + 1, i - lost),
        None => println!("Not back in step within this text.\n"),
    }
    Ok(())
}

/// Two tenants, each with a line of its own; one of them slips.
fn two_circuits() -> Result<(), Refusal> {
    let first = Settings { iv: &[1; 16], ..settings(Direction::Send) };
    let second = Settings { iv: &[2; 16], ..settings(Direction::Send) };
    let mut ends = Vec::new();
    for circuit in [first, second] {
        let receive = Settings { direction: Direction::Receive, ..circuit };
        ends.push((FreeLine::open(&circuit)?, FreeLine::open(&receive)?, Vec::new()));
    }
    for (i, bit) in bits_of(TEXT.as_bytes()).iter().enumerate() {
        for (tenant, (sender, receiver, recovered)) in ends.iter_mut().enumerate() {
            let line_bit = pass(sender, *bit)?;
            if tenant == 0 && i == 400 {
                recovered.push(0);
            } else {
                recovered.push(pass(receiver, line_bit)?);
            }
        }
    }
    println!("Two circuits of one building, each with its own line; the first loses bit 401.");
    for (tenant, (_, _, recovered)) in ends.iter().enumerate() {
        let wrong = recovered.iter().zip(bits_of(TEXT.as_bytes())).filter(|(a, b)| **a != *b).count();
        println!("  circuit {}: {wrong} wrong bits of {}", tenant + 1, recovered.len());
    }
    Ok(())
}

fn main() -> Result<(), Refusal> {
    with_a_lost_bit(400)?;
    two_circuits()
}
