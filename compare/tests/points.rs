//! P1 to P13 of document 01, "Points to try", on the second program.

use compare::reference::aes::{multiply, sbox};
use compare::reference::bits::unpack;
use compare::reference::counter::step;
use compare::reference::free::FreeLine;
use compare::reference::mode::Direction;
use compare::reference::paced::{hold, PacedLine};

fn stepped(counter: u128) -> u128 {
    u128::from_be_bytes(step(counter.to_be_bytes()))
}

/// A receiving line with L 1 that took the line bits.
fn after(pattern: u8, line_bits: &[u8]) -> FreeLine {
    let mut line = FreeLine::open(&[5; 16], &[6; 16], pattern, 1, Direction::Receive).unwrap();
    line.rule.pass_all(line_bits);
    line
}

/// The numbers, counted from 1, of the bits at which a pattern is found.
fn found(pattern: u8, line_bits: &[u8]) -> Vec<usize> {
    (1..=line_bits.len())
        .filter(|&n| {
            let before = after(pattern, &line_bits[..n - 1]).rule.left;
            before == 0 && after(pattern, &line_bits[..n]).rule.left > 0
        })
        .collect()
}

#[test]
fn p1_to_p5_the_counter() {
    assert_eq!(stepped(1), 1 << 127);
    assert_eq!(stepped(4), 1 << 127 | 2);
    assert_eq!(stepped(1 << 29), 1 << 127 | 1 << 28);
    assert_eq!(stepped(u128::MAX), u128::MAX >> 1);
    assert_eq!(stepped(1 << 127), 1 << 126);
}

#[test]
fn p6_and_p7_the_field_and_the_s_box() {
    assert_eq!(multiply(0x57, 0x83), 0xC1);
    assert_eq!((sbox(0x53), sbox(0x00)), (0xED, 0x63));
}

#[test]
fn p8_the_counter_becomes_the_collected_iv() {
    let v: [u8; 16] = std::array::from_fn(|i| (i * 17 + 3) as u8);
    let line_bits = unpack(&[&[0x80], &v[..]].concat(), 136);
    let line = after(0x80, &line_bits).rule;
    assert_eq!((line.keystream.counter(), line.keystream.place()), (v, 0));
    assert!(line.window.is_empty());
}

#[test]
fn p9_found_at_bit_15_and_the_new_counter_from_bit_144() {
    let line_bits = unpack(&[[0x01, 0x00].to_vec(), vec![0x3C; 18]].concat(), 160);
    assert_eq!(found(0x80, &line_bits)[0], 15);
    let iv: Vec<u8> = line_bits[15..143].to_vec();
    let line = after(0x80, &line_bits[..143]).rule;
    assert_eq!(unpack(&line.keystream.counter(), 128), iv);
    assert_eq!(line.keystream.place(), 0);
}

#[test]
fn p10_the_ninth_one_is_the_ivs_first_bit() {
    assert_eq!(found(0xFF, &[1; 9]), [8]);
    assert_eq!(after(0xFF, &[1; 9]).rule.iv, [1]);
}

#[test]
fn p11_seven_zeros_are_no_pattern_00() {
    assert!(found(0x00, &[0; 7]).is_empty());
}

#[test]
fn p12_the_window_does_not_reach_back_into_the_blackout() {
    let bytes = [vec![0x80], vec![0x00; 15], vec![0x01, 0x00]].concat();
    assert_eq!(found(0x80, &unpack(&bytes, 144)), [8]);
}

#[test]
fn p13_the_first_ticks() {
    let mut line = PacedLine::open(&[5; 16], &[6; 16], 0x80, 1, Direction::Send, 64).unwrap();
    assert_eq!(hold(64), 318);
    let moved: Vec<_> = (0..5).map(|_| line.tick(&[0; 8], &mut [0; 8]).unwrap()).collect();
    assert_eq!(moved.iter().map(|m| m.bits).collect::<Vec<_>>(), [0, 0, 0, 0, 2]);
    assert_eq!((moved[0].waiting, moved[1].waiting), (64, 0));
}
