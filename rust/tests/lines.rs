//! Lines through the crate's interface: two ends, records handed on, refusals.

use tisarqluk::{
    Direction, FreeLine, PacedLine, Refusal, Settings, CLOSE_BYTES, RUN_BITS, TICK_BYTES,
};

const SENDING: Settings = Settings {
    key: b"a key of 16 byte",
    iv: b"and an IV of 16.",
    pattern: 0x86,
    l: 2,
    direction: Direction::Send,
};

const RECEIVING: Settings = Settings { direction: Direction::Receive, ..SENDING };

fn text(bytes: usize) -> Vec<u8> {
    (0..bytes).map(|i| (i * 31 + i * i / 7) as u8).collect()
}

#[test]
fn a_record_handed_on_goes_on_where_it_was() {
    let text = text(600);
    let mut line = vec![0; 600];
    FreeLine::open(&SENDING).unwrap().run(4800, &text, &mut line).unwrap();

    let mut recovered = vec![0; 600];
    let mut receiver = FreeLine::open(&RECEIVING).unwrap();
    for (line, recovered) in line.chunks(7).zip(recovered.chunks_mut(7)) {
        receiver = FreeLine::from_record(receiver.record()).unwrap();
        receiver.run(8 * line.len() as u64, line, recovered).unwrap();
    }
    assert_eq!(recovered, text);
}

/// A tick's bits need not fill their bytes, so the stream is gathered bit by bit.
#[test]
fn a_paced_line_gives_the_line_bits_of_a_free_one() {
    let text = text(720);
    let mut expected = vec![0; 720];
    FreeLine::open(&SENDING).unwrap().run(5760, &text, &mut expected).unwrap();

    let mut line = PacedLine::open(&SENDING, 72).unwrap();
    let mut bits = Vec::new();
    let mut take = |output: &[u8], count: usize| {
        bits.extend((0..count).map(|i| output[i / 8] >> (7 - i % 8) & 1));
    };
    for input in text.chunks(9) {
        let mut output = [0; TICK_BYTES];
        let moved = line.tick(input, &mut output).unwrap();
        take(&output, moved.bits);
    }
    let mut output = [0; CLOSE_BYTES];
    let moved = line.close(&mut output).unwrap();
    take(&output, moved.bits);

    let expected: Vec<u8> = (0..5760).map(|i| expected[i / 8] >> (7 - i % 8) & 1).collect();
    assert_eq!(bits, expected);
    assert_eq!(PacedLine::from_record(line.record()).unwrap(), line);
}

#[test]
fn each_refusal_has_its_number() {
    let open = |settings: Settings| FreeLine::open(&settings).map_err(Refusal::number).err();
    assert_eq!(open(Settings { key: &[0; 15], iv: &[], l: 0, ..SENDING }), Some(1));
    assert_eq!(open(Settings { iv: &[0; 17], l: 0, ..SENDING }), Some(2));
    assert_eq!(open(Settings { l: 0, ..SENDING }), Some(3));
    assert_eq!(PacedLine::open(&SENDING, 0), Err(Refusal::D));

    let mut free = FreeLine::open(&SENDING).unwrap();
    assert_eq!(free.run(RUN_BITS + 1, &[], &mut []), Err(Refusal::Run));
    assert_eq!(free.run(1, &[], &mut []), Err(Refusal::Input));
    assert_eq!(free.run(1, &[0], &mut []), Err(Refusal::Output));

    let mut paced = PacedLine::open(&SENDING, 64).unwrap();
    paced.close(&mut []).unwrap();
    assert_eq!(paced.close(&mut []), Err(Refusal::Closed));
    assert_eq!(FreeLine::from_record(paced.record()), Err(Refusal::Record));
    assert_eq!(FreeLine::from_record(&free.record()[1..]), Err(Refusal::Record));
}

#[test]
fn what_is_printed_of_a_line_leaves_out_its_key() {
    assert_eq!(format!("{:?}", FreeLine::open(&SENDING).unwrap()), "FreeLine { .. }");
    assert_eq!(format!("{:?}", PacedLine::open(&SENDING, 1).unwrap()), "PacedLine { .. }");
    assert!(!format!("{SENDING:?}").contains("key"));
}
