//! The layouts of the two records (docs/RECORD.md), and nothing else knows them.

use crate::reference::bits::{pack, unpack};
use crate::reference::free::FreeLine;
use crate::reference::keystream::Keystream;
use crate::reference::mode::{BitRule, Direction, BLOCK, PATTERN};
use crate::reference::paced::PacedLine;

/// Some bytes of a record. Numbers are big-endian.
#[derive(Debug)]
pub struct Field {
    pub name: &'static str,
    pub start: usize,
    pub bytes: usize,
}

const fn field(name: &'static str, start: usize, bytes: usize) -> Field {
    Field { name, start, bytes }
}

pub const KIND: Field = field("kind", 0, 1);
pub const L: Field = field("L", 1, 1);
pub const PATTERN_BITS: Field = field("pattern", 2, 1);
pub const DIRECTION: Field = field("direction", 3, 1);
pub const KEY: Field = field("key", 4, 16);
pub const COUNTER: Field = field("counter", 20, 16);
pub const PLACE: Field = field("place", 36, 1);
/// The window as a number, the last bit seen lowest.
pub const WINDOW: Field = field("window", 37, 1);
pub const WINDOW_COUNT: Field = field("bits in the window", 38, 1);
pub const LEFT: Field = field("blackout bits left", 39, 2);
/// Packed, zeros after the collected bits.
pub const IV: Field = field("IV bits", 41, 16);
pub const IV_COUNT: Field = field("IV bits collected", 57, 1);
pub const D: Field = field("D", 58, 1);
pub const CLOSED: Field = field("closed", 59, 1);
pub const READY: Field = field("ready", 60, 2);
pub const WAITING: Field = field("waiting", 62, 2);
pub const FILLERS: Field = field("fillers", 64, 2);
/// Packed: ready bits, then waiting bits, oldest first, zeros after them.
pub const QUEUE: Field = field("queue", 66, 60);

/// What a free record and a paced one share.
const SHARED: [Field; 12] = [
    KIND,
    L,
    PATTERN_BITS,
    DIRECTION,
    KEY,
    COUNTER,
    PLACE,
    WINDOW,
    WINDOW_COUNT,
    LEFT,
    IV,
    IV_COUNT,
];
const PACED_ONLY: [Field; 6] = [D, CLOSED, READY, WAITING, FILLERS, QUEUE];

/// The free record: kind 70, the letter F.
pub struct FreeLayout;

/// The paced record: kind 80, the letter P.
pub struct PacedLayout;

impl Field {
    pub fn of<'a>(&self, record: &'a [u8]) -> &'a [u8] {
        &record[self.start..self.start + self.bytes]
    }

    pub fn number(&self, record: &[u8]) -> usize {
        self.of(record).iter().fold(0, |number, &byte| number * 256 + byte as usize)
    }

    /// Puts the bytes at the field's start and zeros after them.
    pub fn put(&self, record: &mut [u8], bytes: &[u8]) {
        let place = &mut record[self.start..self.start + self.bytes];
        place.fill(0);
        place[..bytes.len()].copy_from_slice(bytes);
    }

    pub fn put_number(&self, record: &mut [u8], number: usize) {
        let bytes = (number as u64).to_be_bytes();
        self.put(record, &bytes[8 - self.bytes..]);
    }

    /// The first `count` bits of the field; none if it has fewer or if a bit
    /// after them is not 0.
    fn bits(&self, record: &[u8], count: usize) -> Option<Vec<u8>> {
        let all = unpack(self.of(record), 8 * self.bytes);
        let (bits, rest) = all.split_at_checked(count)?;
        rest.iter().all(|&bit| bit == 0).then(|| bits.to_vec())
    }
}

impl FreeLayout {
    pub const KIND: usize = 70;
    pub const BYTES: usize = IV_COUNT.start + IV_COUNT.bytes;

    pub fn fields() -> Vec<Field> {
        SHARED.into_iter().collect()
    }

    pub fn encode(line: &FreeLine) -> Vec<u8> {
        let mut record = vec![0; Self::BYTES];
        KIND.put_number(&mut record, Self::KIND);
        encode_rule(&line.rule, &mut record);
        record
    }

    /// The line that the bytes stand for, if they stand for any. The document's
    /// own tests for 9 come after this.
    pub fn decode(record: &[u8]) -> Option<FreeLine> {
        if record.len() < Self::BYTES || KIND.number(record) != Self::KIND {
            return None;
        }
        let rule = decode_rule(record)?;
        Some(FreeLine { rule })
    }
}

impl PacedLayout {
    pub const KIND: usize = 80;
    pub const BYTES: usize = QUEUE.start + QUEUE.bytes;

    pub fn fields() -> Vec<Field> {
        SHARED.into_iter().chain(PACED_ONLY).collect()
    }

    pub fn encode(line: &PacedLine) -> Vec<u8> {
        let mut record = vec![0; Self::BYTES];
        KIND.put_number(&mut record, Self::KIND);
        encode_rule(&line.rule, &mut record);
        D.put_number(&mut record, line.d);
        CLOSED.put_number(&mut record, line.closed as usize);
        READY.put_number(&mut record, line.ready.len());
        WAITING.put_number(&mut record, line.waiting.len());
        FILLERS.put_number(&mut record, line.fillers);
        QUEUE.put(&mut record, &pack(&[&line.ready[..], &line.waiting[..]].concat()));
        record
    }

    /// As for a free record.
    pub fn decode(record: &[u8]) -> Option<PacedLine> {
        if record.len() < Self::BYTES || KIND.number(record) != Self::KIND {
            return None;
        }
        let rule = decode_rule(record)?;
        let closed = yes_or_no(CLOSED.number(record))?;
        let ready = READY.number(record);
        let mut queue = QUEUE.bits(record, ready + WAITING.number(record))?;
        let waiting = queue.split_off(ready);
        Some(PacedLine {
            rule,
            d: D.number(record),
            ready: queue,
            waiting,
            fillers: FILLERS.number(record),
            closed,
        })
    }
}

fn encode_rule(rule: &BitRule, record: &mut [u8]) {
    L.put_number(record, rule.l);
    PATTERN_BITS.put_number(record, rule.pattern as usize);
    DIRECTION.put_number(record, (rule.direction == Direction::Receive) as usize);
    KEY.put(record, &rule.keystream.key());
    COUNTER.put(record, &rule.keystream.counter());
    PLACE.put_number(record, rule.keystream.place());
    WINDOW.put_number(record, rule.window.iter().fold(0, |seen, &bit| 2 * seen + bit as usize));
    WINDOW_COUNT.put_number(record, rule.window.len());
    LEFT.put_number(record, rule.left);
    IV.put(record, &pack(&rule.iv));
    IV_COUNT.put_number(record, rule.iv.len());
}

fn decode_rule(record: &[u8]) -> Option<BitRule> {
    let direction =
        if yes_or_no(DIRECTION.number(record))? { Direction::Receive } else { Direction::Send };
    let mut key = [0; BLOCK / 8];
    key.copy_from_slice(KEY.of(record));
    let mut counter = [0; BLOCK / 8];
    counter.copy_from_slice(COUNTER.of(record));
    Some(BitRule {
        l: L.number(record),
        pattern: PATTERN_BITS.number(record) as u8,
        direction,
        keystream: Keystream::at(key, counter, PLACE.number(record)),
        window: decode_window(record)?,
        left: LEFT.number(record),
        iv: IV.bits(record, IV_COUNT.number(record))?,
    })
}

/// The window's bits, oldest first; none if it has more bits than the byte, or
/// if a bit above them is not 0.
fn decode_window(record: &[u8]) -> Option<Vec<u8>> {
    let count = WINDOW_COUNT.number(record);
    let bits = unpack(WINDOW.of(record), PATTERN);
    let (above, window) = bits.split_at(PATTERN.checked_sub(count)?);
    above.iter().all(|&bit| bit == 0).then(|| window.to_vec())
}

fn yes_or_no(number: usize) -> Option<bool> {
    match number {
        0 => Some(false),
        1 => Some(true),
        _ => None,
    }
}

#[cfg(test)]
mod tests {
    use super::*;

    #[test]
    fn the_fields_fill_the_records_without_a_gap() {
        for (fields, bytes) in
            [(FreeLayout::fields(), FreeLayout::BYTES), (PacedLayout::fields(), PacedLayout::BYTES)]
        {
            let mut end = 0;
            for field in fields {
                assert_eq!(field.start, end, "{}", field.name);
                end += field.bytes;
            }
            assert_eq!(end, bytes);
        }
    }

    #[test]
    fn a_free_record_byte_by_byte() {
        let mut line =
            FreeLine::open(&[0xAA; 16], &[0xBB; 16], 0x80, 3, Direction::Receive).unwrap();
        line.rule.pass_all(&[1, 0, 1]);
        let mut expected = vec![70, 3, 0x80, 1];
        expected.extend([0xAA; 16]);
        expected.extend([0xBB; 16]);
        expected.extend([3, 0b101, 3, 0, 0]);
        expected.extend([0; 17]);
        assert_eq!(FreeLayout::encode(&line), expected);
        assert_eq!(FreeLayout::decode(&expected), Some(line));
    }

    #[test]
    fn a_record_in_a_blackout() {
        let mut line = FreeLine::open(&[0; 16], &[0; 16], 0x80, 3, Direction::Receive).unwrap();
        line.rule.pass_all(&unpack(&[0x80, 0xF0, 0xC0], 18));
        let record = FreeLayout::encode(&line);
        assert_eq!(record[37..44], [0, 0, 1, 118, 0xF0, 0xC0, 0]);
        assert_eq!(record[57], 10);
        assert_eq!(FreeLayout::decode(&record), Some(line));
    }

    #[test]
    fn a_paced_record_after_ticks_and_closing() {
        let mut line =
            PacedLine::open(&[1; 16], &[2; 16], 0x80, 1, Direction::Receive, 64).unwrap();
        line.tick(&[0xFF; 8], &mut [0; 8]).unwrap();
        let record = PacedLayout::encode(&line);
        assert_eq!(
            record[58..76],
            [64, 0, 0, 0, 0, 64, 0, 254, 255, 255, 255, 255, 255, 255, 255, 255, 0, 0]
        );
        assert_eq!(PacedLayout::decode(&record).as_ref(), Some(&line));
        line.close(&mut [0; 8]).unwrap();
        let record = PacedLayout::encode(&line);
        assert_eq!(record[58..68], [64, 1, 0, 0, 0, 0, 0, 0, 0, 0]);
        assert_eq!(PacedLayout::decode(&record), Some(line));
    }

    #[test]
    fn bytes_that_stand_for_no_record() {
        let free = FreeLayout::encode(
            &FreeLine::open(&[1; 16], &[2; 16], 0x80, 1, Direction::Send).unwrap(),
        );
        let paced = PacedLayout::encode(
            &PacedLine::open(&[1; 16], &[2; 16], 0x80, 1, Direction::Send, 64).unwrap(),
        );
        assert!(FreeLayout::decode(&free[..57]).is_none());
        assert!(FreeLayout::decode(&paced).is_none());
        assert!(PacedLayout::decode(&paced[..125]).is_none());
        assert!(PacedLayout::decode(&free).is_none());
        let changed = |at: usize, byte: u8| {
            let mut record = paced.clone();
            record[at] = byte;
            PacedLayout::decode(&record)
        };
        for (at, byte) in
            [(0, 70), (3, 2), (37, 1), (38, 9), (41, 0x80), (57, 129), (59, 2), (60, 2), (125, 1)]
        {
            assert!(changed(at, byte).is_none());
        }
    }
}
