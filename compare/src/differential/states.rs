//! Openings that are not refused, and lines in any state that passes the tests
//! for 9, reached by calls or not.

use super::random::Random;
use super::streams::pattern;
use crate::entry::Opening;
use crate::reference::free::FreeLine;
use crate::reference::keystream::Keystream;
use crate::reference::mode::{BitRule, Direction, BLOCK};
use crate::reference::paced::{hold, PacedLine};

pub fn opening(random: &mut Random) -> Opening {
    Opening {
        key: random.sixteen().to_vec(),
        iv: random.sixteen().to_vec(),
        pattern: pattern(random),
        l: 1 + random.below(11) as u64,
        direction: random.one_of(&[0, 0, 0, 1, 1, u64::MAX]),
    }
}

/// The greatest D that refusal 4 allows.
pub fn greatest_d(l: u64) -> u64 {
    128 * l / (l + 1)
}

/// The bit rule of a line just opened.
pub fn opened_rule(opening: &Opening) -> BitRule {
    let Opening { key, iv, pattern, l, direction } = opening;
    BitRule::open(key, iv, *pattern, *l, Direction::from_number(*direction))
        .expect("an opening that is not refused")
}

pub fn any_free_line(random: &mut Random) -> FreeLine {
    let rule = any_rule(random);
    FreeLine { rule }
}

fn any_rule(random: &mut Random) -> BitRule {
    let mut rule = opened_rule(&opening(random));
    let place = random.below(BLOCK);
    rule.keystream = Keystream::at(random.sixteen(), random.sixteen(), place);
    if random.once_in(2) {
        let seen = random.below(8);
        rule.window = if random.once_in(2) {
            random.bits(seen)
        } else {
            crate::reference::bits::unpack(&[rule.pattern], seen)
        };
    } else {
        let whole = BLOCK * rule.l;
        rule.left = match random.below(4) {
            0 => 1 + random.below(BLOCK),
            1 => whole - random.below(BLOCK),
            _ => 1 + random.below(whole),
        };
        rule.iv = random.bits(BLOCK.min(whole - rule.left));
    }
    rule
}

pub fn any_paced_line(random: &mut Random) -> PacedLine {
    let rule = any_rule(random);
    let d = 1 + random.below(greatest_d(rule.l as u64) as usize);
    let mut line =
        PacedLine { rule, d, ready: Vec::new(), waiting: Vec::new(), fillers: 0, closed: false };
    if random.once_in(12) {
        line.closed = true;
        return line;
    }
    let m = hold(d);
    let waiting = match random.below(4) {
        0 => m - d - random.below(5),
        1 => random.below(BLOCK),
        _ => random.below(m - d + 1),
    };
    let ready = match random.below(3) {
        0 => m - waiting,
        1 => random.below(d + 1).min(m - waiting),
        _ => random.below(m - waiting + 1),
    };
    line.waiting = random.bits(waiting);
    line.ready = random.bits(ready);
    line.fillers = m - waiting - ready;
    line
}
