//! One case: calls given to the library and to the second program, compared.

use super::random::Random;
use crate::entry::{Answer, EntryPoints, Opening, SecondProgram};
use crate::layout::{Field, FreeLayout, PacedLayout};
use std::fmt::{Debug, Display, Formatter, Write};

/// A call on which the two differ, told so that it can be repeated.
#[derive(Debug)]
pub struct Difference {
    pub text: String,
}

impl Display for Difference {
    fn fmt(&self, f: &mut Formatter<'_>) -> std::fmt::Result {
        f.write_str(&self.text)
    }
}

pub struct Case<'a> {
    library: &'a dyn EntryPoints,
    check: &'static str,
    seed: u64,
    number: u64,
    calls: u64,
    pub random: Random,
}

/// A call in words: its name and what is given to it.
struct Call {
    name: &'static str,
    given: Vec<(&'static str, String)>,
    fields: Vec<Field>,
}

/// A lent buffer at an odd address, with bytes on both sides that must stay.
#[derive(Clone, PartialEq)]
struct Lent {
    all: Vec<u8>,
}

const BEFORE: usize = 5;
const AFTER: usize = 16;

impl Lent {
    fn new(bytes: &[u8]) -> Lent {
        Lent { all: [&[0xB7; BEFORE][..], bytes, &[0xE9; AFTER][..]].concat() }
    }

    fn lend(&mut self) -> &mut [u8] {
        let end = self.all.len() - AFTER;
        &mut self.all[BEFORE..end]
    }

    fn bytes(&self) -> &[u8] {
        &self.all[BEFORE..self.all.len() - AFTER]
    }

    fn strayed(&self) -> bool {
        Lent::new(self.bytes()) != *self
    }
}

/// What a call left behind.
struct Left<A> {
    answer: A,
    record: Lent,
    output: Lent,
}

impl<'a> Case<'a> {
    pub fn new(
        library: &'a dyn EntryPoints,
        check: &'static str,
        seed: u64,
        number: u64,
    ) -> Case<'a> {
        let random = Random::new(seed, check, number);
        Case { library, check, seed, number, calls: 0, random }
    }

    pub fn aes128(
        &mut self,
        key: &[u8],
        input: &[u8],
        output: &mut [u8],
    ) -> Result<u32, Difference> {
        let given = vec![("key", hex(key)), ("input", hex(input))];
        let call = Call { name: "tq_aes128", given, fields: Vec::new() };
        self.compare(call, &mut [], output, |side, _, output| side.aes128(key, input, output))
    }

    pub fn free_open(&mut self, record: &mut [u8], opening: &Opening) -> Result<u32, Difference> {
        let given = opening_given(opening);
        let call = Call { name: "tq_free_open", given, fields: FreeLayout::fields() };
        self.compare(call, record, &mut [], |side, record, _| side.free_open(record, opening))
    }

    pub fn free_run(
        &mut self,
        record: &mut [u8],
        bits: u64,
        input: &[u8],
        output: &mut [u8],
    ) -> Result<u32, Difference> {
        let given = vec![("bits", bits.to_string()), ("input", hex(input))];
        let call = Call { name: "tq_free_run", given, fields: FreeLayout::fields() };
        self.compare(call, record, output, |side, record, output| {
            side.free_run(record, bits, input, output)
        })
    }

    pub fn paced_open(
        &mut self,
        record: &mut [u8],
        opening: &Opening,
        d: u64,
    ) -> Result<u32, Difference> {
        let mut given = opening_given(opening);
        given.push(("D", d.to_string()));
        let call = Call { name: "tq_paced_open", given, fields: PacedLayout::fields() };
        self.compare(call, record, &mut [], |side, record, _| side.paced_open(record, opening, d))
    }

    pub fn paced_tick(
        &mut self,
        record: &mut [u8],
        input: &[u8],
        output: &mut [u8],
    ) -> Result<Answer, Difference> {
        let given = vec![("input", hex(input))];
        let call = Call { name: "tq_paced_tick", given, fields: PacedLayout::fields() };
        self.compare(call, record, output, |side, record, output| {
            side.paced_tick(record, input, output)
        })
    }

    pub fn paced_close(
        &mut self,
        record: &mut [u8],
        output: &mut [u8],
    ) -> Result<Answer, Difference> {
        let call =
            Call { name: "tq_paced_close", given: Vec::new(), fields: PacedLayout::fields() };
        self.compare(call, record, output, |side, record, output| side.paced_close(record, output))
    }

    /// Gives the call to both, each with buffers of its own, and puts what they
    /// left into the buffers if it is the same.
    fn compare<A: PartialEq + Debug>(
        &mut self,
        call: Call,
        record: &mut [u8],
        output: &mut [u8],
        give: impl Fn(&dyn EntryPoints, &mut [u8], &mut [u8]) -> A,
    ) -> Result<A, Difference> {
        self.calls += 1;
        let left_by = |side: &dyn EntryPoints| {
            let (mut record, mut output) = (Lent::new(record), Lent::new(output));
            let answer = give(side, record.lend(), output.lend());
            Left { answer, record, output }
        };
        let library = left_by(self.library);
        let second = left_by(&SecondProgram);
        if library.answer != second.answer
            || library.record != second.record
            || library.output != second.output
        {
            return Err(self.tell(call, record, output, &library, &second));
        }
        record.copy_from_slice(library.record.bytes());
        output.copy_from_slice(library.output.bytes());
        Ok(library.answer)
    }

    fn tell<A: Debug>(
        &self,
        call: Call,
        record: &[u8],
        output: &[u8],
        library: &Left<A>,
        second: &Left<A>,
    ) -> Difference {
        let Case { check, seed, number, calls, .. } = self;
        let mut text = format!(
            "the library differs from the second program\n\
             check {check}, case {number}, call {calls}: {}\n\
             repeat with TISARQLUK_SEED={seed}\n",
            call.name
        );
        let given = [("record", hex(record)), ("output before", hex(output))];
        for (name, value) in given.into_iter().chain(call.given) {
            let _ = writeln!(text, "  given {name}: {value}");
        }
        let mut differ = |what: &str, library: &dyn Display, second: &dyn Display| {
            let _ = writeln!(text, "  {what}: library {library}, second program {second}");
        };
        let (a, b) = (format!("{:?}", library.answer), format!("{:?}", second.answer));
        if a != b {
            differ("answer", &a, &b);
        }
        let (a, b) = (library.record.bytes(), second.record.bytes());
        for field in call.fields.iter().filter(|field| field.start + field.bytes <= a.len()) {
            if field.of(a) != field.of(b) {
                differ(&format!("record's {}", field.name), &hex(field.of(a)), &hex(field.of(b)));
            }
        }
        let record_bytes = call.fields.iter().map(|field| field.bytes).sum();
        let later = a.len().min(record_bytes);
        if a[later..] != b[later..] {
            differ("record's later bytes", &hex(&a[later..]), &hex(&b[later..]));
        }
        let (a, b) = (library.output.bytes(), second.output.bytes());
        if let Some(i) = (0..a.len()).find(|&i| a[i] != b[i]) {
            differ(&format!("output from byte {i}"), &hex(&a[i..]), &hex(&b[i..]));
        }
        if library.record.strayed() || library.output.strayed() {
            text += "  the library wrote outside a lent buffer\n";
        }
        Difference { text }
    }
}

fn opening_given(opening: &Opening) -> Vec<(&'static str, String)> {
    vec![
        ("key", hex(&opening.key)),
        ("IV", hex(&opening.iv)),
        ("pattern", hex(&[opening.pattern])),
        ("L", opening.l.to_string()),
        ("direction", opening.direction.to_string()),
    ]
}

/// The bytes in hexadecimal; the first of them where they are many, since the
/// seed makes them again.
pub fn hex(bytes: &[u8]) -> String {
    const SHOWN: usize = 1024;
    if bytes.is_empty() {
        return "nothing".to_string();
    }
    let mut text = String::new();
    for byte in bytes.iter().take(SHOWN) {
        let _ = write!(text, "{byte:02x}");
    }
    if bytes.len() > SHOWN {
        let _ = write!(text, ".. ({} bytes)", bytes.len());
    }
    text
}

#[cfg(test)]
mod tests {
    use super::*;

    #[test]
    fn bytes_around_a_lent_buffer_must_stay() {
        let mut lent = Lent::new(&[1, 2, 3]);
        lent.lend().fill(0);
        assert!(!lent.strayed());
        for outside in [BEFORE - 1, BEFORE + 3] {
            let mut lent = lent.clone();
            lent.all[outside] = 0;
            assert!(lent.strayed());
        }
    }
}
