//! The programs linerun and syncs against the second program: line files on
//! standard input, and input or output that fails.

use compare::differential::files::{self, Check, Programs, Ran};
use compare::differential::random::seed;
use std::fs::File;
use std::io::{ErrorKind, Write};
use std::path::PathBuf;
use std::process::{Command, Stdio};
use std::time::{Duration, Instant};

/// The programs in TISARQLUK_BIN_DIR, or in target/bin of the repository.
struct Built {
    folder: PathBuf,
}

impl Built {
    fn find() -> Built {
        let folder = match std::env::var_os("TISARQLUK_BIN_DIR") {
            Some(folder) => PathBuf::from(folder),
            None => PathBuf::from(env!("CARGO_MANIFEST_DIR")).join("../target/bin"),
        };
        for program in ["linerun", "syncs"] {
            assert!(
                folder.join(program).is_file(),
                "FAIL: there is no {}. Make it with `./build bin` at the root of the \
                 repository, or name its folder in the environment variable TISARQLUK_BIN_DIR.",
                folder.join(program).display()
            );
        }
        Built { folder }
    }

    fn command(&self, program: &str) -> Command {
        let mut command = Command::new(self.folder.join(program));
        command.stdin(Stdio::piped()).stdout(Stdio::piped()).stderr(Stdio::piped());
        command
    }
}

impl Programs for Built {
    fn run(&self, program: &str, file: &[u8]) -> Ran {
        let mut child = self.command(program).spawn().expect("the program starts");
        let mut input = child.stdin.take().expect("a pipe");
        let output = std::thread::scope(|scope| {
            scope.spawn(move || match input.write_all(file) {
                // A program may refuse before it has read all.
                Err(error) if error.kind() == ErrorKind::BrokenPipe => {}
                result => result.expect("the program's input is written"),
            });
            child.wait_with_output().expect("the program's output is read")
        });
        Ran { output: output.stdout, errors: output.stderr, status: output.status.code() }
    }
}

fn hold_to(check: Check) {
    if let Err(difference) = check(&Built::find(), seed()) {
        panic!("{difference}");
    }
}

#[test]
fn good_files() {
    hold_to(files::good);
}

#[test]
fn largest_files() {
    hold_to(files::largest);
}

#[test]
fn empty_bits_at_every_offset() {
    hold_to(files::empty_bits);
}

#[test]
fn settings_at_their_edges() {
    hold_to(files::settings);
}

#[test]
fn malformed_files() {
    hold_to(files::malformed);
}

/// The document's example: L 1, pattern 80, direction 1, D 0, and 152 bits that
/// are 01, seventeen bytes 00, and 80.
fn example() -> Vec<u8> {
    let mut file = Vec::new();
    for number in [71_u32, 152, 52, 16] {
        file.extend(number.to_be_bytes());
    }
    file.extend([1, 0x80, 1, 0]);
    file.extend([0; 32]);
    file.push(0x01);
    file.extend([0; 17]);
    file.push(0x80);
    file
}

#[test]
fn the_example_of_the_document() {
    let ran = Built::find().run("syncs", &example());
    assert_eq!(String::from_utf8_lossy(&ran.output), "bits 152 syncs 2\n15 144\n152 281\n");
}

#[test]
fn input_without_end_is_refused_10() {
    for program in ["linerun", "syncs"] {
        let endless = File::open("/dev/zero").expect("/dev/zero");
        let mut child = Built::find().command(program).stdin(endless).spawn().expect("it starts");
        let started = Instant::now();
        while child.try_wait().expect("its status").is_none() {
            if started.elapsed() > Duration::from_secs(30) {
                child.kill().expect("it can be ended");
                panic!("{program} reads on after 65,536 bytes");
            }
            std::thread::sleep(Duration::from_millis(5));
        }
        let output = child.wait_with_output().expect("its output");
        assert_eq!(output.stdout, b"refused 10\n");
    }
}

#[test]
fn input_that_cannot_be_read_is_no_good_result() {
    for program in ["linerun", "syncs"] {
        let folder = File::open("/").expect("/");
        let output = Built::find().command(program).stdin(folder).output().expect("it starts");
        assert!(!output.status.success(), "{program}");
    }
}

#[test]
fn output_that_cannot_be_written_is_no_good_result() {
    for program in ["linerun", "syncs"] {
        let full = File::options().write(true).open("/dev/full").expect("/dev/full");
        let mut child = Built::find().command(program).stdout(full).spawn().expect("it starts");
        child.stdin.take().expect("a pipe").write_all(&example()).expect("its input");
        assert!(!child.wait().expect("its status").success(), "{program}");
    }
}
