//! OpenSSL's AES-128-CTR, timed by its own command at several levels of what it
//! may use of an x86-64 processor.

use std::process::Command;

/// A level: a name, and the value of OPENSSL_ia32cap that takes features away.
pub struct Level {
    pub name: &'static str,
    mask: Option<&'static str>,
}

/// Portable: neither vector nor AES instructions, so table look-ups. Vector: no
/// AES instructions. In OPENSSL_ia32cap bit 57 is AES-NI and bit 41 is SSSE3.
pub const LEVELS: [Level; 3] = [
    Level { name: "portable", mask: Some("~0x200020000000000") },
    Level { name: "vector", mask: Some("~0x200000000000000") },
    Level { name: "hardware", mask: None },
];

pub struct Openssl;

impl Openssl {
    /// The openssl command, where it is there.
    pub fn find() -> Option<Openssl> {
        let found = Command::new("openssl").arg("version").output();
        found.ok().filter(|output| output.status.success()).map(|_| Openssl)
    }

    /// The processor time of a bit, over a second.
    pub fn nanoseconds_a_bit(&self, level: &Level) -> Option<f64> {
        let mut command = Command::new("openssl");
        command.args(["speed", "-evp", "aes-128-ctr", "-bytes", "65536", "-seconds", "1", "-mr"]);
        match level.mask {
            Some(mask) => command.env("OPENSSL_ia32cap", mask),
            None => command.env_remove("OPENSSL_ia32cap"),
        };
        let output = String::from_utf8(command.output().ok()?.stdout).ok()?;
        // A line as +F:25:AES-128-CTR:95263670.10 has bytes a second at its end.
        let result = output.lines().find(|line| line.starts_with("+F:"))?;
        let bytes_a_second: f64 = result.rsplit(':').next()?.parse().ok()?;
        Some(1e9 / (8.0 * bytes_a_second))
    }
}
