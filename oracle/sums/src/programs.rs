//! Other programs that make the same sums: python3 with its zlib and hashlib, and sha512sum.

use std::env;
use std::io::{ErrorKind, Write};
use std::process::{Command, Stdio};

/// Every length up to 300, and some longer ones; the bytes are those of a linear generator.
pub fn messages() -> Vec<Vec<u8>> {
    let mut number = 1u32;
    let mut bytes = |length| {
        let mut next = || {
            number = number.wrapping_mul(1_664_525).wrapping_add(1_013_904_223);
            (number >> 24) as u8
        };
        (0..length).map(|_| next()).collect()
    };
    (0..=300).chain([1023, 4096, 65_537]).map(&mut bytes).collect()
}

/// What python3 says of each message, as a line each; `asked` is an expression of the message `m`. None where there is no python3.
pub fn answers(asked: &str, messages: &[Vec<u8>]) -> Option<Vec<String>> {
    let script = format!(
        "import hashlib, sys, zlib\nfor line in sys.stdin:\n    m = bytes.fromhex(line)\n    print({asked})"
    );
    let input: String = messages.iter().map(|message| hex(message) + "\n").collect();
    let text = printed("python3", &["-c", &script], input.into_bytes())?;
    let lines: Vec<String> = text.lines().map(str::to_string).collect();
    assert_eq!(lines.len(), messages.len());
    Some(lines)
}

/// What a program prints for an input. None where there is no such program, which is said, and with STRICT set is a failure.
pub fn printed(program: &str, arguments: &[&str], input: Vec<u8>) -> Option<String> {
    let started = Command::new(program).args(arguments).stdin(Stdio::piped()).stdout(Stdio::piped()).spawn();
    let mut child = match started {
        Ok(child) => child,
        Err(error) if error.kind() == ErrorKind::NotFound => {
            assert!(env::var_os("STRICT").is_none_or(|s| s.is_empty()), "there is no {program}");
            println!("SKIPPED: there is no {program}");
            return None;
        }
        Err(error) => panic!("{program}: {error}"),
    };
    let mut to = child.stdin.take().expect("its input");
    let writing = std::thread::spawn(move || to.write_all(&input));
    let output = child.wait_with_output().expect("its output");
    writing.join().expect("a thread").expect("its input");
    assert!(output.status.success(), "{program} ended with {}", output.status);
    Some(String::from_utf8(output.stdout).expect("text"))
}

pub fn hex(bytes: &[u8]) -> String {
    bytes.iter().map(|byte| format!("{byte:02x}")).collect()
}
