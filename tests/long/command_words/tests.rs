//! Words that are taken and refused, and the lines of failures.
//! Proved by `tests/long/run --prove`.

use command_words::{Failure, Secret, SecretFiles, bytes32_from_hex, decimal, publisher_key, record_bytes};
use std::alloc::Global;
use std::process::Abort;
use std::test::Fail;

const ZEROS: &str = "0000000000000000000000000000000000000000000000000000000000000000";

const ONES: &str = "0101010101010101010101010101010101010101010101010101010101010101";

#[test]
fn numbers_are_digits_alone(rt: HostRuntime) {
    let taken: [(&str, u64); 6] = [
        ("0", 0),
        ("7", 7),
        ("007", 7),
        ("65536", 65_536),
        ("18446744073709551615", u64::MAX),
        ("00000000000000000000000000000000000012", 12),
    ];
    for (text, number) in taken {
        assert_eq!(rt; decimal(text), Some(number), "{text}");
    }
    for text in [
        "",
        "+5",
        "-5",
        " 5",
        "5 ",
        "5.",
        "0x5",
        "five",
        "5_0",
        "-0",
        "\u{664}",
        "18446744073709551616",
        "99999999999999999999999999",
    ] {
        assert_eq!(rt; decimal(text), None, "{text}");
    }
}

#[test]
fn seeds_and_keys_are_64_digits(rt: HostRuntime) {
    assert_eq!(rt; bytes32_from_hex(ZEROS), Some([0; 32]));
    assert_eq!(rt; bytes32_from_hex(ONES), Some([1; 32]));
    assert_eq!(rt; publisher_key(ONES), Some([1; 32]));
    assert_eq!(rt; publisher_key(ZEROS), None);
    let mixed = "abCDef0101010101010101010101010101010101010101010101010101010101";
    assert_eq!(rt;
        publisher_key(mixed).map(|key| [key[0], key[1], key[2]]),
        Some([0xab, 0xcd, 0xef])
    );
    for text in [
        "",
        "01",
        "0101010101010101010101010101010101010101010101010101010101010g01",
    ] {
        assert_eq!(rt; bytes32_from_hex(text), None, "{text}");
        assert_eq!(rt; publisher_key(text), None, "{text}");
    }
}

// Compares the bytes of a word with those wanted.
fn check(rt: &impl Abort, alloc: Global, text: &str, wanted: Option<&[u8]>) -> Result<(), Fail> {
    let bytes = record_bytes(alloc, text)?;
    assert_eq!(rt;
        bytes.as_ref().map(|bytes| bytes.as_slice()),
        wanted,
        "{text}"
    );
    Ok(())
}

#[test]
fn records_are_pairs_of_digits(rt: HostRuntime) -> Result<(), Fail> {
    check(&rt, rt.alloc(), "64", Some(&[100]))?;
    check(&rt, rt.alloc(), "0aFF", Some(&[10, 255]))?;
    check(&rt, rt.alloc(), "-", Some(&[]))?;
    for text in ["", "6", "6g", "--", "-64", "64-", "0x64", " 64"] {
        check(&rt, rt.alloc(), text, None)?;
    }
    Ok(())
}

#[test]
fn records_have_at_most_65535_bytes(rt: HostRuntime) -> Result<(), Fail> {
    let longest = "64".repeat(rt.alloc(), 65_535)?;
    let bytes = record_bytes(rt.alloc(), &longest)?;
    assert_eq!(rt; bytes.map(|bytes| bytes.len()), Some(65_535));
    let longer = "64".repeat(rt.alloc(), 65_536)?;
    check(&rt, rt.alloc(), &longer, None)
}

#[test]
fn each_failure_has_its_line_and_status(rt: HostRuntime) -> Result<(), Fail> {
    let unreadable = Failure::Unreadable {
        index: 3,
        version: 7,
    };
    let value = "error: --seed takes 32 bytes\n\nFor more information, try '--help'.";
    let failures: [(Failure, &str, u8); 6] = [
        (Failure::Value("--seed takes 32 bytes"), value, 2),
        (Failure::Refused(4), "refused 4", 1),
        (Failure::Stale(2), "stale 2", 1),
        (unreadable, "unreadable 3 7", 1),
        (Failure::Fault("BadIndex"), "fault: BadIndex", 3),
        (Failure::Memory, "fault: Memory", 4),
    ];
    for (failure, line, status) in failures {
        let said = format!(in rt.alloc(); "{failure}")?;
        assert_eq!(rt; said.as_str(), line);
        assert_eq!(rt; failure.status(), status, "{line}");
    }
    Ok(())
}

// Each file has these bytes.
#[derive(Drop)]
struct OneFile<'a>(&'a [u8]);

impl SecretFiles for OneFile<'_> {
    ghost begins = { λ _ _ _ _. Unit {0} };

    ghost fails = { λ _ _. Unit {0} };

    fn read_start(&self, _name: &str, out: &mut [u8]) -> Option<usize> {
        let count = self.0.len().min(out.len());
        out[..count].copy_from_slice(&self.0[..count]);
        Some(count)
    }
}

// The digits of 32 bytes 01, and this after them.
fn ones_and(alloc: Global, end: &str) -> Result<Vec<u8>, Fail> {
    let mut bytes = Vec::new(alloc);
    bytes.extend_from_slice(ONES.as_bytes())?;
    bytes.extend_from_slice(end.as_bytes())?;
    Ok(bytes)
}

#[test]
fn the_end_of_a_secrets_line_is_dropped(rt: HostRuntime) -> Result<(), Fail> {
    for end in ["", "\n", "\r\n", "\r"] {
        let bytes = ones_and(rt.alloc(), end)?;
        assert_eq!(rt; Secret::File("a").seed(&OneFile(&bytes), "SEED"), Ok([1; 32]));
    }
    for end in ["\n\n", " ", "\n0", "\n\r"] {
        let bytes = ones_and(rt.alloc(), end)?;
        let bad = Err(Failure::Value("SEED"));
        assert_eq!(rt; Secret::File("a").seed(&OneFile(&bytes), "SEED"), bad);
    }
    Ok(())
}

#[test]
fn a_secret_on_the_line_is_given_as_it_is(rt: HostRuntime) {
    let zeros = Secret::Bytes([0; 32]);
    assert_eq!(rt; zeros.seed(&rt, "SEED"), Ok([0; 32]));
    assert_eq!(rt; zeros.key(&rt, "KEY"), Err(Failure::Value("KEY")));
    let ones = Secret::Bytes([1; 32]);
    assert_eq!(rt; ones.key(&rt, "KEY"), Ok([1; 32]));
    let missing = Secret::File("/no/such/file");
    assert_eq!(rt; missing.seed(&rt, "SEED"), Err(Failure::Fault("File")));
    assert_eq!(rt; missing.key(&rt, "KEY"), Err(Failure::Fault("File")));
}
