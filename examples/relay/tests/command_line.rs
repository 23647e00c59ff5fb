//! The relay's program with lines that it refuses.

use std::fs::{self, Permissions};
use std::os::unix::fs::PermissionsExt;
use std::path::Path;
use std::process::Command;

/// Its exit code and what it says, with this word for the last publisher.
fn refused(word: &str) -> (Option<i32>, String) {
    refused_with(&[], word)
}

/// The same with options.
fn refused_with(options: &[&str], word: &str) -> (Option<i32>, String) {
    let output = Command::new(env!("CARGO_BIN_EXE_relay"))
        .args(options)
        .args(["127.0.0.1:0"; 8])
        .arg(word)
        .output()
        .expect("the relay's program");
    assert_eq!(output.stdout, b"");
    let said = String::from_utf8_lossy(&output.stderr).into_owned();
    (output.status.code(), said)
}

#[test]
fn a_lowest_version_above_2_is_refused_at_the_start() {
    let word = "127.0.0.1:9,lowest=3";
    let refusal = relay::Refusal::OUT_OF_RANGE;
    let said = format!("relay: {word}: {refusal}\n");
    assert_eq!(refused(word), (Some(1), said));
}

#[test]
fn an_unknown_setting_is_refused_with_the_usage() {
    let (code, said) = refused("127.0.0.1:9,highest=2");
    assert_eq!(code, Some(1));
    let expected = "relay: 127.0.0.1:9,highest=2: unknown setting highest\nusage: relay ";
    assert!(said.starts_with(expected), "{said}");
}

/// A file of these bytes and rights.
fn file(name: &str, bytes: &[u8], mode: u32) -> String {
    let path = Path::new(env!("CARGO_TARGET_TMPDIR")).join(format!("line-{name}"));
    let _ = fs::remove_file(&path);
    fs::write(&path, bytes).expect("a file");
    fs::set_permissions(&path, Permissions::from_mode(mode)).expect("its rights");
    path.to_str().expect("a path in letters").to_string()
}

#[test]
fn a_key_that_others_can_read_is_refused_and_not_shown() {
    let key = file("open", b"a secret of more than thirty-two bytes", 0o640);
    let word = format!("127.0.0.1:9,cipher=only,key={key}");
    let (code, said) = refused_with(&["--card", "stand-in"], &word);
    let why = "others than its owner have rights to it";
    let expected = format!("relay: {word}: the key in {key}: {why}\n");
    assert_eq!((code, said), (Some(1), expected));
}

#[test]
fn a_key_that_is_too_short_is_refused_and_not_shown() {
    let key = file("short", b"a secret", 0o600);
    let word = format!("127.0.0.1:9,cipher=either,key={key}");
    let (code, said) = refused_with(&["--card", "stand-in"], &word);
    let refusal = relay::Refusal::UNSUITABLE_KEY;
    assert_eq!(
        (code, said),
        (Some(1), format!("relay: {word}: {refusal}\n"))
    );
}

#[test]
fn a_ciphered_link_without_a_card_is_refused() {
    let key = file("private", &[7; 32], 0o600);
    let (code, said) = refused(&format!("127.0.0.1:9,cipher=only,key={key}"));
    assert_eq!(code, Some(1));
    let expected = "relay: a link may cipher, and there is no card\nusage: relay ";
    assert!(said.starts_with(expected), "{said}");
}
