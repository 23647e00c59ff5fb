//! The examples in C, compiled against include/relay.h and run.

use std::path::Path;
use std::process::Command;

/// What bindings/c/NAME.c prints, given these words.
fn printed(name: &str, words: &[&str]) -> String {
    let bindings = Path::new(env!("CARGO_MANIFEST_DIR")).join("..");
    // Each test has a program of its own, as they run at the same time.
    let program = Path::new(env!("CARGO_TARGET_TMPDIR")).join(name.to_owned() + &words.concat());
    let compiled = Command::new("cc")
        .args([
            "-std=c99",
            "-Wall",
            "-Wextra",
            "-pedantic",
            "-Werror",
            "-O1",
        ])
        .arg("-I")
        .arg(bindings.join("../include"))
        .arg(bindings.join(format!("c/{name}.c")))
        .arg(env!("RELAY_ARCHIVE_FOUND"))
        .arg("-o")
        .arg(&program)
        .status()
        .expect("cc");
    assert!(compiled.success());
    let run = Command::new(&program).args(words).output();
    let run = run.expect("the example");
    assert!(run.status.success());
    String::from_utf8(run.stdout).expect("text")
}

#[test]
fn a_request_in_c() {
    let expected = "\
kind 1, number 77, actor -5, payload page 1
asked: publisher 0 gets it as 1
replied: to link 3, number 77
cancelled too late: 34
publisher 7 gone: link 4, number 77
link 7 gone: publisher 2, number 1
asked with a deadline: publisher 1 gets it as 1
after 249 ms: 0 ran out
after 250 ms: 1 ran out
link 5, number 77
replied too late: 34
";
    assert_eq!(printed("example", &[]), expected);
}

#[test]
fn a_ciphered_link_in_c() {
    let expected = "\
client writes 76 bytes
server writes 76 bytes
client: version 2, ciphered
server: version 2, ciphered
client writes 48 bytes
server writes 48 bytes
client writes 48 bytes
asked: page 1, please
server writes 48 bytes
answered: the first page
";
    assert_eq!(printed("cipher", &[]), expected);
}

/// Set to either, against a server that is clear only.
#[test]
fn a_clear_link_in_c() {
    let expected = "\
client writes 76 bytes
server writes 76 bytes
client: version 2, clear
server: version 2, clear
client writes 44 bytes
server writes 44 bytes
client writes 38 bytes
asked: page 1, please
server writes 38 bytes
answered: the first page
";
    assert_eq!(printed("cipher", &["clear"]), expected);
}

/// The last six lines are the protocol document's.
#[test]
fn keys_in_c() {
    let expected = "\
version 2
client sends: the same keys at both ends
server sends: the same keys at both ends
message 4142434445464748494a4b4c4d4e4f506162636465666768696a6b6c6d6e6f70\
04030201100f0e0d0a09434c49454e54080706051211\
6872656e4142434445464748494a4b4c4d4e4f506162636465666768696a6b6c6d6e6f70
key 28b5a5313b3ea9e2f6f0293e0748b2f743b0e112779faa77a3ee9d71ae70dda6
vector 80387128489168b336d998762bce6fef
message 4142434445464748494a4b4c4d4e4f506162636465666768696a6b6c6d6e6f70\
04030201100f0e0d0a09534552564552080706051211\
6872656e4142434445464748494a4b4c4d4e4f506162636465666768696a6b6c6d6e6f70
key e3cf8557ea4ad963c3b637d466388403841d2e989a1fc684ac691c44b05ac9bb
vector 1efd4c8aa43a87d1ea5488a1bc669269
";
    assert_eq!(printed("keys", &[]), expected);
}
