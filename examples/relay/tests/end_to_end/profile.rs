//! How the links of a test are: plain, padded, or through the cipher as their ends
//! agree.

use crate::other_end::{OtherEnd, Secrets, CARD, CIPHERS, KEY};
use reference::generator::Generator;
use reference::message::Side;
use relay::Cipher;
use std::fs::{self, Permissions};
use std::os::unix::fs::PermissionsExt;
use std::path::Path;
use std::sync::OnceLock;

#[derive(Clone, Copy, Debug, PartialEq, Eq)]
pub enum Profile {
    Plain,
    Padded,
    /// The relay's end is set so; the other end in any way that meets it.
    Cipher(Cipher),
}

impl Profile {
    /// What a publisher's word says of it.
    pub fn word(self) -> String {
        match self {
            Profile::Plain | Profile::Cipher(Cipher::ClearOnly) => String::new(),
            Profile::Padded => ",padded=yes".to_string(),
            Profile::Cipher(cipher) => format!(",cipher={},key={}", mode(cipher), key_file()),
        }
    }

    /// What the options say of the links to front ends.
    pub fn options(self) -> String {
        match self {
            Profile::Plain | Profile::Cipher(Cipher::ClearOnly) => String::new(),
            Profile::Padded => "--padded-fronts".to_string(),
            Profile::Cipher(cipher) => {
                format!(
                    "--fronts-cipher {} --fronts-key {}",
                    mode(cipher),
                    key_file()
                )
            }
        }
    }

    /// The other end of such a link, of a version that is not below the lowest.
    pub fn end(self, side: Side, lowest: u8, generator: &mut Generator) -> OtherEnd {
        let crc32c = generator.below(2) == 0;
        let Profile::Cipher(ours) = self else {
            return OtherEnd::with_padded(side, crc32c, self == Profile::Padded);
        };
        let theirs = match ours {
            Cipher::Either => generator.pick(&CIPHERS),
            _ => generator.pick(&[ours, Cipher::Either]),
        };
        let version = lowest + generator.below(3 - u64::from(lowest)) as u8;
        OtherEnd::with_cipher(side, crc32c, version, Secrets::new(theirs, &KEY))
    }
}

fn mode(cipher: Cipher) -> &'static str {
    match cipher {
        Cipher::ClearOnly => "clear",
        Cipher::CipherOnly => "only",
        Cipher::Either => "either",
    }
}

/// The relays have it whether they need it or not.
pub fn card() -> String {
    format!("--card {CARD}")
}

/// A file with the key, for the relays of all tests.
pub fn key_file() -> &'static str {
    static FILE: OnceLock<String> = OnceLock::new();
    FILE.get_or_init(|| {
        let name = format!("key-{}", std::process::id());
        let path = Path::new(env!("CARGO_TARGET_TMPDIR")).join(name);
        fs::write(&path, KEY).expect("a file for the key");
        fs::set_permissions(&path, Permissions::from_mode(0o600)).expect("its rights");
        path.to_str().expect("a path in letters").to_string()
    })
}
