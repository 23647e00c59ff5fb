//! The stored inputs of the check programs, and the outputs the documents give
//! for them.

mod aes_bits;
mod aes_cases;
mod aes_cuts;
mod aes_printed;
mod aes_random;
mod checksum_cases;
mod keys_cases;
mod keys_digests;
mod keys_lengths;
mod keys_nonces;
mod keys_parts;
mod keys_printed;
mod keys_random;
mod keys_refusals;
mod keys_request;
mod keys_set_ups;
mod link_bodies;
mod link_cases;
mod link_ciphered;
mod link_ciphered_faults;
mod link_ciphered_nonces;
mod link_ciphered_opening;
mod link_ciphered_pairs;
mod link_ciphered_random;
mod link_ciphered_set_ups;
mod link_ciphered_stream;
mod link_closing;
mod link_fronts;
mod link_openings;
mod link_padded;
mod link_padded_cuts;
mod link_padded_flush;
mod link_padded_mixed;
mod link_padded_opening;
mod link_padded_random;
mod link_padded_sending;
mod link_padded_words;
mod link_pings;
mod link_random;
mod link_sending;
mod link_settings;
mod link_talk;
mod link_turns;
mod link_versions;
mod link_zero_timeouts;
mod message_bodies;
mod message_cases;
mod message_headers;
mod message_reads;
mod message_texts;
mod message_writes;
mod message_zero_reads;
mod message_zero_writes;
mod records;
mod walk_cases;
mod walk_crowd;
mod walk_gone;
#[cfg(test)]
mod walk_lines;
mod walk_long;
mod walk_play;
mod walk_scripts;
mod walk_slots;
mod walk_time;
mod wire_cases;

use std::fs;
use std::io;
use std::path::Path;

pub struct StoredFile {
    /// Below the repository's root.
    pub path: &'static str,
    pub bytes: Vec<u8>,
}

fn stored(path: &'static str, bytes: Vec<u8>) -> StoredFile {
    StoredFile { path, bytes }
}

/// Every stored file, as this program computes it.
pub fn files() -> Vec<StoredFile> {
    let mut files = base_files();
    files.extend(cipher_files());
    files
}

fn base_files() -> Vec<StoredFile> {
    let checksum = checksum_cases::input();
    let wire = wire_cases::input();
    let example = walk_cases::example_input();
    let walk = walk_cases::input();
    let long = walk_long::input();
    let message = message_cases::input();
    let link = link_cases::input();
    vec![
        stored(
            "crates/checksum_check/stdout",
            checksum_cases::output(&checksum),
        ),
        stored("crates/checksum_check/stdin", checksum),
        stored("crates/wire_check/stdout", wire_cases::output(&wire)),
        stored("crates/wire_check/stdin", wire),
        stored(
            "crates/relay_walk/stdout",
            walk_cases::example_output(&example),
        ),
        stored("crates/relay_walk/stdin", example),
        stored("crates/walk_check/stdout", walk_cases::output(&walk)),
        stored("crates/walk_check/stdin", walk),
        stored("crates/walk_long_check/stdout", walk_long::output(&long)),
        stored("crates/walk_long_check/stdin", long),
        stored(
            "crates/message_check/stdout",
            message_cases::output(&message),
        ),
        stored("crates/message_check/stdin", message),
        stored("crates/link_check/stdout", link_cases::output(&link)),
        stored("crates/link_check/stdin", link),
    ]
}

fn cipher_files() -> Vec<StoredFile> {
    let keys = keys_cases::input();
    let aes = aes_cases::input();
    vec![
        stored("crates/keys_check/stdout", keys_cases::output(&keys)),
        stored("crates/keys_check/stdin", keys),
        stored("crates/aes_check/stdout", aes_cases::output(&aes)),
        stored("crates/aes_check/stdin", aes),
    ]
}

/// Writes every stored file below `root`; hands back how many.
pub fn write(root: &Path) -> io::Result<usize> {
    let files = files();
    for file in &files {
        let path = root.join(file.path);
        if let Some(folder) = path.parent() {
            fs::create_dir_all(folder)?;
        }
        fs::write(path, &file.bytes)?;
    }
    Ok(files.len())
}

/// Compares the files below `root` with what `write` would put there. Hands
/// back how many there are, or one line for each that differs or is missing.
pub fn check(root: &Path) -> Result<usize, Vec<String>> {
    let files = files();
    let complaints: Vec<String> = files
        .iter()
        .filter_map(|file| complaint(root, file))
        .collect();
    if complaints.is_empty() {
        Ok(files.len())
    } else {
        Err(complaints)
    }
}

fn complaint(root: &Path, file: &StoredFile) -> Option<String> {
    match fs::read(root.join(file.path)) {
        Ok(bytes) if bytes == file.bytes => None,
        Ok(_) => Some(format!("{} differs", file.path)),
        Err(error) if error.kind() == io::ErrorKind::NotFound => {
            Some(format!("{} is missing", file.path))
        }
        Err(error) => Some(format!("{} cannot be read: {error}", file.path)),
    }
}

#[cfg(test)]
mod tests {
    use super::*;

    #[test]
    fn files_are_the_same_each_time() {
        for (one, other) in files().iter().zip(&files()) {
            assert_eq!(one.path, other.path);
            assert!(one.bytes == other.bytes, "{}", one.path);
        }
    }

    #[test]
    fn check_names_what_differs_and_what_is_missing() {
        let root = std::env::temp_dir().join(format!("reference-{}", std::process::id()));
        let count = write(&root).unwrap();
        assert_eq!(check(&root), Ok(count));

        let (one, other) = ("crates/wire_check/stdout", "crates/checksum_check/stdin");
        fs::write(root.join(one), "0\n").unwrap();
        fs::remove_file(root.join(other)).unwrap();
        let mut complaints = check(&root).unwrap_err();
        complaints.sort();
        assert_eq!(
            complaints,
            [format!("{other} is missing"), format!("{one} differs")]
        );
        fs::remove_dir_all(&root).unwrap();
    }
}
