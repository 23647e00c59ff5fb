//! A link's key, from a file that nobody else can read or change.

use relay::keys::{clear, Key};
use std::fs::{File, Metadata};
use std::io::{self, Read};
use std::os::unix::fs::{MetadataExt, OpenOptionsExt};
use std::path::Path;

/// One more than the longest key, so that a longer file is seen to be longer.
const MOST: usize = 4097;

/// Rights of group and others.
const FOREIGN: u32 = 0o077;

const ROOT: u32 = 0;

/// O_NONBLOCK of Linux: a pipe is not waited for when it is opened.
const NONBLOCK: i32 = 0o4000;

extern "C" {
    fn geteuid() -> u32;
}

/// All bytes of a file are the key; or why it is not taken. Whether they make a
/// key the library says.
pub fn read(path: &Path) -> Result<Key, String> {
    let mut options = File::options();
    let file = options.read(true).custom_flags(NONBLOCK).open(path);
    let file = file.map_err(|error| error.to_string())?;
    // The file that is read is looked at itself: the name may be another's now.
    let metadata = file.metadata().map_err(|error| error.to_string())?;
    is_private(&metadata)?;
    key(file).map_err(|error| error.to_string())
}

fn is_private(metadata: &Metadata) -> Result<(), String> {
    // SAFETY: it has no arguments and never fails.
    let ours = unsafe { geteuid() };
    if !metadata.is_file() {
        return Err("it is no regular file".to_string());
    }
    if metadata.uid() != ours && metadata.uid() != ROOT {
        return Err("it belongs to another user".to_string());
    }
    if metadata.mode() & FOREIGN != 0 {
        return Err("others than its owner have rights to it".to_string());
    }
    Ok(())
}

/// By a buffer that does not grow, which would leave copies behind.
fn key(mut file: File) -> io::Result<Key> {
    let mut bytes = [0; MOST];
    let mut size = 0;
    while size < MOST {
        match file.read(&mut bytes[size..]) {
            Ok(0) => break,
            Ok(count) => size += count,
            Err(error) if error.kind() == io::ErrorKind::Interrupted => {}
            Err(error) => {
                clear(&mut bytes);
                return Err(error);
            }
        }
    }
    let key = Key::new(&bytes[..size]);
    clear(&mut bytes);
    Ok(key)
}

#[cfg(test)]
mod tests {
    use super::*;
    use std::fs::{self, Permissions};
    use std::os::unix::fs::{symlink, PermissionsExt};
    use std::path::PathBuf;

    /// A file of this test alone.
    fn file(name: &str, bytes: &[u8], mode: u32) -> PathBuf {
        let path = std::env::temp_dir().join(format!("relay-key-{}-{name}", std::process::id()));
        let _ = fs::remove_file(&path);
        fs::write(&path, bytes).unwrap();
        fs::set_permissions(&path, Permissions::from_mode(mode)).unwrap();
        path
    }

    #[test]
    fn all_bytes_of_a_private_file_are_the_key() {
        for n in [0, 1, 32, 4096] {
            let bytes: Vec<u8> = (0..n).map(|n| n as u8).collect();
            for mode in [0o600, 0o400] {
                let path = file("private", &bytes, mode);
                assert_eq!(read(&path).unwrap().bytes(), bytes);
                fs::remove_file(path).unwrap();
            }
        }
        // Of a longer one so much that the library refuses it.
        let path = file("long", &[7; 10_000], 0o600);
        assert_eq!(read(&path).unwrap().bytes(), [7; 4097]);
        fs::remove_file(path).unwrap();
    }

    #[test]
    fn a_file_that_others_have_rights_to_is_refused() {
        for bit in 0..6 {
            let path = file("rights", &[7; 32], 0o600 | 1 << bit);
            let error = read(&path).unwrap_err();
            assert_eq!(error, "others than its owner have rights to it");
            fs::remove_file(path).unwrap();
        }
    }

    #[test]
    fn what_is_no_regular_file_is_refused() {
        for path in ["/", "/dev/null", "/dev/zero"] {
            let error = read(Path::new(path)).unwrap_err();
            assert_eq!(error, "it is no regular file");
        }
        assert!(read(Path::new("/no/such/file")).is_err());
        // A link to a file is that file.
        let path = file("target", &[7; 32], 0o640);
        let link = path.with_extension("link");
        symlink(&path, &link).unwrap();
        assert!(read(&link).is_err());
        fs::set_permissions(&path, Permissions::from_mode(0o600)).unwrap();
        assert_eq!(read(&link).unwrap().bytes(), [7; 32]);
        fs::remove_file(link).unwrap();
        fs::remove_file(path).unwrap();
    }
}
