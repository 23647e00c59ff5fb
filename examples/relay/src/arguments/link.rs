//! The settings of one link, as they are said.

use super::usage;
use crate::key_file;
use crate::settings::LinkSettings;
use relay::{Cipher, Link, Settings};
use std::path::Path;
use std::sync::Arc;

/// Settings by their names; no name comes twice.
pub struct LinkWords {
    settings: Settings,
    key: Option<String>,
    names: Vec<String>,
}

impl LinkWords {
    /// With what is so if it is not said.
    pub fn new(settings: Settings) -> LinkWords {
        LinkWords {
            settings,
            key: None,
            names: Vec::new(),
        }
    }

    /// `NAME=VALUE`.
    pub fn set_part(&mut self, part: &str) -> Result<(), String> {
        let (name, value) = part.split_once('=').ok_or("a setting without a value")?;
        self.set(name, value)
    }

    pub fn set(&mut self, name: &str, value: &str) -> Result<(), String> {
        let settings = self.settings;
        self.settings = match name {
            "lowest" => settings.with_lowest(byte(name, value)?),
            "padded" => settings.with_padded(yes_or_no(name, value)?),
            "cipher" => settings.with_cipher(cipher(name, value)?),
            "key" => {
                self.key = Some(value.to_string());
                settings
            }
            _ => return Err(format!("unknown setting {name}")),
        };
        if self.names.iter().any(|said| said == name) {
            return Err(format!("{name} twice"));
        }
        self.names.push(name.to_string());
        Ok(())
    }

    /// Reads the key, and sets up a link here once, so that what the library
    /// refuses is known before the first connection.
    pub fn read(&self) -> Result<LinkSettings, String> {
        let settings = self.settings;
        let key = match (&self.key, settings.cipher) {
            (None, Cipher::ClearOnly) => None,
            (None, _) => return Err(usage("a link that may cipher needs a key")),
            // A key that is not used promises what is not done.
            (Some(_), Cipher::ClearOnly) => return Err(usage("a key for a link that goes clear")),
            (Some(file), _) => {
                let key = key_file::read(Path::new(file));
                Some(key.map_err(|error| format!("the key in {file}: {error}"))?)
            }
        };
        let link = match &key {
            None => Link::new(settings),
            Some(key) => Link::with_key(settings, key.bytes()),
        };
        link.map_err(|refusal| refusal.to_string())?;
        let key = key.map(Arc::new);
        Ok(LinkSettings { settings, key })
    }
}

fn byte(name: &str, value: &str) -> Result<u8, String> {
    let number = value.parse();
    number.map_err(|_| format!("{name} is no number from 0 to 255"))
}

fn yes_or_no(name: &str, value: &str) -> Result<bool, String> {
    match value {
        "yes" => Ok(true),
        "no" => Ok(false),
        _ => Err(format!("{name} is neither yes nor no")),
    }
}

fn cipher(name: &str, value: &str) -> Result<Cipher, String> {
    match value {
        "clear" => Ok(Cipher::ClearOnly),
        "only" => Ok(Cipher::CipherOnly),
        "either" => Ok(Cipher::Either),
        _ => Err(format!("{name} is none of clear, only and either")),
    }
}
