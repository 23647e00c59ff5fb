//! Lines that are taken, and lines that are not.

use super::*;
use relay::{Cipher, Settings};
use std::fs::{self, Permissions};
use std::os::unix::fs::PermissionsExt;
use std::path::PathBuf;

/// A whole line with these publishers.
fn line(publishers: &[&str]) -> Result<(SocketAddr, Options), String> {
    let words = ["127.0.0.1:1"].iter().chain(publishers);
    read(words.map(|word| word.to_string()))
}

/// Those of the links to the publishers.
fn settings_of(options: &Options) -> [Settings; 8] {
    let publishers = options.publishers.each_ref();
    publishers.map(|publisher| publisher.link.settings)
}

/// What is wrong with a word, as the last of the eight publishers.
fn fault(word: &str) -> String {
    let mut words = ["127.0.0.1:2"; 8];
    words[7] = word;
    line(&words).err().expect("a word that is refused")
}

#[test]
fn times_are_as_said_or_as_the_usage_names_them() {
    let times = |words: &[&str]| {
        let words = words.iter().chain(&["127.0.0.1:1"]);
        let words = words
            .chain(&["127.0.0.1:2"; 8])
            .map(|word| word.to_string());
        let options = read(words).map(|(_, options)| options);
        options.map(|o| [o.retry, o.keep_alive, o.opening].map(|time| time.as_millis()))
    };
    assert_eq!(times(&[]), Ok([1000, 10_000, 5000]));
    let said = ["--opening-ms", "7", "--ping-ms", "8", "--retry-ms", "9"];
    assert_eq!(times(&said), Ok([9, 8, 7]));
    for value in ["0", "-1", "soon", ""] {
        assert_eq!(times(&["--opening-ms", value]), Err(USAGE.to_string()));
    }
}

#[test]
fn requests_run_out_as_said_or_never() {
    let timeout = |words: &str| {
        let options = with_options(words, "127.0.0.1:2");
        options.map(|options| options.request.map_or(0, NonZeroU32::get))
    };
    assert_eq!(timeout(""), Ok(30_000));
    assert_eq!(timeout("--request-ms 0"), Ok(0));
    assert_eq!(timeout("--request-ms 1"), Ok(1));
    assert_eq!(timeout("--request-ms 4294967295"), Ok(u32::MAX));
    for value in ["4294967296", "-1", "soon"] {
        let words = format!("--request-ms {value}");
        assert_eq!(timeout(&words), Err(USAGE.to_string()));
    }
}

#[test]
fn links_without_settings_take_every_version_and_are_not_padded() {
    let (listen, options) = line(&["127.0.0.1:2"; 8]).unwrap();
    assert_eq!(listen, "127.0.0.1:1".parse().unwrap());
    for publisher in &options.publishers {
        assert_eq!(publisher.address, "127.0.0.1:2".parse().unwrap());
        assert_eq!(publisher.link.settings, settings::PUBLISHER);
        assert!(publisher.link.key.is_none());
    }
    assert_eq!(options.front.settings, settings::FRONT);
    assert!(options.front.key.is_none() && options.card.is_none());
    for settings in [settings::PUBLISHER, settings::FRONT] {
        assert_eq!((settings.lowest, settings.padded), (0, false));
        assert_eq!(settings.cipher, Cipher::ClearOnly);
    }
}

#[test]
fn each_publisher_has_its_own_lowest_version() {
    let mut words = ["127.0.0.1:2"; 8];
    words[1] = "127.0.0.1:3,lowest=1";
    words[2] = "[::1]:4,lowest=2";
    words[3] = "127.0.0.1:5,lowest=0";
    let (_, options) = line(&words).unwrap();
    let lowest = settings_of(&options).map(|settings| settings.lowest);
    assert_eq!(lowest, [0, 1, 2, 0, 0, 0, 0, 0]);
    let ports = options.publishers.map(|publisher| publisher.address.port());
    assert_eq!(ports, [2, 3, 4, 5, 2, 2, 2, 2]);
}

#[test]
fn each_publisher_is_padded_or_not() {
    let mut words = ["127.0.0.1:2"; 8];
    words[1] = "127.0.0.1:3,padded=yes";
    words[2] = "127.0.0.1:3,padded=no";
    words[3] = "127.0.0.1:3,lowest=2,padded=yes";
    words[4] = "127.0.0.1:3,padded=yes,lowest=1";
    let (_, options) = line(&words).unwrap();
    let settings = settings_of(&options);
    let padded = settings.map(|settings| settings.padded);
    let [y, n] = [true, false];
    assert_eq!(padded, [n, y, n, y, y, n, n, n]);
    let lowest = settings.map(|settings| settings.lowest);
    assert_eq!(lowest, [0, 0, 0, 2, 1, 0, 0, 0]);
    assert!(!options.front.settings.padded);
}

#[test]
fn front_ends_are_padded_all_or_none() {
    let words = ["--padded-fronts", "127.0.0.1:1"];
    let words = words.iter().chain(&["127.0.0.1:2"; 8]);
    let (_, options) = read(words.map(|word| word.to_string())).unwrap();
    let fronts = options.front.settings;
    assert_eq!(fronts, settings::FRONT.with_padded(true));
    assert_eq!(settings_of(&options), [settings::PUBLISHER; 8]);
}

#[test]
fn a_setting_of_another_form_is_a_usage_error() {
    for (settings, what) in [
        ("", "a setting without a value"),
        ("lowest", "a setting without a value"),
        ("lowest=1,", "a setting without a value"),
        ("lowest=", "lowest is no number from 0 to 255"),
        ("lowest=two", "lowest is no number from 0 to 255"),
        ("lowest=-1", "lowest is no number from 0 to 255"),
        ("lowest=256", "lowest is no number from 0 to 255"),
        ("lowest=1,lowest=1", "lowest twice"),
        ("padded", "a setting without a value"),
        ("padded=", "padded is neither yes nor no"),
        ("padded=1", "padded is neither yes nor no"),
        ("padded=Yes", "padded is neither yes nor no"),
        ("padded=yes,padded=no", "padded twice"),
        ("padded=yes,lowest=1,padded=yes", "padded twice"),
        ("cipher", "a setting without a value"),
        ("cipher=", "cipher is none of clear, only and either"),
        ("cipher=yes", "cipher is none of clear, only and either"),
        ("cipher=only,cipher=only", "cipher twice"),
        ("cipher=only", "a link that may cipher needs a key"),
        ("cipher=either", "a link that may cipher needs a key"),
        ("key=/dev/null", "a key for a link that goes clear"),
        (
            "key=/dev/null,cipher=clear",
            "a key for a link that goes clear",
        ),
        ("key=a,cipher=only,key=a", "key twice"),
        ("highest=1", "unknown setting highest"),
        ("lowest=1,highest=1", "unknown setting highest"),
        ("=1", "unknown setting "),
    ] {
        let word = format!("127.0.0.1:2,{settings}");
        assert_eq!(fault(&word), format!("{word}: {what}\n{USAGE}"));
    }
}

#[test]
fn the_library_refuses_a_lowest_version_above_2() {
    for lowest in [3, 255] {
        let word = format!("127.0.0.1:2,lowest={lowest}");
        let refusal = relay::Refusal::OUT_OF_RANGE;
        assert_eq!(fault(&word), format!("{word}: {refusal}"));
    }
}

#[test]
fn there_are_eight_publishers_with_addresses() {
    assert_eq!(line(&["127.0.0.1:2"; 7]).err().unwrap(), USAGE);
    assert_eq!(line(&["127.0.0.1:2"; 9]).err().unwrap(), USAGE);
    assert_eq!(read(std::iter::empty()).err().unwrap(), USAGE);
    assert!(fault("lowest=1").starts_with("lowest=1: invalid"));
    assert!(fault(",lowest=1").starts_with(",lowest=1: invalid"));
}

/// A file of this test alone, with this key.
fn key_file(name: &str, key: &[u8]) -> PathBuf {
    let path = std::env::temp_dir().join(format!("relay-line-{}-{name}", std::process::id()));
    fs::write(&path, key).unwrap();
    fs::set_permissions(&path, Permissions::from_mode(0o600)).unwrap();
    path
}

/// A line with these options before the addresses, and one publisher's word.
fn with_options(options: &str, word: &str) -> Result<Options, String> {
    let words = options.split_whitespace().chain(["127.0.0.1:1", word]);
    let words = words.chain(["127.0.0.1:2"; 7]);
    read(words.map(str::to_string)).map(|(_, options)| options)
}

#[test]
fn links_that_may_cipher_have_a_key_and_a_card() {
    let path = key_file("taken", b"a key of at least thirty-two bytes");
    let file = path.display();
    let word = format!("127.0.0.1:2,cipher=either,key={file},lowest=2");
    let options = with_options("--card stand-in", &word).unwrap();
    let link = &options.publishers[0].link;
    assert_eq!(link.settings.cipher, Cipher::Either);
    assert_eq!(link.settings.lowest, 2);
    let key = link.key.as_ref().unwrap();
    assert_eq!(key.bytes(), b"a key of at least thirty-two bytes");
    assert!(options.publishers[1].link.key.is_none() && options.front.key.is_none());
    assert_eq!(options.card, Some(CardKind::StandIn));

    let fronts = format!("--fronts-cipher only --fronts-key {file} --card stand-in");
    let options = with_options(&fronts, "127.0.0.1:2").unwrap();
    assert_eq!(options.front.settings.cipher, Cipher::CipherOnly);
    assert!(options.front.key.is_some() && options.publishers[0].link.key.is_none());

    let missing = usage("a link may cipher, and there is no card");
    assert_eq!(with_options("", &word).err(), Some(missing.clone()));
    let fronts = format!("--fronts-cipher only --fronts-key {file}");
    assert_eq!(with_options(&fronts, "127.0.0.1:2").err(), Some(missing));
    fs::remove_file(path).unwrap();
}

#[test]
fn a_key_that_the_library_refuses_is_told_at_the_start() {
    for (name, key) in [
        ("short", &[7; 31][..]),
        ("long", &[7; 4097]),
        ("zeros", &[0; 40]),
    ] {
        let path = key_file(name, key);
        let word = format!("127.0.0.1:2,cipher=only,key={}", path.display());
        let refusal = relay::Refusal::UNSUITABLE_KEY;
        let error = with_options("--card stand-in", &word).err();
        assert_eq!(error, Some(format!("{word}: {refusal}")));
        fs::remove_file(path).unwrap();
    }
}

#[test]
fn a_key_file_that_others_can_read_is_told_with_its_name() {
    let path = key_file("open", &[7; 32]);
    fs::set_permissions(&path, Permissions::from_mode(0o644)).unwrap();
    let why = format!(
        "the key in {}: others than its owner have rights to it",
        path.display()
    );
    let word = format!("127.0.0.1:2,cipher=only,key={}", path.display());
    let error = with_options("--card stand-in", &word).err();
    assert_eq!(error, Some(format!("{word}: {why}")));
    let fronts = format!(
        "--fronts-cipher only --fronts-key {} --card stand-in",
        path.display()
    );
    let error = with_options(&fronts, "127.0.0.1:2").err();
    assert_eq!(error, Some(format!("front ends: {why}")));
    fs::remove_file(path).unwrap();
}

#[test]
fn no_option_comes_twice() {
    for (options, twice) in [
        ("--retry-ms 1 --retry-ms 1", "--retry-ms"),
        ("--ping-ms 1 --retry-ms 1 --ping-ms 2", "--ping-ms"),
        ("--opening-ms 1 --opening-ms 1", "--opening-ms"),
        ("--padded-fronts --padded-fronts", "--padded-fronts"),
        (
            "--fronts-cipher clear --fronts-cipher only",
            "--fronts-cipher",
        ),
        ("--fronts-key a --fronts-key a", "--fronts-key"),
        ("--card stand-in --card stand-in", "--card"),
    ] {
        let error = with_options(options, "127.0.0.1:2").err();
        assert_eq!(error, Some(usage(format!("{twice} twice"))));
    }
}

#[test]
fn cards_by_their_words() {
    for word in ["", "none", "X25519"] {
        let error = with_options(&format!("--card {word}"), "127.0.0.1:2").err();
        assert!(
            error.is_some_and(|error| error.contains("usage: ")),
            "{word}"
        );
    }
    assert_eq!(CardKind::of("x25519").is_ok(), cfg!(feature = "openssl"));
}
