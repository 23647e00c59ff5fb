mod zero_timeouts;

use super::*;
use crate::message::values as v;

fn lines(records: &[u8]) -> String {
    String::from_utf8(output(records)).unwrap()
}

fn read(reader: Side, packet_type: u32, body: &[u8]) -> String {
    let mut records = Vec::new();
    push_read(&mut records, reader, packet_type, body);
    lines(&records)
}

#[test]
fn lines_of_reads_by_hand() {
    let body = b"\xff\xff\xff\xff\xff\xff\xff\xff\
                 \x5e\x03\x52\xe3\x00\x00\x80\x00\x0e\x01\x00\x00\
                 \x54\x4c\x32\x29abc";
    let line = read(Side::Server, v::INVOKE, body);
    assert_eq!(line, "invoke -1 - 270 1 24 3\n");
    assert_eq!(read(Side::Client, v::INVOKE, body), "no 19\n");
    assert_eq!(read(Side::Server, v::CLIENT_FIN, b""), "client_fin\n");
    let zero = b"\x02\0\0\0\0\0\0\0\x5e\x03\x52\xe3\x00\x00\x80\x00\0\0\0\0abc";
    let line = read(Side::Server, v::INVOKE, zero);
    assert_eq!(line, "invoke 2 - - 0 20 3\n");
    let error = b"\x02\0\0\0\0\0\0\0\xfe\xff\xff\xff\x02no\0";
    let line = read(Side::Client, v::OLD_ERROR, error);
    assert_eq!(line, "result 2 error -2 13 2\n");
}

#[test]
fn lines_of_writes_by_hand() {
    let mut records = Vec::new();
    let draft = Draft::new(super::super::records::CANCEL, 1);
    push_write(&mut records, &draft, 9, b"");
    push_write(&mut records, &draft, 7, b"");
    let crc = CRC32.of(b"\x01\0\0\0\0\0\0\0\xa5");
    assert_eq!(lines(&records), format!("size 8 {crc:08x}\nno 16\n"));
}

#[test]
fn every_refusal_and_meaning_occurs() {
    let text = lines(&input());
    let count = |start: &str| text.lines().filter(|line| line.starts_with(start)).count();
    for refusal in 11..=19 {
        let start = format!("no {refusal}");
        assert!(count(&start) >= 150, "{start}: {}", count(&start));
    }
    for start in [
        "invoke ",
        "cancel ",
        "client_fin",
        "server_fin",
        "result ",
        "size ",
    ] {
        assert!(count(start) >= 50, "{start}: {}", count(start));
    }
}

#[test]
fn within_the_agreed_size() {
    assert!(input().len() <= 1_600_000, "{}", input().len());
}
