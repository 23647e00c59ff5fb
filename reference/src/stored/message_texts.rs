//! Texts of errors, right and wrong, that the message check reads.

use super::message_bodies::{error_forms, Body};
use super::message_reads::Reads;
use crate::generator::Generator;
use crate::message::text::padding;

/// Around the lengths where the form changes, with every padding.
const LENGTHS: [usize; 13] = [0, 1, 2, 3, 4, 5, 251, 252, 253, 254, 255, 256, 257];

/// Too long to be cut everywhere; the third byte of the length counts here.
const LONG: [usize; 2] = [70_000, 70_001];

pub fn push(reads: &mut Reads, generator: &mut Generator) {
    for form in error_forms() {
        for len in LENGTHS {
            sound(reads, &form, &generator.bytes(len));
        }
        for len in LENGTHS.into_iter().take(6) {
            bad_zeros(reads, &form, &generator.bytes(len));
        }
        fronts(reads, &form);
    }
    let [form, ..] = error_forms();
    for len in LENGTHS.into_iter().skip(6) {
        bad_zeros(reads, &form, &generator.bytes(len));
        cut_near_the_end(reads, &form, &generator.bytes(len));
    }
    long_form_too_short(reads, generator, &form);
    first_bytes(reads, &form);
    very_long(reads, generator);
}

type Form = (u32, Body);

fn sound(reads: &mut Reads, (packet_type, start): &Form, text: &[u8]) {
    let body = start.clone().text(text);
    reads.push(*packet_type, &body);
    reads.push(*packet_type, &body.bytes(&[0]));
}

/// At each padding place a byte other than 0: whole, with a byte after it,
/// and with the last zero cut off, which is seen first.
fn bad_zeros(reads: &mut Reads, (packet_type, start): &Form, text: &[u8]) {
    let whole = start.clone().text(text);
    let front = if text.len() < 254 { 1 } else { 4 };
    for back in 1..=padding(front + text.len()) {
        for byte in [0x01, 0x80] {
            let mut bad = whole.clone();
            let place = bad.0.len() - back;
            bad.0[place] = byte;
            reads.push(*packet_type, &bad);
            reads.push(*packet_type, &bad.clone().bytes(&[0]));
            reads.push(*packet_type, &bad.cut(1));
        }
    }
}

/// A length byte or two or three, and little behind.
fn fronts(reads: &mut Reads, (packet_type, start): &Form) {
    let fronts: [&[u8]; 12] = [
        &[],
        &[255],
        &[255, 0, 0, 0],
        &[255, 255, 255, 255],
        &[254],
        &[254, 253],
        &[254, 254, 0],
        &[254, 253, 0, 0],
        &[254, 254, 0, 0],
        &[254, 0, 1, 0],
        &[254, 0, 0, 1],
        &[254, 255, 255, 255, 1],
    ];
    for front in fronts {
        reads.push(*packet_type, &start.clone().bytes(front));
    }
}

fn cut_near_the_end(reads: &mut Reads, (packet_type, start): &Form, text: &[u8]) {
    let whole = start.clone().text(text);
    for n in 1..=7 {
        reads.push(*packet_type, &whole.clone().cut(n));
    }
}

/// A long form that should have been a short one, with all its bytes and
/// with none.
fn long_form_too_short(reads: &mut Reads, generator: &mut Generator, form: &Form) {
    let (packet_type, start) = form;
    for len in [0, 1, 2, 3, 4, 5, 100, 250, 251, 252, 253] {
        let front = start.clone().bytes(&[254, len, 0, 0]);
        let text = generator.bytes(usize::from(len));
        let zeros = &[0; 3][..padding(text.len())];
        reads.push(*packet_type, &front);
        reads.push(*packet_type, &front.bytes(&text).bytes(zeros));
    }
}

/// Every first byte before 64 zeros.
fn first_bytes(reads: &mut Reads, (packet_type, start): &Form) {
    for first in 0..=255 {
        let body = start.clone().bytes(&[first]).bytes(&[0; 64]);
        reads.push(*packet_type, &body);
    }
}

fn very_long(reads: &mut Reads, generator: &mut Generator) {
    let [(packet_type, start), .., (old_type, old_start)] = error_forms();
    for len in LONG {
        let text = generator.bytes(len);
        let whole = start.clone().text(&text);
        reads.push(packet_type, &whole);
        reads.push(packet_type, &whole.cut(1));
        reads.push(old_type, &old_start.clone().text(&text).bytes(&[0]));
    }
}
