//! Bodies put together field by field, right or wrong.

use crate::message::text;
use crate::message::values as v;

#[derive(Clone, Default)]
pub struct Body(pub Vec<u8>);

impl Body {
    pub fn numbered(number: i64) -> Body {
        Body::default().i64(number)
    }

    pub fn u32(self, value: u32) -> Body {
        self.bytes(&value.to_le_bytes())
    }

    pub fn i64(self, value: i64) -> Body {
        self.bytes(&value.to_le_bytes())
    }

    pub fn bytes(mut self, bytes: &[u8]) -> Body {
        self.0.extend(bytes);
        self
    }

    pub fn text(mut self, bytes: &[u8]) -> Body {
        text::push(&mut self.0, bytes);
        self
    }

    /// Without its last `n` bytes.
    pub fn cut(mut self, n: usize) -> Body {
        self.0.truncate(self.0.len() - n);
        self
    }

    pub fn actor(self, actor: i64) -> Body {
        self.u32(v::DEST_ACTOR).i64(actor)
    }

    pub fn flags(self, timeout: Option<u32>) -> Body {
        self.u32(v::DEST_FLAGS).extra(timeout)
    }

    pub fn actor_flags(self, actor: i64, timeout: Option<u32>) -> Body {
        self.u32(v::DEST_ACTOR_FLAGS).i64(actor).extra(timeout)
    }

    pub fn marker(self) -> Body {
        self.u32(v::TL2_MARKER)
    }

    fn extra(self, timeout: Option<u32>) -> Body {
        match timeout {
            None => self.u32(0),
            Some(timeout) => self.u32(v::TIMEOUT_BIT).u32(timeout),
        }
    }

    /// A header of an invoke or a result, with fields that are right.
    pub fn header(self, value: u32) -> Body {
        match value {
            v::DEST_FLAGS => self.flags(Some(250)),
            v::DEST_ACTOR => self.actor(-9),
            v::DEST_ACTOR_FLAGS => self.actor_flags(i64::MIN, Some(0)),
            v::RESULT_HEADER => self.u32(v::RESULT_HEADER).u32(0),
            _ => self.u32(value),
        }
    }

    /// An error inside a result, up to its text: value, perhaps a query
    /// number, code.
    pub fn error(self, value: u32, code: i32) -> Body {
        let body = self.u32(value);
        let body = match value {
            v::ERROR_NUMBERED => body.i64(0),
            _ => body,
        };
        body.u32(code as u32)
    }
}

/// The three error forms inside a result and the old error message, each with
/// its packet type and everything before the text.
pub fn error_forms() -> [(u32, Body); 4] {
    let inside = |value| (v::RESULT, Body::numbered(-2).error(value, -4000));
    [
        inside(v::ERROR),
        inside(v::ERROR_WRAPPED),
        inside(v::ERROR_NUMBERED),
        (v::OLD_ERROR, Body::numbered(i64::MAX).u32(0x8000_0000)),
    ]
}

/// Bodies of every kind that read well, none longer than some 60 bytes.
pub fn valid() -> Vec<(u32, Body)> {
    let mut bodies = vec![
        (v::CANCEL, Body::numbered(-77)),
        (v::CLIENT_FIN, Body::default()),
        (v::SERVER_FIN, Body::default()),
    ];
    for headers in header_shapes() {
        bodies.push((v::INVOKE, headers.clone().bytes(b"payload")));
        bodies.push((v::INVOKE, headers.marker().bytes(b"payload")));
    }
    for start in [
        Body::numbered(1),
        Body::numbered(-1).header(v::RESULT_HEADER),
    ] {
        bodies.push((v::RESULT, start.clone().bytes(b"payload")));
        for value in [v::ERROR, v::ERROR_WRAPPED, v::ERROR_NUMBERED] {
            let error = start.clone().error(value, -3000);
            bodies.push((v::RESULT, error.clone().text(b"")));
            bodies.push((v::RESULT, error.text(b"fault")));
        }
    }
    for text in [&b""[..], b"x", b"text!?"] {
        bodies.push((v::OLD_ERROR, Body::numbered(3).u32(7).text(text)));
    }
    bodies
}

/// The query number and headers of invokes, up to the marker or payload.
fn header_shapes() -> Vec<Body> {
    vec![
        Body::numbered(1),
        Body::numbered(2).actor(5),
        Body::numbered(-3).flags(None),
        Body::numbered(4).flags(Some(0)),
        Body::numbered(i64::MAX).flags(Some(u32::MAX)),
        Body::numbered(i64::MIN).actor_flags(i64::MAX, None),
        Body::numbered(1 << 32).actor_flags(-1, Some(270)),
        Body::numbered(-1 << 32).actor(0).flags(None),
        Body::numbered(5).actor(i64::MIN).flags(Some(1)),
        Body::numbered(6).flags(None).actor(1 << 40),
        Body::numbered(7).flags(Some(300_000)).actor(-6),
    ]
}
