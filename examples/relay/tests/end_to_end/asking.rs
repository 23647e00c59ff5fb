//! What a front end sends on a connection.

use crate::claims::Claim;
use crate::front::{Front, Life};
use crate::no_timeout;
use crate::request::Request;
use crate::unreadable::REQUESTS;
use reference::link::Outgoing;
use reference::message::{values, Message};
use std::time::Instant;

impl Front {
    /// One random thing.
    pub fn act(&mut self, life: &mut Life, until: u64) {
        let single = life.claims.single();
        let chosen = match single.len() {
            0 => None,
            count => single
                .get(self.generator.below(count as u64) as usize)
                .copied(),
        };
        match (self.generator.below(100), chosen) {
            (0, _) if self.next_serial < until => {
                if let Some(number) = self.free_number(life) {
                    self.ask_unreadable(life, number);
                }
            }
            (2..=5, Some(number)) => self.cancel(life, number),
            (6..=8, _) => self.ping(life),
            (9, _) => self.nonsense(life),
            (10, _) => {
                // Of nothing open: ignored.
                life.socket.end.send_message(Message::Cancel(i64::MAX - 1));
            }
            _ if life.claims.count() < life.wanted && self.next_serial < until => {
                if let Some(number) = self.free_number(life) {
                    self.ask(life, number);
                }
            }
            _ => {}
        }
    }

    /// Mostly small numbers, so that links use the same ones again and again.
    fn free_number(&mut self, life: &Life) -> Option<i64> {
        let small = 1 + self.generator.below(30) as i64;
        let number = match self.generator.below(10) {
            0 => -small,
            1 => self
                .generator
                .pick(&[i64::MAX, i64::MIN, 1 << 32, -1 << 32]),
            _ => small,
        };
        life.claims.is_free(number).then_some(number)
    }

    pub fn ask(&mut self, life: &mut Life, number: i64) {
        let request = self.request(number);
        let payload = request.payload();
        let invoke = request.invoke(&payload);
        let says_none = invoke.timeout.is_none() && self.generator.below(4) == 0;
        if says_none {
            let forms = no_timeout::forms(&invoke);
            let (has_field, body) = &forms[self.generator.below(forms.len() as u64) as usize];
            life.socket.end.send_raw(values::INVOKE, body);
            self.tally.add("timeouts of 0", u64::from(*has_field));
        } else {
            life.socket.end.send_message(Message::Invoke(invoke));
        }
        self.claim(life, request, payload, None);
    }

    /// A request that the relay cannot read, and answers itself.
    pub fn ask_unreadable(&mut self, life: &mut Life, number: i64) {
        let form = self.generator.pick(&REQUESTS);
        let body = form.body(number);
        life.socket.end.send_raw(form.packet_type, &body);
        let request = self.request(number);
        self.claim(life, request, body, Some(form.refusal));
    }

    fn claim(&mut self, life: &mut Life, request: Request, payload: Vec<u8>, refusal: Option<i32>) {
        self.tally.add("asked", 1);
        life.claims.insert(Claim {
            request,
            payload,
            since: Instant::now(),
            refusal,
            cancelled: false,
        });
    }

    /// The next request.
    fn request(&mut self, number: i64) -> Request {
        let generator = &mut self.generator;
        let publisher = match generator.below(3) {
            0 => generator.below(2) as i64,
            _ => generator.below(8) as i64,
        };
        let actor = 8 * (generator.below(1000) as i64 - 500) + publisher;
        let longest = generator.pick(&[20, 20, 20, 20, 300, 300, 4000, 40_000]);
        let serial = self.next_serial;
        self.next_serial += 1;
        Request {
            front: self.front,
            life: self.life,
            number,
            serial,
            actor: (generator.below(8) > 0).then_some(actor),
            timeout: (generator.below(3) == 0).then(|| 1 + generator.below(4999) as u32),
            tl2: generator.below(4) == 0,
            filler: generator.below(longest) as u32,
        }
    }

    pub fn cancel(&mut self, life: &mut Life, number: i64) {
        if let Some(claim) = life.claims.get(number) {
            claim.cancelled = true;
            life.cancels.push((number, claim.request.serial));
            life.socket.end.send_message(Message::Cancel(number));
            self.tally.add("cancels sent", 1);
        }
    }

    /// Its Pong will say that the cancels before it are done.
    pub fn ping(&mut self, life: &mut Life) {
        if life.awaited.is_none() {
            life.awaited = Some(std::mem::take(&mut life.cancels));
            life.socket.end.send(Outgoing::Ping(self.generator.draw()));
        }
    }

    /// Messages that cannot be read and name no request, which are passed over:
    /// number 0, a cut number, too long a cancel, a type that is no message's.
    fn nonsense(&mut self, life: &mut Life) {
        let end = &mut life.socket.end;
        match self.generator.below(4) {
            0 => end.send_raw(values::INVOKE, &[0; 12]),
            1 => end.send_raw(values::INVOKE, &[1; 5]),
            2 => end.send_raw(values::CANCEL, &[1; 9]),
            _ => end.send_raw(0x0102_0304, b"nothing known"),
        }
        self.tally.add("nonsense", 1);
    }
}
