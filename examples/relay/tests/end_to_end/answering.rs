//! How a publisher answers: in any order, some twice, some too late, some so
//! that it cannot be read.

use crate::publisher::{Life, Open, Publisher};
use crate::request::Request;
use reference::message::{values, Message, Outcome};
use std::time::Instant;

impl Publisher {
    /// Those whose time has come, in a random order.
    pub fn answer_due(&mut self, life: &mut Life) {
        let now = Instant::now();
        let is_due = |open: &Open| open.due.is_some_and(|due| due <= now);
        let due = life.open.iter().filter(|(_, open)| is_due(open));
        let mut due: Vec<i64> = due.map(|(number, _)| *number).collect();
        while !due.is_empty() {
            let chosen = self.generator.below(due.len() as u64) as usize;
            let number = due.swap_remove(chosen);
            if let Some(open) = life.open.remove(&number) {
                self.answer(life, number, &open.payload);
                if self.generator.below(20) == 0 {
                    self.tally.add("answers twice", 1);
                    self.answer(life, number, &open.payload);
                }
            }
        }
    }

    /// An answer, or an error in one of its forms, or what cannot be read.
    pub fn answer(&mut self, life: &mut Life, number: i64, payload: &[u8]) {
        let end = &mut life.socket.end;
        let code = Request::error_code(self.publisher);
        match self.generator.below(16) {
            0 => end.send_message(Message::Result(number, Outcome::Error(code, payload))),
            1 if payload.len() < 254 => {
                // The old form, which the relay reads and never writes.
                let mut body = number.to_le_bytes().to_vec();
                body.extend(code.to_le_bytes());
                body.push(payload.len() as u8);
                body.extend(payload);
                body.resize(body.len().next_multiple_of(4), 0);
                end.send_raw(values::OLD_ERROR, &body);
            }
            2 => {
                let form = Request::unreadable(payload);
                end.send_raw(form.packet_type, &form.body(number));
                self.tally.add("answers unreadable", 1);
            }
            _ => {
                let answer = Request::answer(self.publisher, payload);
                end.send_message(Message::Result(number, Outcome::Payload(&answer)));
            }
        }
    }

    /// Answers to what an earlier connection brought: nobody may get them.
    pub fn answer_old(&mut self, life: &mut Life) {
        for (number, payload) in std::mem::take(&mut self.old) {
            self.tally.add("answers from before", 1);
            self.answer(life, number, &payload);
        }
    }
}
