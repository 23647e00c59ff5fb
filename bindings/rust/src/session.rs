//! A link with all that a driver does around it, clear or ciphered: bytes in,
//! packets out, packets in, bytes out.

mod agreement;
mod input;
mod output;

use crate::packet_type::NONCE;
use crate::{Arrival, Cipher, Link, Moment, Refusal, Settings, ToSend};
use agreement::Agreement;
use input::Input;
use output::Output;
use std::fmt;

pub use agreement::{Address, Addresses, Card};

/// A link and its bytes, in an order that cannot be wrong.
///
/// A driver does the same for every link, whether it is ciphered or not, and need
/// not know:
///
/// - what it reads from the socket it [feeds](Session::feed), in any pieces, and
///   then takes [each packet](Session::next) until there is none;
/// - what it has to say it [sends](Session::send), any number of packets; then it
///   [takes the output](Session::take_output) and writes it to the socket.
///
/// The session keeps the order of a ciphered link by itself (include/relay.h has
/// it in words). The keys are derived once, in the call that sends or takes the
/// second Nonce, so that nothing goes on without them; each direction has its own,
/// and no caller holds them. What comes behind the other side's Nonce reaches the
/// link deciphered only, and what goes behind ours leaves flushed and enciphered
/// only. The link's key and the shared bytes are cleared as soon as the keys are
/// derived or never will be, the keys for what comes as soon as nothing more can
/// come, and those for what goes with the session. What the compiler leaves on the
/// stack is not cleared.
///
/// ```
/// use relay::{Moment, Session, Settings, Side, ToSend};
///
/// let now = Moment { time: 1_700_000_000 };
/// let mut client = Session::new(Settings::new(Side::Client, true))?;
/// let mut server = Session::new(Settings::new(Side::Server, true))?;
/// client.send(ToSend::Nonce { random: [7; 16] }, now)?;
/// server.feed(&client.take_output());
/// let packet = server.next(now)?.expect("a whole packet");
/// assert_eq!(packet.kind, relay::packet_type::NONCE);
/// assert_eq!(server.next(now), Err(relay::Refusal::NOT_OUR_TURN.into()));
/// # Ok::<(), relay::Fault>(())
/// ```
pub struct Session {
    link: Link,
    /// What the keys are derived from; none once they are or will never be.
    agreement: Option<Agreement>,
    /// The card gave no shared bytes: nothing goes on.
    is_broken: bool,
    input: Input,
    output: Output,
}

/// A packet that the link has taken.
#[derive(Clone, Copy, Debug, PartialEq, Eq)]
pub struct Packet<'a> {
    /// Its type.
    pub kind: u32,
    pub body: &'a [u8],
}

/// Why a session does not do what it is asked.
#[derive(Clone, Copy, Debug, PartialEq, Eq)]
pub enum Fault {
    /// The link refuses it; whether it is closed then is as with a [`Link`].
    Refused(Refusal),
    /// The card refuses the other side's point. The session is closed.
    Card,
}

impl Session {
    /// Of a link without a key, so of one that goes clear only; refused as by
    /// [`Link::new`].
    pub fn new(settings: Settings) -> Result<Session, Refusal> {
        Ok(Session::around(Link::new(settings)?, None))
    }

    /// Of a link with a key; refused as by [`Link::with_key`]. The session copies
    /// the key, and clears its copy when both Nonces have gone over.
    pub fn with_key(
        settings: Settings,
        key: &[u8],
        card: impl Card + Send + 'static,
        addresses: Addresses,
    ) -> Result<Session, Refusal> {
        let link = Link::with_key(settings, key)?;
        let agreement = (settings.cipher != Cipher::ClearOnly)
            .then(|| Agreement::new(settings.side, key, Box::new(card), addresses));
        Ok(Session::around(link, agreement))
    }

    fn around(link: Link, agreement: Option<Agreement>) -> Session {
        Session {
            link,
            agreement,
            is_broken: false,
            input: Input::default(),
            output: Output::default(),
        }
    }

    /// Takes bytes that came, in any pieces. Those of a closed session are dropped.
    pub fn feed(&mut self, bytes: &[u8]) {
        if !self.is_closed() {
            self.input.feed(bytes);
        }
    }

    /// The next packet, if it is whole. After a refusal other than 22 the session
    /// is closed.
    ///
    /// It is a `next` that takes the time with it, so no iterator's.
    #[allow(clippy::should_implement_trait)]
    pub fn next(&mut self, moment: Moment) -> Result<Option<Packet<'_>>, Fault> {
        self.check()?;
        let (arrival, body) = self.link.receive_at(self.input.clear(), moment);
        let (kind, consumed) = match arrival {
            Arrival::Packet { kind, consumed, .. } => (kind, consumed),
            Arrival::Refused(refusal) => {
                if self.link.is_closed() {
                    // Nothing more comes. The output stays: its cipher decides
                    // what of it is dropped.
                    self.agreement = None;
                    self.input = Input::default();
                }
                return Err(refusal.into());
            }
            Arrival::Incomplete(_) => {
                self.input.let_go();
                return Ok(None);
            }
        };
        let body = self.input.used(consumed, body);
        if kind == NONCE {
            if let Some(agreement) = &mut self.agreement {
                agreement.take_theirs(self.input.part(&body));
            }
            self.agree()?;
        }
        let body = self.input.part(&body);
        Ok(Some(Packet { kind, body }))
    }

    /// Writes a packet behind the output. After a refusal all is as before. The
    /// point of a Nonce is the card's, whatever `what` has.
    pub fn send(&mut self, what: ToSend, moment: Moment) -> Result<(), Fault> {
        self.check()?;
        match what {
            ToSend::Nonce { random } | ToSend::NonceWithPoint { random, .. } => {
                self.send_nonce(random, moment)
            }
            what => {
                self.output.add(&mut self.link, what, moment)?;
                Ok(())
            }
        }
    }

    fn send_nonce(&mut self, random: [u8; 16], moment: Moment) -> Result<(), Fault> {
        let is_ciphered = self.link.is_ciphered();
        let nonce = match &mut self.agreement {
            Some(agreement) => agreement.with_point(random, is_ciphered),
            None => ToSend::Nonce { random },
        };
        let packet = self.output.add(&mut self.link, nonce, moment)?;
        if let Some(agreement) = &mut self.agreement {
            agreement.take_ours(packet);
        }
        self.agree()
    }

    /// All that is to be written to the socket now, flushed, and enciphered on a
    /// ciphered link. Of a link that a refusal has closed nothing can be flushed:
    /// what was sent since the last output is dropped there, if it is ciphered.
    ///
    /// It is called behind the last packet that is to go out at once: each output
    /// ends a block.
    #[must_use]
    pub fn take_output(&mut self) -> Vec<u8> {
        self.output.take(&mut self.link)
    }

    /// Whether all four packets of the opening went over.
    pub fn is_open(&self) -> bool {
        self.link.is_open()
    }

    /// Whether a fault has closed the session.
    pub fn is_closed(&self) -> bool {
        self.is_broken || self.link.is_closed()
    }

    /// Whether the Nonces chose the cipher.
    pub fn is_ciphered(&self) -> bool {
        self.link.is_ciphered()
    }

    fn check(&self) -> Result<(), Fault> {
        match self.is_broken {
            true => Err(Refusal::LINK_CLOSED.into()),
            false => Ok(()),
        }
    }

    /// After each Nonce: behind theirs nothing is clear any more if the cipher is
    /// chosen, and behind the second one both directions have their keys.
    fn agree(&mut self) -> Result<(), Fault> {
        let Some(agreement) = self.agreement.take_if(|agreement| agreement.has_both()) else {
            if self.link.is_ciphered() {
                self.input.seal();
            }
            return Ok(());
        };
        if !self.link.is_ciphered() {
            return Ok(());
        }
        self.input.seal();
        // The card is the caller's code. If it panics and the caller goes on, there
        // are no keys, and nothing may leave.
        self.is_broken = true;
        let output = std::mem::take(&mut self.output);
        let (encipher, decipher) = agreement.derive().ok_or(Fault::Card)?;
        self.is_broken = false;
        self.output = output;
        self.input.unseal(decipher);
        self.output.encipher(encipher);
        Ok(())
    }
}

/// Without keys and bytes.
impl fmt::Debug for Session {
    fn fmt(&self, f: &mut fmt::Formatter) -> fmt::Result {
        f.debug_struct("Session")
            .field("link", &self.link)
            .finish_non_exhaustive()
    }
}

impl From<Refusal> for Fault {
    fn from(refusal: Refusal) -> Fault {
        Fault::Refused(refusal)
    }
}

impl fmt::Display for Fault {
    fn fmt(&self, f: &mut fmt::Formatter) -> fmt::Result {
        match self {
            Fault::Refused(refusal) => refusal.fmt(f),
            Fault::Card => write!(f, "the card refuses the other side's point"),
        }
    }
}

impl std::error::Error for Fault {}
