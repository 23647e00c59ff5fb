//! The independent second program of the relay core, written from document 01
//! and the protocol document alone. It shares no code with the core, so where
//! the two agree, they agree because both follow the documents.

pub mod checksum;
pub mod cipher;
pub mod clock;
pub mod event;
pub mod generator;
pub mod hash;
pub mod hexadecimal;
pub mod keys;
pub mod link;
pub mod message;
pub mod numbers;
pub mod refusal;
pub mod stored;
pub mod table;
pub mod traffic;
pub mod walk;
