//! The program: `relay [OPTION]... LISTEN PUBLISHER ...`, with exactly eight
//! publishers. The options `--retry-ms N`, `--ping-ms N`, `--opening-ms N` and
//! `--request-ms N` are the times between two attempts to reach a publisher, of
//! the keep-alive, from a connection's start until its link must be open, and
//! from a request's acceptance until it ends with an error (0: never); with
//! `--padded-fronts` the links to all front ends are padded. A publisher is its address, or for
//! instance `10.0.0.7:2001,lowest=2,cipher=only,key=/etc/relay/key`: the lowest
//! version that its Nonce may have, whether the link to it is padded, and whether
//! it goes through the cipher, with the file of its key. `--fronts-cipher` and
//! `--fronts-key` say the same of the front ends, and `--card` where the points of
//! ciphered links come from; without one no link may cipher. It prints the address
//! on which it listens, for each line on standard input the counts (`fault_N`:
//! connections that refusal N ended), and on standard error what an operator has to
//! know of keys that do not fit.

use relay_example::arguments;
use relay_example::network::serve;
use std::net::TcpListener;
use std::process::ExitCode;

fn main() -> ExitCode {
    match run(std::env::args().skip(1)) {
        Ok(()) => ExitCode::SUCCESS,
        Err(message) => {
            eprintln!("relay: {message}");
            ExitCode::FAILURE
        }
    }
}

fn run(words: impl Iterator<Item = String>) -> Result<(), String> {
    let (listen, options) = arguments::read(words)?;
    let listener = TcpListener::bind(listen).map_err(|error| format!("{listen}: {error}"))?;
    let address = listener.local_addr().map_err(|error| error.to_string())?;
    println!("listening on {address}");
    serve(listener, &options).map_err(|error| error.to_string())
}
