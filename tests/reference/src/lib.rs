//! An independent implementation of the storage command engine, to compare others with.
//!
//! It is written from the documents alone, as clear as it can be and not fast. Lent bytes come in
//! as slices and go out as fresh vectors, so a call can never alter what it was given.
//!
//! * [`engine::answer`] carries out one command,
//! * [`admission::question`] tells which capability admits a range,
//! * [`writer::write`] is the host's side,
//! * [`generate`] makes random calls, [`laws`] checks answers to them, [`vectors`] keeps them as text,
//! * [`theorems`] says answers in the language of the book of rules, to hold the two against each other,
//! * [`compare`] holds another engine to all of this, through its C [`face`] and a [`driver`],
//! * [`capture`] has an outside program, Wireshark, read what a writer wrote,
//! * [`bench`] has the files of the program on standard input,
//! * [`server`] tests the example server and its client.

pub mod admission;
pub mod bench;
pub mod bytes;
pub mod capability;
pub mod capture;
pub mod case;
pub mod command;
pub mod compare;
pub mod driver;
pub mod engine;
pub mod face;
pub mod generate;
pub mod kept;
pub mod laws;
pub mod numbers;
pub mod random;
pub mod record;
pub mod segment;
pub mod server;
pub mod sessions;
pub mod theorems;
pub mod vectors;
pub mod writer;
