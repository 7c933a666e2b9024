//! Document 01 again, written plainly: the independent program that the checker is compared with.
//!
//! It keeps the loaded tables and the accepted corrections and nothing else; every report and every answer to a question is worked
//! out from them anew. It is slow on purpose. Each function stands for a sentence of document 01, which is its comment; where a
//! request of document 02 has changed the rule, for that request's sentence.

pub mod across;
pub mod frame;
pub mod held;
pub mod report;
pub mod ring;
pub mod shape;
pub mod stream;
pub mod tables;

pub use stream::answer;

#[cfg(test)]
mod across_again;
#[cfg(test)]
mod across_examples;
#[cfg(test)]
mod examples;
#[cfg(test)]
mod second_look;
