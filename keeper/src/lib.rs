//! What the program `keeper` is made of. None of it is proved: every judgement on a table or a network is an answer of
//! the proved library, through the calls in `library`.

pub mod collection;
pub mod commands;
pub mod drawing;
pub mod editions;
pub mod files;
pub mod folders;
pub mod judging;
mod layout;
pub mod library;
pub mod listing;
pub mod names;
pub mod options;
pub mod progress;
pub mod refusals;
pub mod report;
pub mod text;
