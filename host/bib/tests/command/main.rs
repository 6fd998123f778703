//! The command, run as people and scripts run it.

mod check;
mod crossrefs;
mod cut;
mod encodings;
mod entries;
mod examples;
mod limits;
mod places;
mod resolve;
mod run;
mod scripts;
mod slow;
mod strings;
mod terminal;
mod words;
