//! Tests of the player and of the program, in one crate, since each that holds tests is built with all that it stands on: sessions line by
//! line; runs over streams that fail or never end; the table of stored rules, full, out of order and with a function of their own for
//! a rule, that it is the stored function that is performed, and stories that aren't begun, as rules are missing or one refuses
//! memory; whole plays, and the program's lines and statuses.

mod doors;
mod fakes;
mod hall;
mod lines;
mod ninth;
mod performing;
mod plays;
mod reports;
mod starts;
mod stored;
mod streams;
mod tables;
mod watches;
