//! Tests of the parser of commands, over a small grammar.

mod calls;
mod shelf;
