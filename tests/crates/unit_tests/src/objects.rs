//! Tests of the tree of objects: each public call, and a long sequence of puts and takings beside a plain map.

mod calls;
mod plain;
mod sequence;
