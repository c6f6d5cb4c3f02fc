//! Tests of the libraries by their own calls: the tree of objects, the parser of commands, the order of rules, the map of rooms, and the player.
#[cfg(test)]
mod commands;
#[cfg(test)]
mod maps;
#[cfg(test)]
mod objects;
#[cfg(test)]
mod order;
#[cfg(test)]
mod player;
