//! A row of a test: what its words are read as, what they are read with, and the words, parted by tabs.

/// A row of a test.
#[derive(Clone, Copy)]
pub struct Row<'a> {
    /// `objects`, `numbers` ..
    pub sort: &'a str,
    /// The names that may be spoken of, and the repeats that are open.
    pub with: &'a str,
    /// The words.
    pub said: &'a str,
}

impl<'a> Row<'a> {
    /// The row that a line is.
    pub fn of(line: &'a str) -> Option<Row<'a>> {
        let (sort, rest) = line.split_once('\t')?;
        let (with, said) = rest.split_once('\t')?;
        Some(Row { sort, with, said })
    }
}
