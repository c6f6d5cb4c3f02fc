//! Loads and plays stories, a line of hexadecimal digits each, and prints what each says at first and to `look`, in digits too, or
//! the fault for which it is refused: what is compared with a plain reader of stories. The word is the file.
mod told;

use crate::asked::text_named;
use crate::digits::bytes_told;
use crate::printing::print_each;
use std::io;
use told::told;

/// Prints what each story of the file says.
pub fn call(rt: &HostRuntime, words: &[String]) -> io::Result<()> {
    let stories = text_named(rt, words)?;
    print_each(rt, stories.as_str(), '\n', |digits| {
        bytes_told(rt.alloc(), digits, |bytes| told(rt.alloc(), bytes))
    })
}
