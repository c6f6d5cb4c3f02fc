//! Codes as they are told: what each is for, a colon, and its bytes in hexadecimal digits, as in `b:37`, `t1:193b`, `d:37`.
use crate::joined::add;
use play_meaning::Use;
use std::alloc::{AllocError, Global};
use story_code::Verified;

/// A code that is told: of a body, of a description, or of a test inside so many loops.
#[derive(Drop)]
pub struct ToldCode {
    pub role: Use,
    pub bytes: Vec<u8>,
}

/// What a code is for that is told by this word.
fn role_of(told: &str) -> Option<Use> {
    match told {
        "b" => Some(Use::Body),
        "d" => Some(Use::Describing),
        _ => {
            let loops = told.strip_prefix('t')?.parse::<u8>().ok()?;
            Some(Use::Test(loops))
        }
    }
}

impl ToldCode {
    /// The code that is told so; none where none is, or there is no memory for it.
    pub fn of(alloc: Global, told: &str) -> Option<ToldCode> {
        let (role, digits) = told.split_once(':')?;
        Some(ToldCode {
            role: role_of(role)?,
            bytes: hex::decode(alloc, digits.as_bytes()).ok()?,
        })
    }
}

/// A code as it is told.
fn told(alloc: Global, code: &Verified) -> Result<String, AllocError> {
    let digits = hex::encode(alloc, code.bytes())?;
    match code.sizes().role {
        Use::Body => format!(in alloc; "b:{digits}"),
        Use::Describing => format!(in alloc; "d:{digits}"),
        Use::Test(loops) => format!(in alloc; "t{loops}:{digits}"),
    }
}

/// Codes as they are told, a blank between them.
pub fn all_told(alloc: Global, codes: &[Verified]) -> Result<String, AllocError> {
    let mut all = String::new(alloc);
    for code in codes {
        add(&mut all, " ", told(alloc, code)?.as_str())?;
    }
    Ok(all)
}
