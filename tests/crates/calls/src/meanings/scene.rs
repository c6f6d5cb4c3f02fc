//! The names that words may speak of, the repeats that are open, and words.
use crate::meanings::setting::Setting;
use i7_conditions::Names;
use std::alloc::{AllocError, Global};
use world_meaning::TextBytes;

/// What the words of a row are read with.
#[derive(Drop)]
pub struct Scene {
    pub names: Names,
    /// The names of the open repeats, the outermost first.
    pub repeats: Vec<TextBytes>,
}

/// Adds what a setting says.
fn set(
    alloc: Global,
    names: &mut Names,
    repeats: &mut Vec<TextBytes>,
    setting: &Setting<'_>,
) -> Result<(), AllocError> {
    match setting {
        Setting::Name(meaning, name) => names.add(alloc, name.as_bytes(), *meaning),
        Setting::Plural(kind, name) => names.add_plural(alloc, name.as_bytes(), *kind),
        Setting::Repeat(name) => {
            let name = TextBytes::copied(alloc, name.as_bytes())?;
            Ok(repeats.push(name)?)
        }
    }
}

impl Scene {
    /// The scene of these settings, parted by `;`, if each is one.
    pub fn of(alloc: Global, settings: &str) -> Result<Option<Scene>, AllocError> {
        let mut names = Names::new(alloc);
        let mut repeats = Vec::new(alloc);
        for text in settings.split_terminator(';') {
            let Some(setting) = Setting::of(text) else {
                return Ok(None);
            };
            set(alloc, &mut names, &mut repeats, &setting)?;
        }
        Ok(Some(Scene { names, repeats }))
    }
}

/// The words of a text, parted by one space each.
pub fn words(alloc: Global, text: &str) -> Result<Vec<TextBytes>, AllocError> {
    let mut all = Vec::new(alloc);
    for word in text.split(' ') {
        all.push(TextBytes::copied(alloc, word.as_bytes())?)?;
    }
    Ok(all)
}
