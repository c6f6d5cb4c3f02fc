//! A rule: its rulebook, `[pattern]` or `@[place]`, `~[scene]`, `{condition:` and `(name)`, and of each phrase its line and depth, what
//! it says, and `!` for an `instead`: `every{in,darkness: 1/0 |x|`. Where a sentence lists a rule: `first<instead>(oak)`. On what a
//! scene begins or ends: `begins<storm>{in,darkness:`.
use crate::readings::spoken::add_spoken;
use crate::readings::texts::add_words;
use crate::readings::tokens::fault_told;
use i7_lexer::{Lexed, lex};
use i7_sentences::{
    Assertion, ListedIn, Rule, RuleBook, RuleListing, RulePhrase, RuleSubject, SceneChange,
    SceneEdge, Sentence, WordList, read,
};
use std::alloc::{AllocError, Global};

/// Adds the book of a scene's beginning or end.
fn add_scene(out: &mut Vec<u8>, prefix: &[u8], scene: &WordList) -> Result<(), AllocError> {
    out.extend_from_slice(prefix)?;
    add_words(out, b'<', scene, b'>')
}

/// Adds a rulebook.
fn add_book(out: &mut Vec<u8>, book: &RuleBook) -> Result<(), AllocError> {
    match book {
        RuleBook::Before => out.extend_from_slice(b"before"),
        RuleBook::Instead => out.extend_from_slice(b"instead"),
        RuleBook::Check => out.extend_from_slice(b"check"),
        RuleBook::CarryOut => out.extend_from_slice(b"carry"),
        RuleBook::After => out.extend_from_slice(b"after"),
        RuleBook::Report => out.extend_from_slice(b"report"),
        RuleBook::EveryTurn => out.extend_from_slice(b"every"),
        RuleBook::PlayBegins => out.extend_from_slice(b"begins"),
        RuleBook::SceneBegins(scene) => add_scene(out, b"begins", scene),
        RuleBook::SceneEnds(scene) => add_scene(out, b"ends", scene),
        RuleBook::Own(words) => add_words(out, b'<', words, b'>'),
    }
}

/// Adds what a rule is about.
fn add_subject(out: &mut Vec<u8>, subject: &RuleSubject) -> Result<(), AllocError> {
    match subject {
        RuleSubject::Anything => Ok(()),
        RuleSubject::Pattern(words) => add_words(out, b'[', words, b']'),
        RuleSubject::Place(words) => {
            out.push(b'@')?;
            add_words(out, b'[', words, b']')
        }
    }
}

/// Adds the head of a rule.
fn add_head(out: &mut Vec<u8>, rule: &Rule) -> Result<(), AllocError> {
    add_book(out, &rule.book)?;
    add_subject(out, &rule.subject)?;
    if let Some(scene) = &rule.scene {
        out.push(b'~')?;
        add_words(out, b'[', scene, b']')?;
    }
    if let Some(condition) = &rule.condition {
        add_words(out, b'{', condition, b':')?;
    }
    if let Some(name) = &rule.name {
        add_words(out, b'(', name, b')')?;
    }
    Ok(())
}

/// Adds a phrase.
fn add_phrase(alloc: Global, out: &mut Vec<u8>, phrase: &RulePhrase) -> Result<(), AllocError> {
    let line = phrase.line;
    let depth = phrase.depth;
    let place = format!(in alloc; " {line}/{depth} ")?;
    out.extend_from_slice(place.as_bytes())?;
    add_spoken(out, &phrase.said)?;
    if phrase.is_instead {
        out.push(b'!')?;
    }
    Ok(())
}

/// Adds a rule with its phrases.
pub fn add_rule(alloc: Global, out: &mut Vec<u8>, rule: &Rule) -> Result<(), AllocError> {
    add_head(out, rule)?;
    for phrase in rule.body.as_slice() {
        add_phrase(alloc, out, phrase)?;
    }
    Ok(())
}

/// Adds where a sentence lists a rule.
pub fn add_listing(out: &mut Vec<u8>, listing: &RuleListing) -> Result<(), AllocError> {
    match &listing.place {
        ListedIn::First(book) => {
            out.extend_from_slice(b"first")?;
            add_words(out, b'<', book, b'>')?;
        }
        ListedIn::Last(book) => {
            out.extend_from_slice(b"last")?;
            add_words(out, b'<', book, b'>')?;
        }
        ListedIn::Nowhere => out.extend_from_slice(b"unlisted")?,
    }
    add_words(out, b'(', &listing.rule, b')')
}

/// Adds on what a scene begins or ends.
pub fn add_scene_change(out: &mut Vec<u8>, change: &SceneChange) -> Result<(), AllocError> {
    match change.edge {
        SceneEdge::Begins => add_scene(out, b"begins", &change.scene)?,
        SceneEdge::Ends => add_scene(out, b"ends", &change.scene)?,
    }
    add_words(out, b'{', &change.condition, b':')
}

/// What a sentence says as a rule, where it lists one, or on what a scene begins or ends.
fn said_told(alloc: Global, said: &Assertion) -> Result<Vec<u8>, AllocError> {
    let mut out = Vec::new(alloc);
    match said {
        Assertion::Rule(rule) => add_rule(alloc, &mut out, rule)?,
        Assertion::Listing(listing) => add_listing(&mut out, listing)?,
        Assertion::SceneChange(change) => add_scene_change(&mut out, change)?,
        _ => out.extend_from_slice(b"no rule")?,
    }
    Ok(out)
}

/// What the one sentence of a source says as a rule.
fn sentence_told(alloc: Global, sentences: &[Sentence]) -> Result<Vec<u8>, AllocError> {
    match sentences {
        [sentence] => said_told(alloc, &sentence.said),
        _ => Vec::from_slice(alloc, b"not one sentence"),
    }
}

/// What tokens are as a rule, or their refusal.
fn read_told(alloc: Global, lexed: &Lexed) -> Result<Vec<u8>, AllocError> {
    match read(alloc, lexed) {
        Ok(sentences) => sentence_told(alloc, sentences.as_slice()),
        Err(fault) => fault_told(alloc, fault),
    }
}

/// What a source of one sentence is as a rule: the rule, its refusal, or that it is none.
pub fn rule_told(alloc: Global, source: &[u8]) -> Result<Vec<u8>, AllocError> {
    match lex(alloc, source) {
        Ok(lexed) => read_told(alloc, &lexed),
        Err(fault) => fault_told(alloc, fault),
    }
}
