//! Runs of codes that are told. What they run in stands in front, the source of a story; behind a unit separator (U+001F) the
//! strings that codes may say, a line each; behind another the runs, a line each: how often the first body is done, what it asks
//! being passed over, or `once`, where it leaves off there; perhaps a slash and the number of the code by which all is described
//! that the story describes; the codes, a blank in front of each; and perhaps a tab and what is asked, `;` in between.
use crate::rules::codes::{counts_of, sound};
use crate::rules::facts::fact_told;
use crate::rules::playing::story_of;
use crate::rules::runner::{Asked, Ended, run};
use crate::rules::stage::Stage;
use crate::rules::told_code::ToldCode;
use crate::rules::unplayed::Unplayed;
use object_words::Strings;
use play_meaning::Use;
use std::alloc::{AllocError, Global};
use std::rc::Rc;
use story_code::Verified;
use story_format::Story;
use world_meaning::ObjNo;
use world_store::World;

/// What codes are run in.
#[derive(Drop)]
pub struct Bench {
    story: Rc<Story>,
    strings: Strings,
}

/// What a body did, said and left behind.
#[derive(Drop)]
pub struct Done {
    pub ended: Ended,
    pub text: Vec<u8>,
    pub stage: Stage,
}

/// How a body is done: how often, what becomes of it where it asks, and the code that describes.
#[derive(Clone, Copy)]
struct Way {
    times: u32,
    asked: Asked,
    describing: Option<u16>,
}

/// The codes of a run.
#[derive(Drop)]
struct Run {
    way: Way,
    codes: Vec<ToldCode>,
}

/// How often a body is done by this word.
fn way_of(times: &str, describing: Option<u16>) -> Option<Way> {
    if times == "once" {
        return Some(Way {
            times: 1,
            asked: Asked::Told,
            describing,
        });
    }
    Some(Way {
        times: times.parse::<u32>().ok()?,
        asked: Asked::PassedOver,
        describing,
    })
}

/// How a body is done by this word and the number behind its slash, if it has one.
fn way_in(told: &str) -> Option<Way> {
    match told.split_once('/') {
        Some((times, number)) => way_of(times, Some(number.parse::<u16>().ok()?)),
        None => way_of(told, None),
    }
}

/// The codes that are told, a blank between them.
fn codes_in(alloc: Global, told: &str) -> Result<Vec<ToldCode>, Unplayed> {
    let mut codes = Vec::new(alloc);
    for code in told.split(' ') {
        match ToldCode::of(alloc, code) {
            Some(code) => codes.push(code)?,
            None => return Err(Unplayed::UnknownPart),
        }
    }
    Ok(codes)
}

/// The run of a line.
fn run_in(alloc: Global, line: &str) -> Result<Run, Unplayed> {
    let Some((told, codes)) = line.split_once(' ') else {
        return Err(Unplayed::UnknownPart);
    };
    match way_in(told) {
        Some(way) => Ok(Run {
            way,
            codes: codes_in(alloc, codes)?,
        }),
        None => Err(Unplayed::UnknownPart),
    }
}

/// The number of the first body, 0 if there is none.
fn first_body(codes: &[ToldCode]) -> u16 {
    for (number, code) in codes.iter().enumerate() {
        if let Use::Body = code.role {
            return u16::try_from(number).unwrap_or(0);
        }
    }
    0
}

/// What a body did, and what is asked about it.
fn done_told(alloc: Global, done: &Done, asked: &str) -> Result<String, AllocError> {
    let mut told = match &done.ended {
        Ended::Left(step) => format!(in alloc; "did\t{step:?}")?,
        Ended::Broken(reason) => format!(in alloc; "stopped\t{reason}")?,
    };
    for words in asked.split_terminator(';') {
        told.push('\t')?;
        told.push_str(fact_told(alloc, done, words)?.as_str())?;
    }
    Ok(told)
}

impl Bench {
    /// The bench of a source and these strings, a line each.
    pub fn of(alloc: Global, source: &str, strings: &str) -> Result<Bench, Unplayed> {
        let story = story_of(alloc, source)?;
        let mut all = Strings::new(alloc);
        for string in strings.lines() {
            all.mention(alloc, string.as_bytes())?;
        }
        Ok(Bench {
            story,
            strings: all,
        })
    }

    /// Codes, if each is sound.
    fn verified(&self, alloc: Global, told: Vec<ToldCode>) -> Result<Vec<Verified>, Unplayed> {
        let counts = counts_of(alloc, self.story.as_ref(), self.strings.len(), told.len())?;
        let mut codes = Vec::new(alloc);
        for (own, code) in told.into_iter().enumerate() {
            codes.push(sound(code.bytes, counts, own, code.role)?)?;
        }
        Ok(codes)
    }

    /// What describes each object, where all that the story describes is described by this code.
    fn descriptions(
        &self,
        alloc: Global,
        number: Option<u16>,
    ) -> Result<Vec<Option<u16>>, AllocError> {
        let mut all = Vec::new(alloc);
        for object in 0..self.story.object_count() as u16 {
            all.push(match self.story.description_code(ObjNo::new(object)) {
                Some(_) => number,
                None => None,
            })?;
        }
        Ok(all)
    }

    /// Does a body as often as is told, from its beginning each time, in the world as it then stands.
    fn done(&self, alloc: Global, told: Run) -> Result<Done, Unplayed> {
        let Run { way, codes } = told;
        let number = first_body(codes.as_slice());
        let descriptions = self.descriptions(alloc, way.describing)?;
        let codes = self.verified(alloc, codes)?;
        let world = World::start(alloc, &self.story)?;
        let mut stage = Stage::new(alloc, world, &self.strings, descriptions)?;
        let mut text = Vec::new(alloc);
        let ended = run(
            alloc,
            &mut stage,
            codes.as_slice(),
            number,
            &mut text,
            way.asked,
            way.times,
        )?;
        Ok(Done { ended, text, stage })
    }

    /// What the run of a line comes to.
    pub fn told(&self, alloc: Global, line: &str) -> Result<String, AllocError> {
        let (told, asked) = match line.split_once('\t') {
            Some(parts) => parts,
            None => (line, ""),
        };
        let done = match run_in(alloc, told) {
            Ok(told) => self.done(alloc, told),
            Err(unplayed) => Err(unplayed),
        };
        match done {
            Ok(done) => done_told(alloc, &done, asked),
            Err(unplayed) => format!(in alloc; "{unplayed}"),
        }
    }
}
