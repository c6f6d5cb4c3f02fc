//! Readers and writers that are watched: each call is handed on, and what failed once stays told.
use crate::player::fakes::Fitful;
use std::io::{Read, Write};
use std::test::Fail;
use story_player::Watched;

#[test]
fn a_reader_is_asked_again_after_a_failure(rt: HostRuntime) -> Result<(), Fail> {
    let mut reader = Watched::new(Fitful {
        calls: 0,
        fails_at: 2,
    });
    let mut byte = [0u8; 1];
    assert_eq!(rt; reader.read(&mut byte)?, 1);
    assert!(rt; !reader.has_failed());
    assert!(rt; reader.read(&mut byte).is_err());
    assert!(rt; reader.has_failed());
    assert_eq!(rt; reader.read(&mut byte)?, 1);
    assert!(rt; reader.has_failed());
    let mut bytes = [0u8; 3];
    reader.read_exact(&mut bytes)?;
    assert_eq!(rt; reader.into_inner().calls, 6);
    Ok(())
}

#[test]
fn a_writer_is_asked_again_after_a_failure(rt: HostRuntime) -> Result<(), Fail> {
    let mut writer = Watched::new(Fitful {
        calls: 0,
        fails_at: 2,
    });
    assert_eq!(rt; writer.write(b"Hall")?, 1);
    assert!(rt; !writer.has_failed());
    assert!(rt; writer.write(b"Hall").is_err());
    assert!(rt; writer.has_failed());
    assert_eq!(rt; writer.write(b"Hall")?, 1);
    writer.write_all(b"Hall")?;
    assert!(rt; writer.has_failed());
    assert_eq!(rt; writer.into_inner().calls, 7);
    Ok(())
}

#[test]
fn a_flush_is_handed_on(rt: HostRuntime) -> Result<(), Fail> {
    let mut writer = Watched::new(Fitful {
        calls: 0,
        fails_at: 2,
    });
    writer.flush()?;
    assert!(rt; !writer.has_failed());
    assert!(rt; writer.flush().is_err());
    assert!(rt; writer.has_failed());
    writer.flush()?;
    assert_eq!(rt; writer.into_inner().calls, 3);
    Ok(())
}

#[test]
fn whole_calls_tell_their_failures(rt: HostRuntime) -> Result<(), Fail> {
    let mut reader = Watched::new(Fitful {
        calls: 0,
        fails_at: 2,
    });
    let mut bytes = [0u8; 3];
    assert!(rt; reader.read_exact(&mut bytes).is_err());
    assert!(rt; reader.has_failed());
    let mut writer = Watched::new(Fitful {
        calls: 0,
        fails_at: 2,
    });
    assert!(rt; writer.write_all(b"Hall").is_err());
    assert!(rt; writer.has_failed());
    Ok(())
}
