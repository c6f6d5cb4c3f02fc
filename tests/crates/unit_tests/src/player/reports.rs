//! The program's lines and statuses for what goes wrong.
use source_player::{ProgramFault, report};
use standard_rules::HostFault;
use std::str;
use std::test::Fail;
use story_file::LoadFault;
use story_player::{RunFault, StartFault};
use world_meaning::{Abandon, Fault, FaultCode};

/// A refusal at this line.
fn refusal(code: FaultCode, line: u32) -> Fault {
    Fault { code, line }
}

#[test]
fn faults_have_a_line_and_a_status(rt: HostRuntime) -> Result<(), Fail> {
    let alloc = rt.alloc();
    let words = String::from_str(alloc, "usage: i7story\n")?;
    let no_room = refusal(FaultCode::NoRoom, 13);
    let memory = refusal(FaultCode::Memory, 13);
    let reports = [
        (ProgramFault::Words(words), 5u8, "usage: i7story\n"),
        (
            ProgramFault::CannotRead("x.i7"),
            3,
            "x.i7: cannot be read\n",
        ),
        (ProgramFault::CannotWrite("x"), 3, "x: cannot be written\n"),
        (
            ProgramFault::Source("x.i7", no_room),
            1,
            "x.i7:13: C13 NoRoom\n",
        ),
        (
            ProgramFault::Source("x.i7", memory),
            4,
            "i7story: out of memory\n",
        ),
        (
            ProgramFault::Story("x", LoadFault::Truncated),
            2,
            "x: L3 Truncated\n",
        ),
        (
            ProgramFault::Story("x", LoadFault::Memory),
            4,
            "i7story: out of memory\n",
        ),
        (
            ProgramFault::Stream(RunFault::Read),
            3,
            "i7story: V1 Read\n",
        ),
        (ProgramFault::Stream(RunFault::Write), 3, ""),
        (
            ProgramFault::Stream(RunFault::InputTooLong),
            3,
            "i7story: V3 InputTooLong\n",
        ),
        (ProgramFault::Memory, 4, "i7story: out of memory\n"),
    ];
    for (fault, status, line) in &reports {
        let mut written = Vec::new(alloc);
        let report = report(fault, &mut written);
        assert_eq!(rt; report.status, *status, "{line}");
        assert!(rt; report.told.is_ok(), "{line}");
        assert_eq!(rt; str::from_utf8(written.as_slice())?, *line);
    }
    Ok(())
}

/// Each code of a source's refusal, as it is told.
const CODES: &[(FaultCode, &str)] = &[
    (FaultCode::TooLong, "C1 TooLong"),
    (FaultCode::NotText, "C2 NotText"),
    (FaultCode::Unclosed, "C3 Unclosed"),
    (FaultCode::BadIndent, "C4 BadIndent"),
    (FaultCode::NotUnderstood, "C5 NotUnderstood"),
    (FaultCode::ReservedWord, "C6 ReservedWord"),
    (FaultCode::UnknownName, "C7 UnknownName"),
    (FaultCode::WrongKind, "C8 WrongKind"),
    (FaultCode::Twice, "C9 Twice"),
    (FaultCode::TwoPlaces, "C10 TwoPlaces"),
    (FaultCode::Cycle, "C11 Cycle"),
    (FaultCode::TooMany, "C12 TooMany"),
    (FaultCode::NoRoom, "C13 NoRoom"),
    (FaultCode::NumberOutOfRange, "C15 NumberOutOfRange"),
    (FaultCode::NoValues, "C16 NoValues"),
];

/// Each fault of a story file, as it is told.
const STORY_FAULTS: &[(LoadFault, &str)] = &[
    (LoadFault::BadMagic, "L1 BadMagic"),
    (LoadFault::BadVersion, "L2 BadVersion"),
    (LoadFault::Truncated, "L3 Truncated"),
    (LoadFault::TooLong, "L4 TooLong"),
    (LoadFault::BadTable, "L5 BadTable"),
    (LoadFault::BadCode, "L6 BadCode"),
    (LoadFault::BadOrder, "L7 BadOrder"),
];

#[test]
fn each_code_is_told_by_its_number_and_its_name(rt: HostRuntime) -> Result<(), Fail> {
    let alloc = rt.alloc();
    for (code, name) in CODES {
        let mut written = Vec::new(alloc);
        let fault = ProgramFault::Source("x.i7", refusal(*code, 7));
        assert_eq!(rt; report(&fault, &mut written).status, 1);
        let line = format!(in alloc; "x.i7:7: {name}\n")?;
        assert_eq!(rt; written.as_slice(), line.as_bytes());
    }
    for (fault, name) in STORY_FAULTS {
        let mut written = Vec::new(alloc);
        assert_eq!(rt;
            report(&ProgramFault::Story("x", *fault), &mut written).status,
            2
        );
        let line = format!(in alloc; "x: {name}\n")?;
        assert_eq!(rt; written.as_slice(), line.as_bytes());
    }
    Ok(())
}

#[test]
fn what_no_line_of_the_program_tells_has_its_name(rt: HostRuntime) -> Result<(), Fail> {
    let alloc = rt.alloc();
    let memory = refusal(FaultCode::Memory, 7);
    let named = [
        (format!(in alloc; "{memory}")?, "7: C14 Memory"),
        (format!(in alloc; "{}", LoadFault::Memory)?, "L8 Memory"),
        (
            format!(in alloc; "{}", Abandon::NestedTooDeep)?,
            "N1 NestedTooDeep",
        ),
        (format!(in alloc; "{}", Abandon::Memory)?, "N2 Memory"),
        (
            format!(in alloc; "{}", Abandon::TooMuchWork)?,
            "N3 TooMuchWork",
        ),
        (
            format!(in alloc; "{}", Abandon::NumberOutOfRange)?,
            "N4 NumberOutOfRange",
        ),
        (
            format!(in alloc; "{}", HostFault::OutOfOrder)?,
            "H1 OutOfOrder",
        ),
        (format!(in alloc; "{}", HostFault::Full)?, "H2 Full"),
        (format!(in alloc; "{}", HostFault::Memory)?, "H3 Memory"),
        (
            format!(in alloc; "{}", StartFault::IncompleteHosts)?,
            "S1 IncompleteHosts",
        ),
        (format!(in alloc; "{}", StartFault::Memory)?, "S2 Memory"),
        (format!(in alloc; "{}", RunFault::Write)?, "V2 Write"),
    ];
    for (told, name) in &named {
        assert_eq!(rt; told.as_str(), *name);
    }
    Ok(())
}
