//! What an operator reads of a fault.
use crate::checks::same;
use judy_disk::Place;
use judy_journal::Damage;
use judy_model::Name;
use judy_recovery::{Flaw, JournalFault, Reason};
use std::test::Fail;

#[test]
fn faults_tell_file_and_byte(rt: HostRuntime) -> Result<(), Fail> {
    let fault = JournalFault::File {
        place: Place::Segment(2),
        byte: 4711,
        flaw: Flaw::Unplayed(Reason::Tenant),
    };
    let text = format!(in rt.alloc(); "judyd: DIR{fault}")?;
    same(
        &rt,
        text.as_str(),
        "judyd: DIR/000000000002.journal: byte 4711: the table lacks the tenant of this record and 64 more",
    );
    let fault = JournalFault::File {
        place: Place::Snapshot(12),
        byte: 0,
        flaw: Flaw::Damage(Damage::Header),
    };
    let text = format!(in rt.alloc(); "judyd: DIR{fault}")?;
    same(
        &rt,
        text.as_str(),
        "judyd: DIR/000000000012.snapshot: byte 0: damaged: another first line than it should have",
    );
    let fault = JournalFault::Quota(Name::of(b"alice"));
    let text = format!(in rt.alloc(); "judyd: DIR{fault}")?;
    same(
        &rt,
        text.as_str(),
        "judyd: DIR: the quota of alice is less than what it holds",
    );
    let fault = JournalFault::Absent(Name::of(b"alice"));
    let text = format!(in rt.alloc(); "judyd: DIR{fault}")?;
    same(
        &rt,
        text.as_str(),
        "judyd: DIR: the journal has entries of alice, and the table has no such tenant",
    );
    Ok(())
}
