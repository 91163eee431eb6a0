//! Records that are played again: each reason why one is not played, tenants that left, names that the table
//! lacks, and a run of random lines.

use crate::checks::{holds_at, same, same_at};
use arrayvec::ArrayVec;
use judy_journal::Unplayed;
use judy_model::{KEY_LIMIT, Reply, ReplyRoom};
use judy_programs::{Opens, Replays};
use judy_protocol::{Line, read_line, write_reply};
use judy_server::{Halt, Server, Tally, replay, replay_all};
use judy_tenants::{Right, Service, Sha256Hash, Speaker, Table, is_callable};
use std::alloc::Global;
use std::process::Abort;
use std::test::Fail;

/// ann may have 12 entries, bob and cid 1,000.
const TABLE: &str = r#"
[ann]
sha256 = "ba7816bf8f01cfea414140de5dae2223b00361a396177a9cb410ff61f20015ad"
quota = 12
[bob]
sha256 = "2cf24dba5fb0a30e26e83b2ac5b9e29e1b161e5c1fa7425e73043362938b9824"
quota = 1000
[cid]
sha256 = "2cf24dba5fb0a30e26e83b2ac5b9e29e1b161e5c1fa7425e73043362938b9824"
quota = 1000
"#;

/// The same tenants at other places, with other quotas.
const LATER: &str = r#"
[abe]
sha256 = "ba7816bf8f01cfea414140de5dae2223b00361a396177a9cb410ff61f20015ad"
quota = 5
[ann]
sha256 = "ba7816bf8f01cfea414140de5dae2223b00361a396177a9cb410ff61f20015ad"
quota = 13
[bea]
sha256 = "ba7816bf8f01cfea414140de5dae2223b00361a396177a9cb410ff61f20015ad"
quota = 5
[bob]
sha256 = "2cf24dba5fb0a30e26e83b2ac5b9e29e1b161e5c1fa7425e73043362938b9824"
quota = 900
[cid]
sha256 = "2cf24dba5fb0a30e26e83b2ac5b9e29e1b161e5c1fa7425e73043362938b9824"
quota = 900
"#;

static TENANTS: [&str; 3] = ["ann", "bob", "cid"];

/// Commands that change arrays, each with the fields before a number from 0 to 9, and what follows it.
static CHANGES: [(&str, &str); 23] = [
    ("J1SE a ", ""),
    ("J1UF a ", " 15"),
    ("J1UR a ", " 12 2"),
    ("JLIE l 99999", " 4"),
    ("JLDF l 99999", " -1"),
    ("JLDR l 99999", " 999995 2"),
    ("JSLDF s x6", ""),
    ("J1S a ", ""),
    ("J1S b 25", ""),
    ("J1S a 1", ""),
    ("J1U a ", ""),
    ("JLI a ", " 7"),
    ("JLI l 99999", " 18446744073709551615"),
    ("JLA l 99999", " 3"),
    ("JLD l 99999", ""),
    ("JSLI s x6", " 5"),
    ("JSLA s x6162636465666768696", " 2"),
    ("JSLD s x6", ""),
    ("JHSI h x0", " 5"),
    ("JHSI h x0", ""),
    ("JHSA h x616263646566676800", "1 9"),
    ("JHSD h x0", ""),
    ("J1T a ", ""),
];

/// Lines that read all that those commands can change, each before a number from 0 to 9.
static LOOKS: [&str; 13] = [
    "J1N a 1",
    "JLN l 99999",
    "J1T a ",
    "J1T a 1",
    "J1T b 25",
    "JLG a ",
    "JLG l 99999",
    "J1BC a ",
    "JLBC l ",
    "JSLN s x6",
    "JSLG s x6162636465666768696",
    "JHSG h x0",
    "JHSG h x6162636465666768001",
];

/// Records that are not played by a service of `LATER` where abe has all that it may have, and why.
static REFUSED: [(&str, Unplayed); 19] = [
    ("abe J1S a 5", Unplayed::Full),
    ("abe JLI l 1 1", Unplayed::Full),
    ("GONE", Unplayed::Record),
    (" GONE", Unplayed::Record),
    ("abe gone", Unplayed::Record),
    ("a*e GONE", Unplayed::Record),
    ("abe GONE bob c*d", Unplayed::Record),
    ("abe GONEbob", Unplayed::Record),
    ("", Unplayed::Record),
    (" J1S a 5", Unplayed::Record),
    ("abe", Unplayed::Record),
    ("abe ", Unplayed::Record),
    ("abe J1S a", Unplayed::Record),
    ("abe J1T a 5", Unplayed::Record),
    ("abe USED", Unplayed::Record),
    ("abe QUIT", Unplayed::Record),
    ("abe AUTH abe abc", Unplayed::Record),
    ("eve J1T a 5", Unplayed::Record),
    ("a*e J1S a 5", Unplayed::Record),
];

/// A generator of random numbers.
#[derive(Clone, Copy)]
struct Dice {
    seed: u64,
}

impl Dice {
    /// A number below this one.
    fn roll(&mut self, sides: u64) -> u64 {
        self.seed = self
            .seed
            .wrapping_mul(6_364_136_223_846_793_005)
            .wrapping_add(1_442_695_040_888_963_407);
        (self.seed >> 33) % sides
    }
}

/// A service of the tenants of this table.
fn open(alloc: Global, table: &str) -> Result<Service<Sha256Hash>, Fail> {
    let table = Table::parse(alloc, table.as_bytes())?;
    Ok(Service::new(alloc, table, b"secret", Sha256Hash)?)
}

/// Plays one record. Names that the table lacks are noted in the tally.
fn play_noting(
    alloc: Global,
    service: &mut Service<Sha256Hash>,
    tally: &mut Tally,
    record: &str,
) -> Result<(), Unplayed> {
    let mut key = [0u8; KEY_LIMIT];
    let mut found = ReplyRoom::new();
    replay(
        alloc,
        service,
        tally,
        record.as_bytes(),
        &mut key,
        &mut found,
    )
}

/// Plays one record.
fn play(alloc: Global, service: &mut Service<Sha256Hash>, record: &str) -> Result<(), Unplayed> {
    play_noting(alloc, service, &mut Tally::new(), record)
}

/// Plays the records of a text.
fn play_all(alloc: Global, service: &mut Service<Sha256Hash>, text: &str) -> Result<(), Halt> {
    let mut key = [0u8; KEY_LIMIT];
    let mut found = ReplyRoom::new();
    let mut tally = Tally::new();
    replay_all(
        alloc,
        service,
        &mut tally,
        text.as_bytes(),
        &mut key,
        &mut found,
    )
}

/// Writes the reply to the call of a line that a tenant asks for. Returns whether the call is recorded: it is
/// not refused, and its reply does not say that all was so before.
fn ask(
    alloc: Global,
    service: &mut Service<Sha256Hash>,
    name: &str,
    line: &str,
    text: &mut ArrayVec<u8, 4096>,
) -> Result<bool, Fail> {
    let mut key = [0u8; KEY_LIMIT];
    let mut found = ReplyRoom::new();
    let Ok(Line::Call(call)) = read_line(line.as_bytes(), &mut key) else {
        return Err("a call")?;
    };
    let tenant = service.find(name.as_bytes()).ok_or("a tenant")?;
    if !service.has(tenant) || !is_callable(&call) {
        return Err("a call of a tenant")?;
    }
    let speaker = Speaker {
        tenant,
        right: Right::Change,
        digest: [0; 32],
    };
    let reply = service.call(alloc, speaker, &call, &mut found);
    write_reply(&reply, text);
    let refused = matches!(
        reply,
        Reply::Full | Reply::ReadOnly | Reply::Frozen | Reply::Memory
    );
    Ok(call.changes() && !refused && !call.leaves(&reply))
}

/// Checks that a tenant gets the same reply to a line from both services.
fn compare(
    rt: &impl Abort,
    alloc: Global,
    first: &mut Service<Sha256Hash>,
    second: &mut Service<Sha256Hash>,
    name: &str,
    line: &str,
) -> Result<(), Fail> {
    let mut one = ArrayVec::new();
    let mut other = ArrayVec::new();
    ask(alloc, first, name, line, &mut one)?;
    ask(alloc, second, name, line, &mut other)?;
    same_at(rt, one.as_slice(), other.as_slice(), (name, line));
    Ok(())
}

/// Checks that a tenant gets the same replies from both services to a line that ends in each digit.
fn compare_looks(
    rt: &impl Abort,
    alloc: Global,
    first: &mut Service<Sha256Hash>,
    second: &mut Service<Sha256Hash>,
    name: &str,
    look: &str,
) -> Result<(), Fail> {
    for number in 0..10u64 {
        let line = format!(in alloc; "{look}{number}")?;
        compare(rt, alloc, first, second, name, line.as_str())?;
    }
    Ok(())
}

/// Checks that each tenant has the same in both services.
fn compare_all(
    rt: &impl Abort,
    alloc: Global,
    first: &mut Service<Sha256Hash>,
    second: &mut Service<Sha256Hash>,
) -> Result<(), Fail> {
    for name in &TENANTS {
        for look in &LOOKS {
            compare_looks(rt, alloc, first, second, name, look)?;
        }
    }
    same_at(rt, first.live_words(), second.live_words(), "words");
    Ok(())
}

/// A random line that mostly changes an array.
fn draw(alloc: Global, dice: &mut Dice) -> Result<String, Fail> {
    if dice.roll(60) == 0 {
        return Ok(format!(in alloc; "JLFA l")?);
    }
    let (front, back) = CHANGES[dice.roll(23) as usize];
    let number = dice.roll(10);
    Ok(format!(in alloc; "{front}{number}{back}")?)
}

/// Adds a random line of a random tenant to the records, if it is recorded. Returns whether it is.
fn record(
    alloc: Global,
    service: &mut Service<Sha256Hash>,
    dice: &mut Dice,
    records: &mut String,
) -> Result<bool, Fail> {
    let name = TENANTS[dice.roll(3) as usize];
    let line = draw(alloc, dice)?;
    let mut text = ArrayVec::new();
    let kept = ask(alloc, service, name, line.as_str(), &mut text)?;
    if kept {
        let record = format!(in alloc; "{name} {line}\n")?;
        records.push_str(record.as_str())?;
    }
    Ok(kept)
}

/// Lets a random tenant leave, with its record. A tenant of its name comes at once.
fn leave(
    alloc: Global,
    service: &mut Service<Sha256Hash>,
    dice: &mut Dice,
    records: &mut String,
) -> Result<(), Fail> {
    let place = dice.roll(3) as usize;
    let name = TENANTS[place];
    let mut marks = [false; 3];
    marks[place] = true;
    service.free(alloc, marks.as_slice());
    let record = format!(in alloc; "{name} GONE\n")?;
    records.push_str(record.as_str())?;
    Ok(())
}

/// A run of random lines of three tenants, some of whom leave, is recorded, and its records are played on
/// another service, where the tenants have other places and other quotas.
#[test]
fn random_lines(rt: HostRuntime) -> Result<(), Fail> {
    let alloc = rt.alloc();
    let mut service = open(alloc, TABLE)?;
    let mut records = String::new(alloc);
    let mut dice = Dice { seed: 5 };
    let mut kept: u64 = 0;
    for line in 0..300u64 {
        if line % 70 == 69 {
            leave(alloc, &mut service, &mut dice, &mut records)?;
        }
        if record(alloc, &mut service, &mut dice, &mut records)? {
            kept = kept.saturating_add(1);
        }
    }
    holds_at(&rt, kept > 100, ("few lines are recorded", kept));
    holds_at(&rt, kept < 290, ("no line is refused", kept));
    let mut restored = open(alloc, LATER)?;
    same(
        &rt,
        play_all(alloc, &mut restored, records.as_str()),
        Ok(()),
    );
    compare_all(&rt, alloc, &mut service, &mut restored)
}

/// Records that are not played, and why. They change nothing.
#[test]
fn reasons(rt: HostRuntime) -> Result<(), Fail> {
    let alloc = rt.alloc();
    let mut service = open(alloc, LATER)?;
    for number in 0..5u64 {
        let record = format!(in alloc; "abe J1S a {number}")?;
        same(&rt, play(alloc, &mut service, record.as_str()), Ok(()));
    }
    for (record, why) in &REFUSED {
        same_at(&rt, play(alloc, &mut service, record), Err(*why), record);
    }
    let mut text = ArrayVec::new();
    ask(alloc, &mut service, "abe", "USED", &mut text)?;
    same(&rt, text.as_slice(), b"Q 5 5 5 630\n".as_slice());
    Ok(())
}

/// Six entries of abe, of which two are removed: never more than one above its quota of 5.
const SIX: &str = "abe J1S a 0
abe J1S a 1
abe J1S a 2
abe J1S a 3
abe J1S a 4
abe J1S a 5
abe J1U a 0
abe J1U a 1
";

/// Records are played without quotas. Then the table is put in force, and what abe holds counts, not
/// what it held once.
#[test]
fn lower_quotas(rt: HostRuntime) -> Result<(), Fail> {
    let alloc = rt.alloc();
    let mut service = open(alloc, LATER)?;
    let table = service.lift_quotas(alloc)?;
    same(&rt, play_all(alloc, &mut service, SIX), Ok(()));
    same(&rt, service.change(alloc, table), Ok(()));
    let mut text = ArrayVec::new();
    for (line, wanted) in &[
        ("USED", "Q 4 5 4 630\n"),
        ("J1S a 6", "1\n"),
        ("J1S a 7", "FULL\n"),
        ("J1C a 0 -1", "N 5\n"),
    ] {
        ask(alloc, &mut service, "abe", line, &mut text)?;
        same_at(&rt, text.as_slice(), wanted.as_bytes(), line);
    }
    Ok(())
}

/// If abe holds more than its quota, the table is not put in force.
#[test]
fn a_quota_below_what_is_held(rt: HostRuntime) -> Result<(), Fail> {
    let alloc = rt.alloc();
    let mut service = open(alloc, LATER)?;
    let table = service.lift_quotas(alloc)?;
    for number in 0..6u64 {
        let record = format!(in alloc; "abe J1S a {number}")?;
        same(&rt, play(alloc, &mut service, record.as_str()), Ok(()));
    }
    let abe = service.find(b"abe").ok_or("abe")?;
    same(&rt, service.change(alloc, table), Err(abe));
    let mut text = ArrayVec::new();
    ask(alloc, &mut service, "abe", "J1C a 0 -1", &mut text)?;
    same(&rt, text.as_slice(), b"N 6\n".as_slice());
    Ok(())
}

/// What a server tells that begins with these records.
fn begin(alloc: Global, records: &str) -> Result<String, Fail> {
    let Ok(mut server) = Server::<Sha256Hash>::open(alloc, b"secret", LATER.as_bytes()) else {
        return Err("a server")?;
    };
    let table = server.lift(alloc).ok_or("a table")?;
    if Replays::replay(&mut server, alloc, records.as_bytes()).is_err() {
        return Err("records that are played")?;
    }
    Ok(match server.limit(alloc, table) {
        Ok(()) => format!(in alloc; "well")?,
        Err(fault) => format!(in alloc; "DIR{fault}")?,
    })
}

/// A server that begins with records names the tenant that holds more than its quota.
#[test]
fn a_start_names_the_tenant(rt: HostRuntime) -> Result<(), Fail> {
    let alloc = rt.alloc();
    same(&rt, begin(alloc, SIX)?.as_str(), "well");
    let more = format!(in alloc; "{SIX}abe J1S a 6\nabe J1S a 7\nbea J1S a 1\n")?;
    same(
        &rt,
        begin(alloc, more.as_str())?.as_str(),
        "DIR: the quota of abe is less than what it holds",
    );
    Ok(())
}

/// What a server tells that begins with records of tenants that its table lacks.
static STARTS: [(&str, &str); 8] = [
    ("abe J1S a 1\n", "well"),
    (
        "eve J1S a 1\n",
        "DIR: the journal has entries of eve, and the table has no such tenant",
    ),
    ("eve J1S a 1\neve GONE\n", "well"),
    ("eve GONE\n", "well"),
    ("eve J1S a 1\nabe GONE bob eve\n", "well"),
    (
        "eve J1S a 1\neve GONE\neve J1S a 2\n",
        "DIR: the journal has entries of eve, and the table has no such tenant",
    ),
    (
        "fay J1S a 1\neve J1S a 1\nfay J1U a 1\n",
        "DIR: the journal has entries of fay, and the table has no such tenant",
    ),
    (
        "fay J1S a 1\neve J1S a 1\nbob GONE fay\n",
        "DIR: the journal has entries of eve, and the table has no such tenant",
    ),
];

/// A server begins only if its table has each tenant that has records and did not leave.
#[test]
fn a_start_names_who_is_absent(rt: HostRuntime) -> Result<(), Fail> {
    let alloc = rt.alloc();
    for (records, told) in &STARTS {
        same_at(&rt, begin(alloc, records)?.as_str(), *told, records);
    }
    Ok(())
}

/// Records of names that the table lacks are passed over, for 64 names at once. One that left makes room.
#[test]
fn names_that_are_absent(rt: HostRuntime) -> Result<(), Fail> {
    let alloc = rt.alloc();
    let mut service = open(alloc, LATER)?;
    let mut tally = Tally::new();
    for round in 0..2u64 {
        for number in 0..64u64 {
            let record = format!(in alloc; "n{number} J1S a {round}")?;
            let played = play_noting(alloc, &mut service, &mut tally, record.as_str());
            same_at(&rt, played, Ok(()), record.as_str());
        }
    }
    for (record, played) in &[
        ("one J1S a 1", Err(Unplayed::Tenant)),
        ("abe J1S a 1", Ok(())),
        ("two GONE", Ok(())),
        ("one J1S a 1", Err(Unplayed::Tenant)),
        ("n63 J1S a 1", Ok(())),
        ("bob GONE n5 n17", Ok(())),
        ("one J1S a 1", Ok(())),
        ("n5 J1S a 1", Ok(())),
        ("n17 J1S a 1", Err(Unplayed::Tenant)),
    ] {
        let now = play_noting(alloc, &mut service, &mut tally, record);
        same_at(&rt, now, *played, record);
    }
    let mut text = ArrayVec::new();
    ask(alloc, &mut service, "abe", "USED", &mut text)?;
    same(&rt, text.as_slice(), b"Q 1 5 1 630\n".as_slice());
    Ok(())
}

/// Who left has no arrays, and a tenant of its name begins anew. The others keep theirs.
#[test]
fn tenants_that_left(rt: HostRuntime) -> Result<(), Fail> {
    let alloc = rt.alloc();
    let mut service = open(alloc, LATER)?;
    let text = "abe J1S a 1
ann J1S a 1
bob J1S a 1
bob JSLI s x6162 7
cid J1S a 1
bob GONE eve abe
bob J1S a 2
";
    same(&rt, play_all(alloc, &mut service, text), Ok(()));
    for (name, held) in &[
        ("abe", "Q 0 5 0 630\n"),
        ("ann", "Q 1 13 1 1638\n"),
        ("bea", "Q 0 5 0 630\n"),
        ("bob", "Q 1 900 1 113400\n"),
        ("cid", "Q 1 900 1 113400\n"),
    ] {
        let mut answer = ArrayVec::new();
        ask(alloc, &mut service, name, "USED", &mut answer)?;
        same_at(&rt, answer.as_slice(), held.as_bytes(), name);
    }
    for (line, wanted) in &[
        ("J1T a 1", "0\n"),
        ("J1T a 2", "1\n"),
        ("JSLG s x6162", "NULL\n"),
    ] {
        let mut answer = ArrayVec::new();
        ask(alloc, &mut service, "bob", line, &mut answer)?;
        same_at(&rt, answer.as_slice(), wanted.as_bytes(), line);
    }
    same(
        &rt,
        play_all(alloc, &mut service, "ann GONE bob cid\n"),
        Ok(()),
    );
    same(&rt, service.live_words(), 0);
    Ok(())
}

/// The first record of a text that is not played, after how many that are.
#[test]
fn halts(rt: HostRuntime) -> Result<(), Fail> {
    let alloc = rt.alloc();
    let mut service = open(alloc, LATER)?;
    let text = "bob J1S a 1\nbob J1S a 2\neve J1T a 3\nbob J1S a 4\n";
    let why = Unplayed::Record;
    same(
        &rt,
        play_all(alloc, &mut service, text),
        Err(Halt { played: 2, why }),
    );
    let mut answer = ArrayVec::new();
    ask(alloc, &mut service, "bob", "J1C a 0 -1", &mut answer)?;
    same(&rt, answer.as_slice(), b"N 2\n".as_slice());
    same(&rt, play_all(alloc, &mut service, ""), Ok(()));
    same(&rt, play_all(alloc, &mut service, "bob J1S a 9"), Ok(()));
    answer.clear();
    ask(alloc, &mut service, "bob", "J1C a 0 -1", &mut answer)?;
    same(&rt, answer.as_slice(), b"N 2\n".as_slice());
    Ok(())
}
