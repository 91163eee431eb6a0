//! Command lines, each with its job or its refusal.
use crate::checks::same_at;
use judy_command::{Job, Refusal, Sync, Word, parse_words};
use std::alloc::{AllocError, Global};
use std::process::Abort;
use std::test::Fail;

// The job or the refusal of a command line.
fn parsed(alloc: Global, line: &str) -> Result<Result<Job, Refusal>, AllocError> {
    let mut words = Vec::new(alloc);
    for word in line.split_ascii_whitespace() {
        words.push(String::from_str(alloc, word)?)?;
    }
    Ok(parse_words(alloc, words.as_slice()))
}

// A word that may be absent, and what comes before it.
fn optional(alloc: Global, before: &str, word: Option<Word>) -> Result<String, AllocError> {
    match word {
        Some(word) => format!(in alloc; "{before}{}", word.0),
        None => Ok(String::new(alloc)),
    }
}

// The paths of the sockets of a server, as a text.
fn sockets_text(
    alloc: Global,
    socket: Word,
    status: Option<Word>,
    control: Option<Word>,
) -> Result<String, AllocError> {
    let status = optional(alloc, "", status)?;
    let control = optional(alloc, "/", control)?;
    format!(in alloc; "{}{status}{control}", socket.0)
}

// How many clients a server has at once, how many of one tenant, and how many of one are heard in a round, if
// that is not 8, as a text.
fn clients_text(
    alloc: Global,
    clients: u32,
    tenant_clients: Option<u32>,
    share: u32,
) -> Result<String, AllocError> {
    match (tenant_clients, share) {
        (Some(most), 8) => format!(in alloc; "{clients}/{most}"),
        (Some(most), share) => format!(in alloc; "{clients}/{most}:{share}"),
        (None, 8) => format!(in alloc; "{clients}"),
        (None, share) => format!(in alloc; "{clients}:{share}"),
    }
}

// The limits of a server, as a text.
fn limits_text(
    alloc: Global,
    connections: u32,
    login: u32,
    idle: Option<u32>,
    turn: Option<u32>,
    reserve: Option<u32>,
) -> Result<String, AllocError> {
    let (idle, turn, reserve) = (idle.unwrap_or(0), turn.unwrap_or(0), reserve.unwrap_or(0));
    format!(in alloc; "{connections} {login} {idle} {turn} {reserve}")
}

// The journal of a server, when it is secured, the size of a segment and whether it is new, as a text.
fn journal_text(
    alloc: Global,
    journal: Option<Word>,
    sync: Sync,
    segment: u32,
    new: bool,
) -> Result<String, AllocError> {
    let new = if new { " new" } else { "" };
    match journal {
        Some(journal) => format!(in alloc; " {} {sync:?} {segment}{new}", journal.0),
        None => Ok(String::new(alloc)),
    }
}

// A job, as a text.
fn job_text(alloc: Global, job: Job) -> Result<String, AllocError> {
    match job {
        Job::Run { words, batch } => format!(in alloc; "run {words} {batch}"),
        Job::Serve {
            config,
            socket,
            status,
            control,
            clients,
            tenant_clients,
            share,
            connections,
            login,
            idle,
            turn,
            reserve,
            journal,
            sync,
            segment,
            new_journal,
            check,
        } => {
            let sockets = sockets_text(alloc, socket, status, control)?;
            let clients = clients_text(alloc, clients, tenant_clients, share)?;
            let limits = limits_text(alloc, connections, login, idle, turn, reserve)?;
            let journal = journal_text(alloc, journal, sync, segment, new_journal)?;
            format!(in alloc;
                "serve {} {sockets} {clients} {limits} {check}{journal}",
                config.0
            )
        }
        Job::Compact { directory } => format!(in alloc; "compact {}", directory.0),
        Job::Repair {
            directory,
            sure,
            drop_later,
        } => {
            let sure = if sure { " sure" } else { "" };
            let later = if drop_later { " later" } else { "" };
            format!(in alloc; "repair {}{sure}{later}", directory.0)
        }
        Job::Journal {
            directory,
            tenant,
            new,
            check,
        } => {
            let tenant = optional(alloc, " ", tenant)?;
            let new = if new { " new" } else { "" };
            let check = if check { " check" } else { "" };
            format!(in alloc; "journal {}{tenant}{new}{check}", directory.0)
        }
    }
}

// The job or the refusal of a command line, as a text.
fn answer(alloc: Global, line: &str) -> Result<String, AllocError> {
    match parsed(alloc, line)? {
        Ok(job) => job_text(alloc, job),
        Err(Refusal::Help(_)) => String::from_str(alloc, "help"),
        Err(Refusal::Usage(_)) => String::from_str(alloc, "usage"),
        Err(Refusal::Memory) => String::from_str(alloc, "memory"),
    }
}

// Checks the answer of each row: a command line and its answer, with ` -> ` between them.
fn compare(rt: &impl Abort, alloc: Global, text: &str) -> Result<(), Fail> {
    for row in text.lines() {
        let (line, want) = row
            .split_once(" -> ")
            .ok_or("a command line and its answer")?;
        same_at(rt, answer(alloc, line)?.as_str(), want, line);
    }
    Ok(())
}

const COMMAND_LINES: &str = " -> usage
run -> run false false
run --words -> run true false
run --batch -> run false true
run --batch --words -> run true true
run --words --words -> usage
run --batch --batch -> usage
run --words=true -> usage
run -w -> usage
run x -> usage
--words run -> usage
walk -> usage
--help -> help
-h -> help
help -> help
help run -> help
help walk -> usage
run --help -> help
serve --help -> help
serve --config c --help -> help
--version -> help
-V -> help
run --version -> usage
serve --check -> usage
run --check -> usage
serve --batch -> usage
run --idle 1 -> usage
run --clients 1 -> usage";

#[test]
fn command_lines(rt: HostRuntime) -> Result<(), Fail> {
    compare(&rt, rt.alloc(), COMMAND_LINES)
}

const WORDS_OF_SERVE: &str = "serve --socket s -> usage
serve --config c -> usage
serve --config c --socket s --connections 0 -> usage
serve --config c --socket s -> serve c s 64 4294967295 10 0 0 0 false
serve --config c --socket s --status t -> serve c st 64 4294967295 10 0 0 0 false
serve --config c --socket s --control k --status t -> serve c st/k 64 4294967295 10 0 0 0 false
serve --config c --socket s --control -> usage
serve --config c --socket s --status -> usage
serve --config c --socket s --status t --status u -> usage
serve --socket s --config c -> serve c s 64 4294967295 10 0 0 0 false
serve --config=c --socket=s --connections=1 -> serve c s 64 1 10 0 0 0 false
serve --config c --socket s --connections 4294967295 -> serve c s 64 4294967295 10 0 0 0 false
serve --config c --socket s --connections 4294967296 -> usage
serve --config c --socket s --connections -1 -> usage
serve --config c --socket s --connections=-1 -> usage
serve --config c --socket s --connections +7 -> serve c s 64 7 10 0 0 0 false
serve --config c --socket s --connections 007 -> serve c s 64 7 10 0 0 0 false
serve --config c --socket s --connections x -> usage
serve --config c --socket s --connections -> usage
serve --config c --config d --socket s -> usage
serve --config= --socket s -> serve  s 64 4294967295 10 0 0 0 false
serve --config --socket s -> usage
serve --config -c --socket s -> usage
serve --config - --socket s -> serve - s 64 4294967295 10 0 0 0 false
serve --con c --socket s -> usage
serve --config c --socket s x -> usage
serve -- --config c --socket s -> usage
serve --config c --socket s --check -> serve c s 64 4294967295 10 0 0 0 true
serve --idle 30 --config c --turn 600 --socket s -> serve c s 64 4294967295 10 30 600 0 false
serve --config c --socket s --idle=4294967295 --turn 1 -> serve c s 64 4294967295 10 4294967295 1 0 false";

#[test]
fn words_of_serve(rt: HostRuntime) -> Result<(), Fail> {
    compare(&rt, rt.alloc(), WORDS_OF_SERVE)
}

const LIMITS_OF_SERVE: &str =
    "serve --config c --socket s --clients 1 -> serve c s 1 4294967295 10 0 0 0 false
serve --config c --socket s --clients=1024 --connections 7 -> serve c s 1024 7 10 0 0 0 false
serve --config c --socket s --reserve 64 -> serve c s 64 4294967295 10 0 0 64 false
serve --reserve=131072 --config c --socket s --check -> serve c s 64 4294967295 10 0 0 131072 true
serve --config c --socket s --reserve 0 -> usage
serve --config c --socket s --reserve 131073 -> usage
serve --config c --socket s --reserve -1 -> usage
serve --config c --socket s --reserve 64M -> usage
serve --config c --socket s --reserve -> usage
serve --config c --socket s --tenant-clients 1 -> serve c s 64/1 4294967295 10 0 0 0 false
serve --tenant-clients=1024 --config c --socket s --clients 2 -> serve c s 2/1024 4294967295 10 0 0 0 false
serve --config c --socket s --tenant-clients 0 -> usage
serve --config c --socket s --tenant-clients 1025 -> usage
serve --config c --socket s --tenant-clients -1 -> usage
serve --config c --socket s --tenant-clients -> usage
serve --config c --socket s --share 1 -> serve c s 64:1 4294967295 10 0 0 0 false
serve --share=1024 --config c --socket s --tenant-clients 2 -> serve c s 64/2:1024 4294967295 10 0 0 0 false
serve --config c --socket s --share 0 -> usage
serve --config c --socket s --share 1025 -> usage
serve --config c --socket s --share -> usage
serve --config c --socket s --clients 0 -> usage
serve --config c --socket s --clients 1025 -> usage
serve --config c --socket s --clients -1 -> usage
serve --config c --socket s --clients x -> usage
serve --config c --socket s --clients -> usage
serve --config c --socket s --clients 2 --clients 2 -> usage
serve --config c --socket s --login 0 -> usage
serve --config c --socket s --login 4294967296 -> usage
serve --config c --socket s --login 7 -> serve c s 64 4294967295 7 0 0 0 false
serve --config c --socket s --idle 0 -> usage
serve --config c --socket s --turn 0 -> usage
serve --config c --socket s --idle 4294967296 -> usage
serve --config c --socket s --turn 4294967296 -> usage
serve --config c --socket s --idle -1 -> usage
serve --config c --socket s --turn x -> usage
serve --config c --socket s --idle -> usage
serve --config c --socket s --idle 1 --idle 1 -> usage
serve --config c --socket s --check=true -> usage
serve --config c --socket s --check --check -> usage";

#[test]
fn limits_of_serve(rt: HostRuntime) -> Result<(), Fail> {
    compare(&rt, rt.alloc(), LIMITS_OF_SERVE)
}

const WORDS_OF_A_JOURNAL: &str =
    "serve --config c --socket s --journal d -> serve c s 64 4294967295 10 0 0 0 false d Round 64
serve --config c --socket s --journal=d --sync round --check -> serve c s 64 4294967295 10 0 0 0 true d Round 64
serve --sync never --config c --socket s --journal d -> serve c s 64 4294967295 10 0 0 0 false d Never 64
serve --config c --socket s --journal d --sync 1 -> serve c s 64 4294967295 10 0 0 0 false d Seconds(1) 64
serve --config c --socket s --journal d --sync 4294967295 -> serve c s 64 4294967295 10 0 0 0 false d Seconds(4294967295) 64
serve --config c --socket s --journal d --new-journal -> serve c s 64 4294967295 10 0 0 0 false d Round 64 new
serve --new-journal --config c --socket s --sync 2 --journal d --check -> serve c s 64 4294967295 10 0 0 0 true d Seconds(2) 64 new
serve --config c --socket s --journal d --segment 1 -> serve c s 64 4294967295 10 0 0 0 false d Round 1
serve --segment=1024 --config c --socket s --sync 2 --journal d -> serve c s 64 4294967295 10 0 0 0 false d Seconds(2) 1024
serve --config c --socket s --journal d --segment 0 -> usage
serve --config c --socket s --journal d --segment 1025 -> usage
serve --config c --socket s --journal d --segment -1 -> usage
serve --config c --socket s --journal d --segment 64M -> usage
serve --config c --socket s --journal d --segment -> usage
serve --config c --socket s --journal d --segment 1 --segment 1 -> usage
serve --config c --socket s --segment 1 -> usage
serve --config c --socket s --new-journal -> usage
serve --config c --socket s --new-journal --sync round -> usage
serve --config c --socket s --journal d --new-journal=true -> usage
serve --config c --socket s --sync round -> usage
serve --config c --socket s --sync 5 -> usage
serve --config c --socket s --journal d --sync 0 -> usage
serve --config c --socket s --journal d --sync 4294967296 -> usage
serve --config c --socket s --journal d --sync often -> usage
serve --config c --socket s --journal d --sync -> usage
serve --config c --socket s --journal -> usage
serve --config c --socket s --journal d --journal e -> usage
compact d -> compact d
compact -> usage
compact d e -> usage
compact --help -> help
compact d --tenant a -> usage
repair d -> repair d
repair d --yes -> repair d sure
repair --drop-later d -> repair d later
repair d --drop-later --yes -> repair d sure later
repair -> usage
repair d e -> usage
repair --help -> help
repair d --sync 1 -> usage
journal d -> journal d
journal d --tenant a -> journal d a
journal --tenant=a d -> journal d a
journal d --new -> journal d new
journal --check d -> journal d check
journal d --new --check -> usage
journal d --new --tenant a -> usage
journal d --check --tenant a -> usage
journal d --new --check --tenant a -> usage
journal --new -> usage
compact d --new -> usage
journal --tenant a -> usage
journal -> usage
run --journal d -> usage";

#[test]
fn words_of_a_journal(rt: HostRuntime) -> Result<(), Fail> {
    compare(&rt, rt.alloc(), WORDS_OF_A_JOURNAL)
}
