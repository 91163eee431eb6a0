//! Lines of each request, and lines that are no request.
use crate::calls::{
    Fields, OF_KEYS, OF_SETS, OF_STRINGS, OF_TWO_SETS, OF_WORDS, Row, bytes, long, one, string,
};
use crate::checks::{holds, holds_at, same, same_at};
use crate::lines::asks::name;
use arrayvec::ArrayVec;
use judy_model::{
    ArraysFrom, BytesCall, COMMANDS, Call, Given, KEY_LIMIT, Key, Kind, Line, LongCall, Name,
    OneCall, Operation, Search, StrCall, Token, command_word,
};
use judy_protocol::{Syntax, read_line};
use std::alloc::{AllocError, Global};
use std::process::Abort;
use std::test::Fail;

/// The fields of the lines below: an index or a key, and two numbers.
const FIELDS: Fields = Fields {
    index: 5,
    key: b"\x61\xff",
    number: 7,
    other: 9,
    most: 0,
    stores: true,
};

/// The numbers of entries that searches ask for; with 0 they ask for one, without a number.
const MOST: [u16; 3] = [0, 1, 65_535];

/// The line of a command, of the array `A_b-9.z`, whose fields are these.
fn line_of(
    alloc: Global,
    (word, operation, _): Row,
    kind: Kind,
    fields: Fields,
    key: &str,
) -> Result<String, AllocError> {
    let (number, other) = fields.numbers(operation);
    match fields.count(operation, kind) {
        0 => format!(in alloc; "{word} A_b-9.z"),
        1 if kind == Kind::Bytes && operation == Operation::First => {
            format!(in alloc; "{word} A_b-9.z {number}")
        }
        1 => format!(in alloc; "{word} A_b-9.z {key}"),
        2 => format!(in alloc; "{word} A_b-9.z {key} {number}"),
        _ => format!(in alloc; "{word} A_b-9.z {key} {number} {other}"),
    }
}

/// The line of a command is read as its call, and with a field more it is no request.
fn compare(rt: &impl Abort, alloc: Global, line: &str, want: Call<'_>) -> Result<(), Fail> {
    let mut room = [0; KEY_LIMIT];
    same_at(
        rt,
        read_line(line.as_bytes(), &mut room),
        Ok(Line::Call(want)),
        line,
    );
    let more = format!(in alloc; "{line} 7 7")?;
    same_at(rt, read_line(more.as_bytes(), &mut room), Err(Syntax), line);
    Ok(())
}

/// The name of the arrays.
fn array() -> Name {
    name("A_b-9.z")
}

#[test]
fn each_request_of_a_set(rt: HostRuntime) -> Result<(), Fail> {
    for row in &OF_SETS {
        for most in MOST {
            let fields = Fields {
                stores: false,
                most,
                ..FIELDS
            };
            let call = one(row.1, fields).ok_or("a call of a set")?;
            let line = line_of(rt.alloc(), *row, Kind::One, fields, "5")?;
            compare(&rt, rt.alloc(), line.as_str(), Call::One(array(), call))?;
        }
    }
    Ok(())
}

#[test]
fn each_request_of_a_word_map(rt: HostRuntime) -> Result<(), Fail> {
    for row in &OF_WORDS {
        for (stores, most) in [(false, 0), (true, 1), (true, 65_535)] {
            let fields = Fields {
                stores,
                most,
                ..FIELDS
            };
            let call = long(row.1, fields).ok_or("a call of a JudyL")?;
            let line = line_of(rt.alloc(), *row, Kind::Long, fields, "5")?;
            compare(&rt, rt.alloc(), line.as_str(), Call::Long(array(), call))?;
        }
    }
    Ok(())
}

#[test]
fn each_request_of_keys(rt: HostRuntime) -> Result<(), Fail> {
    for (stores, most) in [(false, 0), (true, 1), (true, 65_535)] {
        let fields = Fields {
            stores,
            most,
            ..FIELDS
        };
        for row in &OF_STRINGS {
            let call = string(row.1, fields).ok_or("a call of a JudySL")?;
            let line = line_of(rt.alloc(), *row, Kind::Str, fields, "x61fF")?;
            compare(&rt, rt.alloc(), line.as_str(), Call::Str(array(), call))?;
        }
        for row in &OF_KEYS {
            let call = bytes(row.1, fields).ok_or("a call of a JudyHS")?;
            let line = line_of(rt.alloc(), *row, Kind::Bytes, fields, "x61FF")?;
            compare(&rt, rt.alloc(), line.as_str(), Call::Bytes(array(), call))?;
        }
    }
    Ok(())
}

#[test]
fn each_request_of_two_sets(rt: HostRuntime) -> Result<(), Fail> {
    let alloc = rt.alloc();
    for most in [1, 7, 65_535] {
        let line = format!(in alloc; "J1I A_b-9.z b 5 {most}")?;
        let call = Call::Intersect(array(), name("b"), 5, most);
        compare(&rt, alloc, line.as_str(), call)?;
    }
    let mut room = [0; KEY_LIMIT];
    let want = Line::Call(Call::Intersect(name("a"), name("a"), u64::MAX, 9));
    same(&rt, read_line(b" J1I  a a -1 009 ", &mut room), Ok(want));
    let want = Line::Call(Call::Intersect(name("a"), name("7"), 0, 1));
    same(&rt, read_line(b"J1I a 7 0 1", &mut room), Ok(want));
    Ok(())
}

#[test]
fn lists_of_arrays(rt: HostRuntime) -> Result<(), Fail> {
    let alloc = rt.alloc();
    for most in [1, 7, 65_535] {
        let line = format!(in alloc; "NAMES {most}")?;
        let call = Call::Names(ArraysFrom::First, most);
        compare(&rt, alloc, line.as_str(), call)?;
    }
    let kinds = [
        ("J1", Kind::One),
        ("JL", Kind::Long),
        ("JSL", Kind::Str),
        ("JHS", Kind::Bytes),
    ];
    for (word, kind) in kinds {
        let line = format!(in alloc; "NAMES {word} A_b-9.z 12")?;
        let call = Call::Names(ArraysFrom::Behind(kind, array()), 12);
        compare(&rt, alloc, line.as_str(), call)?;
    }
    let mut room = [0; KEY_LIMIT];
    let want = Line::Call(Call::Names(ArraysFrom::First, 5));
    same(
        &rt,
        read_line(b"  NAMES  00000000000000000005 ", &mut room),
        Ok(want),
    );
    let wrong: [&[u8]; 16] = [
        b"NAMES",
        b"NAMES 0",
        b"NAMES 65536",
        b"NAMES -1",
        b"NAMES 000000000000000000005",
        b"NAMES J1",
        b"NAMES J1 a",
        b"NAMES J1 a 0",
        b"NAMES J1 a -1",
        b"NAMES J1 a 5 6",
        b"NAMES J1 a/b 5",
        b"NAMES j1 a 5",
        b"NAMES J2 a 5",
        b"NAMES JSLX a 5",
        b"NAMES 5 5",
        b"names 5",
    ];
    for line in wrong {
        same(&rt, read_line(line, &mut room), Err(Syntax));
    }
    Ok(())
}

/// Whether the rows have this word.
fn has(rows: &[Row], word: &str) -> bool {
    rows.iter().any(|row| row.0 == word)
}

#[test]
fn each_command_has_a_row(rt: HostRuntime) {
    for place in 0..COMMANDS {
        let word = command_word(place);
        holds_at(
            &rt,
            has(&OF_SETS, word)
                || has(&OF_TWO_SETS, word)
                || has(&OF_WORDS, word)
                || has(&OF_STRINGS, word)
                || has(&OF_KEYS, word),
            word,
        );
    }
    let of_sets = OF_SETS.len() + OF_TWO_SETS.len();
    let rows = of_sets + OF_WORDS.len() + OF_STRINGS.len() + OF_KEYS.len();
    same(&rt, rows, COMMANDS);
}

/// Other spellings of numbers, and spaces.
static OF_A_SET: [(&[u8], OneCall); 10] = [
    (b"J1T a 005", OneCall::Test(5)),
    (b"J1C a 0 -1", OneCall::Count(0, u64::MAX)),
    (b"J1UF a 0  -1", OneCall::Pop(0, u64::MAX)),
    (b"J1SE a -1", OneCall::Fill(u64::MAX)),
    (b"J1F a -1 007", OneCall::Walk(Search::First, u64::MAX, 7)),
    (b"J1BC a 0", OneCall::ByCount(0)),
    (b"J1L a 18446744073709551615", OneCall::Last(u64::MAX)),
    (b"J1P a 00000000000000000001", OneCall::Prev(1)),
    (b"J1PE  a   1 ", OneCall::PrevEmpty(1)),
    (b"   J1FA a", OneCall::Free),
];

#[test]
fn spellings_of_requests(rt: HostRuntime) -> Result<(), Fail> {
    let mut room = [0; KEY_LIMIT];
    for (line, call) in &OF_A_SET {
        let want = Line::Call(Call::One(name("a"), *call));
        same_at(&rt, read_line(line, &mut room), Ok(want), line);
    }
    let plus = LongCall::Insert(5, Given::Plus(u64::MAX));
    let want = Line::Call(Call::Long(name("a"), plus));
    same(&rt, read_line(b"JLA a 5 -1", &mut room), Ok(want));
    let string = StrCall::First(Key::of(b""));
    let want = Line::Call(Call::Str(name("s"), string));
    same(&rt, read_line(b"JSLF s x", &mut room), Ok(want));
    let bytes = BytesCall::Insert(Key::of(b"\x00\xfe"), Given::Nothing);
    let want = Line::Call(Call::Bytes(name("s"), bytes));
    same(&rt, read_line(b"JHSI s x00fe", &mut room), Ok(want));
    let bytes = BytesCall::Get(Key::of(b""));
    let want = Line::Call(Call::Bytes(name("s"), bytes));
    same(&rt, read_line(b"JHSG s x", &mut room), Ok(want));
    Ok(())
}

#[test]
fn requests_of_the_connection(rt: HostRuntime) -> Result<(), Fail> {
    let mut room = [0; KEY_LIMIT];
    let token = Token::read(b"a~!").ok_or("no token")?;
    same(
        &rt,
        read_line(b"AUTH bob a~!", &mut room),
        Ok(Line::Auth(name("bob"), token)),
    );
    same(&rt, read_line(b"QUIT", &mut room), Ok(Line::Quit));
    same(&rt, read_line(b"PING", &mut room), Ok(Line::Ping));
    same(&rt, read_line(b"  HELLO ", &mut room), Ok(Line::Hello));
    same(
        &rt,
        read_line(b" USED ", &mut room),
        Ok(Line::Call(Call::Used)),
    );
    Ok(())
}

static OF_NO_REQUEST: [&[u8]; 70] = [
    b"",
    b"  ",
    b"J1S",
    b"J1S a",
    b"J1S a 1 2",
    b"J1C a 1",
    b"J1C a 1 2 3",
    b"J1FA a 1",
    b"j1s a 1",
    b"J1SS a 1",
    b"JLS a 1",
    b"J1S a/b 1",
    b"J1S a -2",
    b"J1S a +1",
    b"J1S a 1x",
    b"J1S a 18446744073709551616",
    b"J1S a 000000000000000000001",
    b"J1T\ta 5",
    b"J1T a 5\r",
    b"J1S abcdefghijklmnopqrstuvwxyz0123456 1",
    b"JSLI s x00",
    b"JSLI s x616",
    b"JSLI s 61",
    b"JSLI s x6g",
    b"JSLG s x61 1",
    b"JHSI s X61",
    b"JHSI s x61 1 2",
    b"JLA a 1",
    b"JLA a 1 2 3",
    b"JSLA s x61",
    b"JHSA s x61",
    b"J1A a 1 1",
    b"JHSF s x61",
    b"J1F a 1 0",
    b"J1F a 1 65536",
    b"J1F a 1 -1",
    b"JSLF s x61 0",
    b"JLPE a 1 65536",
    b"J1UF a 1",
    b"J1UF a 1 2 3",
    b"J1UR a 1 2",
    b"J1UR a 1 2 0",
    b"JLDR a 1 2 65536",
    b"JLDF a 1",
    b"JSLDF s x61 1",
    b"JSLDF s x00",
    b"J1SE a",
    b"J1SE a 1 2",
    b"JLIE a 1",
    b"J1I",
    b"J1I a b 1",
    b"J1I a b 1 2 3",
    b"J1I a b 1 0",
    b"J1I a b 1 65536",
    b"J1I a b/ 1 2",
    b"J1I a abcdefghijklmnopqrstuvwxyz0123456 1 2",
    b"J1I a b x61 2",
    b"JLI a b 1 2",
    b"AUTH bob",
    b"AUTH bob a b",
    b"AUTH bob a\x7f",
    b"QUIT now",
    b"USED a",
    b"PING 1",
    b"HELLO a b",
    b"ping",
    b"Hello",
    b"PINGS",
    b"\x00",
    b"J1T \xff 1",
];

#[test]
fn lines_of_no_request(rt: HostRuntime) {
    let mut room = [0; KEY_LIMIT];
    for line in &OF_NO_REQUEST {
        same_at(&rt, read_line(line, &mut room), Err(Syntax), line);
    }
}

// A line with a key of this many bytes.
fn line_of_key(rt: &impl Abort, bytes: u16) -> ArrayVec<u8, 2010> {
    let mut line = ArrayVec::new();
    holds(rt, line.try_extend_from_slice(b"JHSG s x").is_ok());
    for _ in 0..bytes {
        holds(rt, line.try_extend_from_slice(b"0a").is_ok());
    }
    line
}

const LONGEST_KEY: &[u8] = &[10; 1000];

#[test]
fn the_longest_key(rt: HostRuntime) {
    let mut room = [0; KEY_LIMIT];
    let longest = BytesCall::Get(Key::of(LONGEST_KEY));
    let want = Line::Call(Call::Bytes(name("s"), longest));
    let line = line_of_key(&rt, 1000);
    same(&rt, read_line(line.as_slice(), &mut room), Ok(want));
}

#[test]
fn a_key_that_is_too_long(rt: HostRuntime) {
    let mut room = [0; KEY_LIMIT];
    let line = line_of_key(&rt, 1001);
    same(&rt, read_line(line.as_slice(), &mut room), Err(Syntax));
}
