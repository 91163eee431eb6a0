//! Every command and the call that it makes, in one place. A new command has its row and its arm here. The
//! tests of the reader and the random walks make it then, each beside what it tests.

use judy_model::{
    BytesCall, Call, Given, Key, Kind, LongCall, Name, OneCall, Operation, Search, StrCall,
};

/// A command: its word, what it does, and its share of a walk over arrays of its kind.
pub type Row = (&'static str, Operation, u64);

/// The commands of a set. Most calls of a walk set or unset an index; few free the set.
pub static OF_SETS: [Row; 17] = [
    ("J1S", Operation::Insert, 30),
    ("J1SE", Operation::Fill, 6),
    ("J1U", Operation::Remove, 12),
    ("J1UF", Operation::Pop, 4),
    ("J1UR", Operation::Cut, 2),
    ("J1T", Operation::Look, 3),
    ("J1C", Operation::Count, 4),
    ("J1BC", Operation::Nth, 3),
    ("J1F", Operation::First, 3),
    ("J1N", Operation::Next, 3),
    ("J1L", Operation::Last, 3),
    ("J1P", Operation::Prev, 3),
    ("J1FE", Operation::FirstEmpty, 4),
    ("J1NE", Operation::NextEmpty, 4),
    ("J1LE", Operation::LastEmpty, 4),
    ("J1PE", Operation::PrevEmpty, 3),
    ("J1FA", Operation::Free, 1),
];

/// The command of two sets: its call names both.
pub static OF_TWO_SETS: [Row; 1] = [("J1I", Operation::Intersect, 1)];

/// The commands of a JudyL, with similar shares.
pub static OF_WORDS: [Row; 21] = [
    ("JLI", Operation::Insert, 16),
    ("JLIE", Operation::Fill, 6),
    ("JLA", Operation::Add, 8),
    ("JLK", Operation::Keep, 8),
    ("JLX", Operation::Exchange, 6),
    ("JLD", Operation::Remove, 12),
    ("JLDF", Operation::Pop, 4),
    ("JLDR", Operation::Cut, 2),
    ("JLT", Operation::Take, 5),
    ("JLG", Operation::Look, 3),
    ("JLC", Operation::Count, 4),
    ("JLBC", Operation::Nth, 3),
    ("JLF", Operation::First, 3),
    ("JLN", Operation::Next, 3),
    ("JLL", Operation::Last, 3),
    ("JLP", Operation::Prev, 3),
    ("JLFE", Operation::FirstEmpty, 4),
    ("JLNE", Operation::NextEmpty, 4),
    ("JLLE", Operation::LastEmpty, 4),
    ("JLPE", Operation::PrevEmpty, 3),
    ("JLFA", Operation::Free, 1),
];

/// The commands of a JudySL.
pub static OF_STRINGS: [Row; 13] = [
    ("JSLI", Operation::Insert, 16),
    ("JSLA", Operation::Add, 8),
    ("JSLK", Operation::Keep, 8),
    ("JSLX", Operation::Exchange, 6),
    ("JSLD", Operation::Remove, 12),
    ("JSLDF", Operation::Pop, 4),
    ("JSLT", Operation::Take, 5),
    ("JSLG", Operation::Look, 3),
    ("JSLF", Operation::First, 4),
    ("JSLN", Operation::Next, 5),
    ("JSLL", Operation::Last, 4),
    ("JSLP", Operation::Prev, 5),
    ("JSLFA", Operation::Free, 1),
];

/// The commands of a JudyHS.
pub static OF_KEYS: [Row; 10] = [
    ("JHSI", Operation::Insert, 16),
    ("JHSA", Operation::Add, 8),
    ("JHSK", Operation::Keep, 8),
    ("JHSX", Operation::Exchange, 6),
    ("JHSD", Operation::Remove, 16),
    ("JHST", Operation::Take, 5),
    ("JHSG", Operation::Look, 17),
    ("JHSF", Operation::First, 3),
    ("JHSN", Operation::Next, 5),
    ("JHSFA", Operation::Free, 1),
];

/// What this number draws of these rows, each by its share.
pub fn drawn(rows: &[Row], number: u64) -> Operation {
    let mut shares: u64 = 0;
    for (_, _, share) in rows {
        shares = shares.saturating_add(*share);
    }
    let mut left = number % shares;
    for (_, operation, share) in rows {
        if left < *share {
            return *operation;
        }
        left = left.saturating_sub(*share);
    }
    Operation::Look
}

/// The fields of a call after the name. A call takes those that it has.
#[derive(Clone, Copy)]
pub struct Fields {
    /// The index of a set or a JudyL, or a rank.
    pub index: u64,
    /// The key of a JudySL or a JudyHS.
    pub key: &'static [u8],
    /// The end of a range, a value, or what is added.
    pub number: u64,
    /// The value that an exchange stores.
    pub other: u64,
    /// How many entries a search or the removal of a range asks for. 0: a search asks for one, without a number.
    pub most: u16,
    /// Whether an insertion or a removal has a value.
    pub stores: bool,
}

impl Fields {
    /// What an insertion does to its value.
    fn given(self) -> Given {
        if self.stores {
            return Given::Value(self.number);
        }
        Given::Nothing
    }

    /// How many entries the removal of a range, or a walk over a JudyHS, asks for.
    fn at_most(self) -> u16 {
        if self.most == 0 {
            return 1;
        }
        self.most
    }

    /// How many fields a line of a command of arrays of this kind has after the name.
    pub fn count(self, operation: Operation, kind: Kind) -> u8 {
        match operation {
            Operation::Free => 0,
            Operation::Insert | Operation::Remove => 1 + u8::from(self.stores),
            Operation::Add | Operation::Keep | Operation::Count => 2,
            Operation::Fill => 1 + u8::from(kind == Kind::Long),
            Operation::Pop => 1 + u8::from(kind != Kind::Str),
            Operation::Exchange | Operation::Cut => 3,
            Operation::Take | Operation::Look | Operation::Nth => 1,
            Operation::First if kind == Kind::Bytes => 1,
            Operation::Next if kind == Kind::Bytes => 2,
            _ => 1 + u8::from(self.most > 0),
        }
    }

    /// The numbers of a line of a command behind its index or key.
    pub fn numbers(self, operation: Operation) -> (u64, u64) {
        match operation {
            Operation::Cut => (self.number, u64::from(self.at_most())),
            Operation::First | Operation::Next | Operation::Last | Operation::Prev => {
                (u64::from(self.at_most()), 0)
            }
            Operation::FirstEmpty
            | Operation::NextEmpty
            | Operation::LastEmpty
            | Operation::PrevEmpty => (u64::from(self.most), 0),
            _ => (self.number, self.other),
        }
    }
}

/// The search of an operation, also of one that looks for an absent word.
fn search(operation: Operation) -> Option<Search> {
    match operation {
        Operation::First | Operation::FirstEmpty => Some(Search::First),
        Operation::Next | Operation::NextEmpty => Some(Search::Next),
        Operation::Last | Operation::LastEmpty => Some(Search::Last),
        Operation::Prev | Operation::PrevEmpty => Some(Search::Prev),
        _ => None,
    }
}

/// Whether an operation looks for an absent word.
fn is_empty_search(operation: Operation) -> bool {
    matches!(
        operation,
        Operation::FirstEmpty | Operation::NextEmpty | Operation::LastEmpty | Operation::PrevEmpty
    )
}

/// The call of a set. None: there is no such command.
pub fn one(operation: Operation, fields: Fields) -> Option<OneCall> {
    let i = fields.index;
    if fields.most > 0
        && let Some(search) = search(operation)
    {
        if is_empty_search(operation) {
            return Some(OneCall::WalkEmpty(search, i, fields.most));
        }
        return Some(OneCall::Walk(search, i, fields.most));
    }
    let call = match operation {
        Operation::Insert => OneCall::Set(i),
        Operation::Fill => OneCall::Fill(i),
        Operation::Remove => OneCall::Unset(i),
        Operation::Pop => OneCall::Pop(i, fields.number),
        Operation::Cut => OneCall::Cut(i, fields.number, fields.at_most()),
        Operation::Look => OneCall::Test(i),
        Operation::Count => OneCall::Count(i, fields.number),
        Operation::Nth => OneCall::ByCount(i),
        Operation::First => OneCall::First(i),
        Operation::Next => OneCall::Next(i),
        Operation::Last => OneCall::Last(i),
        Operation::Prev => OneCall::Prev(i),
        Operation::FirstEmpty => OneCall::FirstEmpty(i),
        Operation::NextEmpty => OneCall::NextEmpty(i),
        Operation::LastEmpty => OneCall::LastEmpty(i),
        Operation::PrevEmpty => OneCall::PrevEmpty(i),
        Operation::Free => OneCall::Free,
        _ => return None,
    };
    Some(call)
}

/// The call of a JudyL.
pub fn long(operation: Operation, fields: Fields) -> Option<LongCall> {
    let i = fields.index;
    if fields.most > 0
        && let Some(search) = search(operation)
    {
        if is_empty_search(operation) {
            return Some(LongCall::WalkEmpty(search, i, fields.most));
        }
        return Some(LongCall::Walk(search, i, fields.most));
    }
    let call = match operation {
        Operation::Insert => LongCall::Insert(i, fields.given()),
        Operation::Fill => LongCall::Fill(i, fields.number),
        Operation::Pop => LongCall::Pop(i, fields.number),
        Operation::Cut => LongCall::Cut(i, fields.number, fields.at_most()),
        Operation::Add => LongCall::Insert(i, Given::Plus(fields.number)),
        Operation::Keep => LongCall::Keep(i, fields.number),
        Operation::Exchange => LongCall::Exchange(i, fields.number, fields.other),
        Operation::Remove if fields.stores => LongCall::DeleteIf(i, fields.number),
        Operation::Remove => LongCall::Delete(i),
        Operation::Take => LongCall::Take(i),
        Operation::Look => LongCall::Get(i),
        Operation::Count => LongCall::Count(i, fields.number),
        Operation::Nth => LongCall::ByCount(i),
        Operation::First => LongCall::First(i),
        Operation::Next => LongCall::Next(i),
        Operation::Last => LongCall::Last(i),
        Operation::Prev => LongCall::Prev(i),
        Operation::FirstEmpty => LongCall::FirstEmpty(i),
        Operation::NextEmpty => LongCall::NextEmpty(i),
        Operation::LastEmpty => LongCall::LastEmpty(i),
        Operation::PrevEmpty => LongCall::PrevEmpty(i),
        Operation::Free => LongCall::Free,
        Operation::Intersect => return None,
    };
    Some(call)
}

/// The call of a JudySL. None too: the key is too long.
pub fn string(operation: Operation, fields: Fields) -> Option<StrCall<'static>> {
    let key = Key::read(fields.key)?;
    if fields.most > 0
        && !is_empty_search(operation)
        && let Some(search) = search(operation)
    {
        return Some(StrCall::Walk(search, key, fields.most));
    }
    let call = match operation {
        Operation::Pop => StrCall::Pop(key),
        Operation::Insert => StrCall::Insert(key, fields.given()),
        Operation::Add => StrCall::Insert(key, Given::Plus(fields.number)),
        Operation::Keep => StrCall::Keep(key, fields.number),
        Operation::Exchange => StrCall::Exchange(key, fields.number, fields.other),
        Operation::Remove if fields.stores => StrCall::DeleteIf(key, fields.number),
        Operation::Remove => StrCall::Delete(key),
        Operation::Take => StrCall::Take(key),
        Operation::Look => StrCall::Get(key),
        Operation::First => StrCall::First(key),
        Operation::Next => StrCall::Next(key),
        Operation::Last => StrCall::Last(key),
        Operation::Prev => StrCall::Prev(key),
        Operation::Free => StrCall::Free,
        _ => return None,
    };
    Some(call)
}

/// The call of a JudyHS. None too: the key is too long.
pub fn bytes(operation: Operation, fields: Fields) -> Option<BytesCall<'static>> {
    let key = Key::read(fields.key)?;
    let call = match operation {
        Operation::Insert => BytesCall::Insert(key, fields.given()),
        Operation::Add => BytesCall::Insert(key, Given::Plus(fields.number)),
        Operation::Keep => BytesCall::Keep(key, fields.number),
        Operation::Exchange => BytesCall::Exchange(key, fields.number, fields.other),
        Operation::Remove if fields.stores => BytesCall::DeleteIf(key, fields.number),
        Operation::Remove => BytesCall::Delete(key),
        Operation::Take => BytesCall::Take(key),
        Operation::Look => BytesCall::Get(key),
        Operation::First => BytesCall::First(fields.at_most()),
        Operation::Next => BytesCall::Next(key, fields.at_most()),
        Operation::Free => BytesCall::Free,
        _ => return None,
    };
    Some(call)
}

/// The calls that free the arrays of this name.
pub fn frees(name: &Name) -> [Call<'static>; 4] {
    [
        Call::One(name.copied(), OneCall::Free),
        Call::Long(name.copied(), LongCall::Free),
        Call::Str(name.copied(), StrCall::Free),
        Call::Bytes(name.copied(), BytesCall::Free),
    ]
}
