//! Bytes against the grammar of a line.
use crate::checks::{holds, same_at};
use judy_model::{is_name_letter, is_string, name_ok, token_ok};

// Whether bytes are a name, a token and a string.
static TEXTS: [(&[u8], bool, bool, bool); 5] = [
    (b"Az09_-.", true, true, true),
    (b"a b", false, false, true),
    (b"a/b", false, true, true),
    (b"a\x00b", false, false, false),
    (b"", false, false, true),
];

#[test]
fn bytes_of_the_grammar(rt: HostRuntime) {
    for (bytes, name, token, string) in &TEXTS {
        let found = (name_ok(bytes), token_ok(bytes), is_string(bytes));
        same_at(&rt, found, (*name, *token, *string), bytes);
    }
    holds(&rt, is_name_letter(b'-') && !is_name_letter(b'+'));
}
