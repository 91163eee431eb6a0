//! Calls and replies as the texts of their lines.
use crate::checks::same_at;
use arrayvec::ArrayVec;
use judy_model::{Call, KEY_LIMIT, OwnedReply};
use judy_protocol::{Line, read_line, write_reply};
use std::process::Abort;
use std::test::Fail;

/// The call of a line.
pub(crate) fn call_of<'a>(line: &str, room: &'a mut [u8; KEY_LIMIT]) -> Result<Call<'a>, Fail> {
    match read_line(line.as_bytes(), room) {
        Ok(Line::Call(call)) => Ok(call),
        _ => Err("a call")?,
    }
}

/// Checks that a reply has this text. The line that it answers is named if it has another.
pub(crate) fn compare(rt: &impl Abort, line: &str, reply: &OwnedReply, want: &str) {
    let mut text = ArrayVec::new();
    write_reply(&reply.reply(), &mut text);
    let _line_feed = text.pop();
    same_at(rt, text.as_slice(), want.as_bytes(), line);
}
