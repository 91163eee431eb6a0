//! Notes of what is synced: what a writer makes, and where a reader takes them for notes.

use crate::checks::{holds, same};
use arrayvec::ArrayVec;
use judy_journal::{Notes, SUM_LEN, Writer};

/// The room for the text of three commits.
const ROOM: usize = 1024;

/// The checksum that the first segment continues from.
const ZEROS: [u8; SUM_LEN] = [b'0'; SUM_LEN];

/// The text of a segment: its first line, and three commits of one record, each synced before the next
/// one. Where each of them ends.
fn segment(text: &mut ArrayVec<u8, ROOM>) -> [u64; 4] {
    let mut ends = [0u64; 4];
    let mut writer = Writer::new(0, &ZEROS, 0);
    writer.next_segment();
    let _fits = text.try_extend_from_slice(writer.text());
    ends[0] = text.len() as u64;
    for commit in 1..4usize {
        if writer.has_room() {
            writer.add(b"alice", b"J1S seats 12");
        }
        writer.end_noted();
        let _fits = text.try_extend_from_slice(writer.text());
        writer.secure();
        ends[commit % 4] = text.len() as u64;
    }
    ends
}

/// Whether damage behind this size of a text of this segment may be what a crash left.
fn is_torn(segment: u64, text: &[u8], size: u64) -> bool {
    let mut notes = Notes::new(segment);
    notes.read(text);
    notes.is_torn(size)
}

/// The last note tells where the commit before it ends: damage before that is no torn end. Cut anywhere into
/// two pieces, the text tells the same.
#[test]
fn the_last_note_tells_what_is_synced(rt: HostRuntime) {
    let mut text = ArrayVec::new();
    let ends = segment(&mut text);
    let text = text.as_slice();
    for size in 0..text.len() as u64 + 1 {
        same(&rt, is_torn(1, text, size), size >= ends[2]);
    }
    for cut in 0..text.len() {
        let (front, back) = text.split_at(cut);
        let mut notes = Notes::new(1);
        notes.read(front);
        notes.read(back);
        holds(&rt, notes.is_torn(ends[2]) && !notes.is_torn(ends[2] - 1));
    }
}

/// A note counts only at its place and in its segment. A text with marks and without notes has no torn end,
/// and one without either is all torn.
#[test]
fn a_note_counts_at_its_place_alone(rt: HostRuntime) {
    let mut text = ArrayVec::new();
    let ends = segment(&mut text);
    let text = text.as_slice();
    holds(&rt, !is_torn(2, text, u64::MAX));
    let (_, moved) = text.split_at(1);
    holds(&rt, !is_torn(1, moved, u64::MAX));
    let (first_line, _) = text.split_at(ends[0] as usize % ROOM);
    holds(&rt, is_torn(1, first_line, 0));
    holds(
        &rt,
        is_torn(1, b"", 0) && is_torn(1, b"\0\0\0\n@ 1 x\n#\n", 0),
    );
    holds(&rt, is_torn(1, b"\n# 1", 0));
    holds(&rt, !is_torn(1, b"\n# 1\n", u64::MAX));
}
