//! A service that is called as a client calls it.
use crate::checks::{holds_at, same, same_at};
use judy_model::{Call, OwnedReply, Reply, ReplyRoom};
use judy_table::read_digest;
use judy_tenants::{Event, Service, Sha256Hash, Speaker, Table, TableFault, is_callable};
use std::alloc::{AllocError, Global};
use std::process::Abort;
use std::test::Fail;

/// A service, and the allocator that its memory comes from.
#[derive(Drop)]
pub(crate) struct House {
    alloc: Global,
    service: Service<Sha256Hash>,
}

/// What a refusal for memory must not change: a tenant's entries and pieces, and the words of all
/// arrays.
#[derive(Clone, Copy, Debug, PartialEq, Eq)]
struct Figures {
    used: u64,
    pieces: u64,
    words: u64,
}

/// The table of this text. If memory is refused, a second try succeeds.
fn table(rt: &impl Abort, alloc: Global, text: &str) -> Result<Table, Fail> {
    match Table::parse(alloc, text.as_bytes()) {
        Ok(table) => Ok(table),
        Err(fault) => {
            same(rt, fault, TableFault::Memory);
            Ok(Table::parse(alloc, text.as_bytes())?)
        }
    }
}

/// A vector with room for this many items. If memory is refused, a second try succeeds.
pub(crate) fn room_for<T: Drop>(alloc: Global, many: usize) -> Result<Vec<T>, AllocError> {
    match Vec::with_capacity(alloc, many) {
        Ok(room) => Ok(room),
        Err(_) => Vec::with_capacity(alloc, many),
    }
}

impl House {
    /// A service of the table of this text. If memory is refused, a second try succeeds.
    pub(crate) fn new(rt: &impl Abort, alloc: Global, text: &str) -> Result<House, Fail> {
        let first = Service::new(alloc, table(rt, alloc, text)?, b"secret", Sha256Hash);
        let service = match first {
            Ok(service) => service,
            Err(_) => Service::new(alloc, table(rt, alloc, text)?, b"again", Sha256Hash)?,
        };
        same(rt, service.live_words(), 0);
        same(rt, service.refusals(), 0);
        same(rt, service.unplaced(), 0);
        Ok(House { alloc, service })
    }

    /// The speaker with this name and token: a tenant and a right. None if they are wrong.
    pub(crate) fn login(&self, name: &str, token: &str) -> Option<Speaker> {
        self.service.login(name.as_bytes(), token.as_bytes())
    }

    /// A speaker whose login succeeds.
    pub(crate) fn speaker(&self, name: &str, token: &str) -> Result<Speaker, Fail> {
        Ok(self.login(name, token).ok_or("a name and its token")?)
    }

    /// Whether the speaker's tenant is in the table.
    pub(crate) fn knows(&self, speaker: &Speaker) -> bool {
        self.service.knows(*speaker)
    }

    /// Puts the table of this text in force. False if a quota is below what is held. No memory is asked
    /// for, but to read the text.
    pub(crate) fn change(&mut self, rt: &impl Abort, text: &str) -> Result<bool, Fail> {
        let table = table(rt, self.alloc, text)?;
        Ok(self.service.change(self.alloc, table).is_ok())
    }

    /// Freezes a tenant with the digest of these digits. False if nobody has the name.
    pub(crate) fn freeze(&mut self, name: &str, digits: &str) -> Result<bool, Fail> {
        let digest = read_digest(digits.as_bytes()).ok_or("64 digits")?;
        Ok(self.service.freeze(name.as_bytes(), &digest))
    }

    /// Thaws a tenant. False if nobody has the name.
    pub(crate) fn thaw(&mut self, name: &str) -> bool {
        self.service.thaw(name.as_bytes())
    }

    /// How many entries a tenant has.
    pub(crate) fn used(&self, rt: &impl Abort, speaker: &Speaker) -> u64 {
        holds_at(
            rt,
            self.service.has(speaker.tenant),
            "a tenant of another table",
        );
        self.service.used(speaker.tenant)
    }

    /// How many pieces a tenant's entries have.
    pub(crate) fn pieces(&self, rt: &impl Abort, speaker: &Speaker) -> u64 {
        holds_at(
            rt,
            self.service.has(speaker.tenant),
            "a tenant of another table",
        );
        self.service.pieces(speaker.tenant)
    }

    /// The words of all arrays.
    pub(crate) fn live_words(&self) -> u64 {
        self.service.live_words()
    }

    fn figures(&self, rt: &impl Abort, speaker: &Speaker) -> Figures {
        Figures {
            used: self.used(rt, speaker),
            pieces: self.pieces(rt, speaker),
            words: self.service.live_words(),
        }
    }

    /// How many requests for memory were refused.
    pub(crate) fn refused(&self) -> u128 {
        u128::from(self.service.refusals()) + u128::from(self.service.unplaced())
    }

    fn call(&mut self, rt: &impl Abort, speaker: &Speaker, call: &Call<'_>) -> OwnedReply {
        holds_at(rt, is_callable(call), "a byte 0 in a string");
        holds_at(
            rt,
            self.service.has(speaker.tenant),
            "a tenant of another table",
        );
        let mut found = ReplyRoom::new();
        let reply = self.service.call(self.alloc, *speaker, call, &mut found);
        OwnedReply::of(&reply)
    }

    /// The reply, which may be `ERR MEMORY`. Such a refusal is counted once and changes nothing,
    /// and nothing else is counted.
    pub(crate) fn try_ask(
        &mut self,
        rt: &impl Abort,
        speaker: &Speaker,
        call: &Call<'_>,
    ) -> OwnedReply {
        let before = self.figures(rt, speaker);
        let refused = self.refused();
        let reply = self.call(rt, speaker, call);
        if reply.reply() == Reply::Memory {
            same_at(rt, self.figures(rt, speaker), before, "after a refusal");
            same_at(rt, Some(self.refused()), refused.checked_add(1), "refusals");
        } else {
            same_at(rt, self.refused(), refused, "refusals");
        }
        reply
    }

    /// The reply. If memory is refused, a second try succeeds.
    pub(crate) fn ask(
        &mut self,
        rt: &impl Abort,
        speaker: &Speaker,
        call: &Call<'_>,
    ) -> OwnedReply {
        let reply = self.try_ask(rt, speaker, call);
        if reply.reply() == Reply::Memory {
            return self.try_ask(rt, speaker, call);
        }
        reply
    }

    /// Answers calls in order, and stores the replies. The refusals that are counted are as many as
    /// the replies `ERR MEMORY`.
    pub(crate) fn replay_into(
        &mut self,
        rt: &impl Abort,
        events: &[Event<'_>],
        replies: &mut [OwnedReply],
    ) {
        assert_eq!(rt; replies.len(), events.len());
        holds_at(
            rt,
            self.service.can_answer(events),
            "calls that it can answer",
        );
        let mut refused = self.refused();
        self.service.replay(self.alloc, events, replies);
        for reply in replies.iter() {
            if reply.reply() == Reply::Memory {
                refused = refused.saturating_add(1);
            }
        }
        same_at(rt, self.refused(), refused, "refusals");
    }

    /// The replies to these calls, which are all made at once. Some may be `ERR MEMORY`.
    pub(crate) fn replay(
        &mut self,
        rt: &impl Abort,
        events: &[Event<'_>],
    ) -> Result<Vec<OwnedReply>, Fail> {
        let mut replies = room_for(self.alloc, events.len())?;
        for _ in events {
            replies.push(OwnedReply::of(&Reply::Null))?;
        }
        self.replay_into(rt, events, &mut replies);
        Ok(replies)
    }
}
