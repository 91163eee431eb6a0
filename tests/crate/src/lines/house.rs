//! A service of two tenants over the plain store.

use judy_model::{Call, Quota, Reply, ReplyRoom, Right};
use judy_protocol::Served;
use judy_reference::Store;
use std::alloc::Global;

/// One of the two tenants.
#[derive(Clone, Copy, Debug, PartialEq, Eq)]
pub enum Tenant {
    /// The first tenant.
    Alice,
    /// The second tenant.
    Bob,
}

/// A speaker who is logged in.
#[derive(Clone, Copy, Debug, PartialEq, Eq)]
pub struct Guest {
    /// The tenant.
    pub tenant: Tenant,
    /// What the speaker may do.
    pub right: Right,
}

/// alice may have 4 entries. Her token is `abc`, and `hello` is her read-only token. bob may have
/// 1,000 entries, and his token is `hello`.
#[derive(Drop)]
pub struct House {
    alice: Store,
    bob: Store,
}

impl House {
    /// A house in which no tenant has an entry.
    pub fn new(alloc: Global) -> House {
        House {
            alice: Store::new(alloc),
            bob: Store::new(alloc),
        }
    }

    /// How many entries a tenant has.
    pub fn used(&self, tenant: Tenant) -> u64 {
        match tenant {
            Tenant::Alice => self.alice.used(),
            Tenant::Bob => self.bob.used(),
        }
    }
}

/// Answers a call of a store. The reply is `Memory` if the store is out of memory.
fn answer<'a>(
    store: &mut Store,
    alloc: Global,
    right: Right,
    quota: Quota,
    call: &Call<'_>,
    found: &'a mut ReplyRoom,
) -> Reply<'a> {
    match store.step(alloc, right, quota, call, found) {
        Ok(reply) => reply,
        Err(_) => Reply::Memory,
    }
}

impl Served for House {
    type Speaker = Guest;

    ghost who = { ? };

    ghost seen = { ? };

    ghost made = { ? };

    ghost apart = { ? };

    fn login(&self, name: &[u8], token: &[u8]) -> Option<Guest> {
        if name == b"alice".as_slice() {
            if token == b"abc".as_slice() {
                return Some(Guest {
                    tenant: Tenant::Alice,
                    right: Right::Change,
                });
            }
            if token == b"hello".as_slice() {
                return Some(Guest {
                    tenant: Tenant::Alice,
                    right: Right::Look,
                });
            }
            return None;
        }
        if name == b"bob".as_slice() {
            if token == b"hello".as_slice() {
                return Some(Guest {
                    tenant: Tenant::Bob,
                    right: Right::Change,
                });
            }
            return None;
        }
        None
    }

    fn name(&self, speaker: Guest) -> &[u8] {
        match speaker.tenant {
            Tenant::Alice => b"alice",
            Tenant::Bob => b"bob",
        }
    }

    fn call<'a>(
        &mut self,
        alloc: Global,
        speaker: Guest,
        call: &Call<'_>,
        found: &'a mut ReplyRoom,
    ) -> Reply<'a> {
        match speaker.tenant {
            Tenant::Alice => {
                let quota = Quota {
                    entries: 4,
                    pieces: 504,
                };
                answer(&mut self.alice, alloc, speaker.right, quota, call, found)
            }
            Tenant::Bob => {
                let quota = Quota {
                    entries: 1000,
                    pieces: 126_000,
                };
                answer(&mut self.bob, alloc, speaker.right, quota, call, found)
            }
        }
    }
}
