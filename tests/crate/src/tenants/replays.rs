//! Many calls made at once, compared with the same calls one after another and with the plain store
//! of each tenant.
use crate::calls::frees;
use crate::checks::{holds_at, same, same_at};
use crate::tenants::dice::Dice;
use crate::tenants::house::{House, room_for};
use crate::tenants::walk::{TABLE, Tenant, five, name};
use judy_model::Reply;
use judy_tenants::Event;
use std::alloc::Global;
use std::process::Abort;
use std::test::Fail;

/// This many calls of these tenants, drawn from this seed.
fn drawn(
    alloc: Global,
    tenants: &[Tenant; 5],
    seed: u64,
    calls: usize,
) -> Result<Vec<Event<'static>>, Fail> {
    let mut events = room_for(alloc, calls)?;
    let mut dice = Dice::new(seed);
    for _ in 0..calls {
        let place = dice.roll(5) as usize;
        let (which, other) = (dice.roll(2), dice.roll(2));
        let call = dice.call(name(place, which)?, name(place, other)?)?;
        let speaker = tenants[place].any_speaker(&mut dice);
        events.push(Event { speaker, call })?;
    }
    Ok(events)
}

/// The calls that free each array of the tenant at this place.
fn leaves(events: &mut Vec<Event<'static>>, tenant: &Tenant, place: usize) -> Result<(), Fail> {
    let speaker = tenant.speaker;
    for call in frees(&name(place, 0)?) {
        events.push(Event { speaker, call })?;
    }
    for call in frees(&name(place, 1)?) {
        events.push(Event { speaker, call })?;
    }
    Ok(())
}

/// The calls that free each array of these tenants.
fn all_leave(alloc: Global, tenants: &[Tenant; 5]) -> Result<Vec<Event<'static>>, Fail> {
    let mut events = room_for(alloc, 40)?;
    for (place, tenant) in tenants.iter().enumerate() {
        leaves(&mut events, tenant, place)?;
    }
    Ok(events)
}

/// Two services of one table. In one, all calls are made at once; in the other, one after another.
#[derive(Drop)]
struct Pair {
    alloc: Global,
    at_once: House,
    in_turn: House,
    tenants: [Tenant; 5],
}

impl Pair {
    fn new(rt: &impl Abort, alloc: Global) -> Result<Pair, Fail> {
        let in_turn = House::new(rt, alloc, TABLE)?;
        Ok(Pair {
            alloc,
            at_once: House::new(rt, alloc, TABLE)?,
            tenants: five(alloc, &in_turn)?,
            in_turn,
        })
    }

    /// Checks that the replies are equal, and that the tenants then have the same. If a call that
    /// is made at once gets `ERR MEMORY`, the second service leaves it out: it has changed nothing.
    fn replay(&mut self, rt: &impl Abort, events: &[Event<'_>]) -> Result<(), Fail> {
        let before = self.at_once.refused();
        let replies = self.at_once.replay(rt, events)?;
        let mut memories: u128 = 0;
        for (event, reply) in events.iter().zip(replies.iter()) {
            if reply.reply() == Reply::Memory {
                memories = memories.saturating_add(1);
                continue;
            }
            let place = event.speaker.tenant.place() as usize;
            holds_at(rt, place < 5, "a tenant of another table");
            let Event { speaker, call } = event;
            let single = self.tenants[place].ask(rt, self.alloc, &mut self.in_turn, speaker, call)?;
            same_at(rt, reply.reply(), single.reply(), (call, "of", speaker));
        }
        same_at(
            rt,
            Some(self.at_once.refused()),
            before.checked_add(memories),
            "refusals",
        );
        self.compare(rt);
        Ok(())
    }

    /// Checks that both services have the same words, and that each tenant has the same numbers of
    /// entries and pieces in both.
    fn compare(&self, rt: &impl Abort) {
        same_at(
            rt,
            self.at_once.live_words(),
            self.in_turn.live_words(),
            "words",
        );
        for tenant in &self.tenants {
            tenant.compare(rt, &self.at_once);
        }
    }
}

/// This many calls, drawn from this seed. Then each array is freed.
fn replay(rt: &impl Abort, alloc: Global, seed: u64, calls: usize) -> Result<(), Fail> {
    let mut pair = Pair::new(rt, alloc)?;
    let events = drawn(alloc, &pair.tenants, seed, calls)?;
    pair.replay(rt, &events)?;
    holds_at(rt, pair.at_once.live_words() > 0, "every array is empty");
    let events = all_leave(alloc, &pair.tenants)?;
    pair.replay(rt, &events)?;
    same(rt, pair.at_once.live_words(), 0);
    Ok(())
}

#[test]
fn two_thousand_calls_at_once(rt: HostRuntime) -> Result<(), Fail> {
    replay(&rt, rt.alloc(), 3, 2_000)
}

/// A few calls, which are also made with each request for memory refused in turn.
#[test]
fn few_calls_at_once(rt: HostRuntime) -> Result<(), Fail> {
    replay(&rt, rt.alloc(), 4, 200)
}
