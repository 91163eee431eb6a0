//! A walk of mixed calls by five tenants. Each call is compared with the plain store of its tenant.

use crate::calls::frees;
use crate::checks::{holds_at, same, same_at};
use crate::tenants::dice::Dice;
use crate::tenants::house::House;
use judy_model::{Call, Name, OwnedReply, Quota, ReplyRoom, Right};
use judy_reference::Store;
use judy_tenants::Speaker;
use std::alloc::{AllocError, Global};
use std::process::Abort;
use std::test::Fail;

/// Five tenants. The third has a read-only token.
pub(crate) const TABLE: &str = r#"
[ann]
sha256 = "ba7816bf8f01cfea414140de5dae2223b00361a396177a9cb410ff61f20015ad"
quota = 4
[ben]
sha256 = "8ed3f6ad685b959ead7022518e1af76cd816f8e8ec7ccdda1ed4018e8f2223f8"
quota = 12
pieces = 15
[cat]
sha256 = "f44e64e75f3948e9f73f8dfa94721c4ce8cbb4f265c4790c702b2d41cfbf2753"
read_sha256 = "2cf24dba5fb0a30e26e83b2ac5b9e29e1b161e5c1fa7425e73043362938b9824"
quota = 30
[dan]
sha256 = "be9d587defa1f0c09ef49eb17e206983a5f8f8289e4281860bd0ee5a19592c67"
quota = 60
pieces = 40
[eve]
sha256 = "4f4a9410ffcdf895c4adb880659e9b5c0dd1f23a30790684340b3eaacb045398"
quota = 0
pieces = 7
"#;

/// A tenant, its speakers, and the plain store with the same contents.
#[derive(Drop)]
pub(crate) struct Tenant {
    pub(crate) speaker: Speaker,
    looker: Option<Speaker>,
    quota: Quota,
    store: Box<Store>,
}

impl Tenant {
    /// A tenant of the table, which has no entry.
    fn new(
        alloc: Global,
        house: &House,
        name: &str,
        token: &str,
        entries: u64,
        pieces: u64,
    ) -> Result<Tenant, Fail> {
        Ok(Tenant {
            speaker: house.speaker(name, token)?,
            looker: house.login(name, "hello"),
            quota: Quota { entries, pieces },
            store: Box::new(alloc, Store::new(alloc))?,
        })
    }

    /// The reply of the plain store.
    fn try_answer(
        &mut self,
        alloc: Global,
        right: Right,
        call: &Call<'_>,
    ) -> Result<OwnedReply, AllocError> {
        let mut found = ReplyRoom::new();
        let reply = self.store.step(alloc, right, self.quota, call, &mut found)?;
        Ok(OwnedReply::of(&reply))
    }

    /// The reply of the plain store. At most one request for memory is refused.
    fn answer(
        &mut self,
        alloc: Global,
        right: Right,
        call: &Call<'_>,
    ) -> Result<OwnedReply, AllocError> {
        match self.try_answer(alloc, right, call) {
            Ok(reply) => Ok(reply),
            Err(_) => self.try_answer(alloc, right, call),
        }
    }

    /// Calls the service and the plain store, and compares the replies and what the tenant has.
    /// Returns the reply of both.
    pub(crate) fn ask(
        &mut self,
        rt: &impl Abort,
        alloc: Global,
        house: &mut House,
        speaker: &Speaker,
        call: &Call<'_>,
    ) -> Result<OwnedReply, Fail> {
        let want = self.answer(alloc, speaker.right, call)?;
        let reply = house.ask(rt, speaker, call);
        same_at(rt, reply.reply(), want.reply(), (call, "of", speaker));
        self.compare(rt, house);
        Ok(reply)
    }

    /// Checks that the service and the plain store have the same numbers of entries and pieces.
    pub(crate) fn compare(&self, rt: &impl Abort, house: &House) {
        same_at(
            rt,
            house.used(rt, &self.speaker),
            self.store.used(),
            "entries",
        );
        same_at(
            rt,
            house.pieces(rt, &self.speaker),
            self.store.pieces(),
            "pieces",
        );
    }

    /// The speaker: now and then the read-only one, if there is such a token.
    pub(crate) fn any_speaker(&self, dice: &mut Dice) -> Speaker {
        if dice.roll(3) > 0 {
            return self.speaker;
        }
        self.looker.unwrap_or(self.speaker)
    }

    /// Frees the arrays of this name.
    fn free(
        &mut self,
        rt: &impl Abort,
        alloc: Global,
        house: &mut House,
        name: &Name,
    ) -> Result<(), Fail> {
        let speaker = self.speaker;
        for call in frees(name) {
            let _count = self.ask(rt, alloc, house, &speaker, &call)?;
        }
        Ok(())
    }
}

/// The names of a tenant's arrays. The first two tenants use the same names.
pub(crate) fn name(place: usize, which: u64) -> Result<Name, Fail> {
    let text: &[u8] = match (place, which) {
        (0 | 1, 0) => b"a",
        (0 | 1, _) => b"b",
        (2, 0) => b"c",
        (2, _) => b"0123456789abcdefghijklmnopqrst-.",
        (3, 0) => b"d",
        (3, _) => b"e",
        (_, 0) => b"f",
        (_, _) => b"g",
    };
    Ok(Name::read(text).ok_or("a name")?)
}

/// Checks that the words of all arrays are few for the pieces of all tenants.
fn compare_words(rt: &impl Abort, house: &House, tenants: &[Tenant]) {
    let mut pieces: u128 = 0;
    for tenant in tenants {
        tenant.compare(rt, house);
        pieces = pieces.saturating_add(u128::from(tenant.store.pieces()));
    }
    holds_at(
        rt,
        u128::from(house.live_words()) <= pieces.saturating_mul(16),
        "words",
    );
}

/// The five tenants of the table, which have no entry.
pub(crate) fn five(alloc: Global, house: &House) -> Result<[Tenant; 5], Fail> {
    let ann = Tenant::new(alloc, house, "ann", "abc", 4, 504)?;
    let ben = Tenant::new(alloc, house, "ben", "alpha", 12, 15)?;
    let cat = Tenant::new(alloc, house, "cat", "beta", 30, 3_780)?;
    let dan = Tenant::new(alloc, house, "dan", "gamma", 60, 40)?;
    let eve = Tenant::new(alloc, house, "eve", "delta", 0, 7)?;
    Ok([ann, ben, cat, dan, eve])
}

/// One call of one of the tenants.
fn step(
    rt: &impl Abort,
    alloc: Global,
    house: &mut House,
    tenants: &mut [Tenant; 5],
    dice: &mut Dice,
) -> Result<(), Fail> {
    let place = dice.roll(5) as usize;
    let (which, other) = (dice.roll(2), dice.roll(2));
    let call = dice.call(name(place, which)?, name(place, other)?)?;
    let tenant = &mut tenants[place];
    let speaker = tenant.any_speaker(dice);
    let _reply = tenant.ask(rt, alloc, house, &speaker, &call)?;
    Ok(())
}

/// Frees a tenant's arrays, and checks that it then has nothing.
fn leave(
    rt: &impl Abort,
    alloc: Global,
    house: &mut House,
    tenants: &mut [Tenant; 5],
    place: usize,
) -> Result<(), Fail> {
    let tenant = &mut tenants[place];
    tenant.free(rt, alloc, house, &name(place, 0)?)?;
    tenant.free(rt, alloc, house, &name(place, 1)?)?;
    same(rt, tenant.store.used(), 0);
    Ok(())
}

/// This many calls, drawn from this seed. Then each array is freed.
fn walk(rt: &impl Abort, alloc: Global, seed: u64, calls: u32) -> Result<(), Fail> {
    let mut house = House::new(rt, alloc, TABLE)?;
    let mut tenants = five(alloc, &house)?;
    let mut dice = Dice::new(seed);
    for _ in 0..calls {
        step(rt, alloc, &mut house, &mut tenants, &mut dice)?;
        compare_words(rt, &house, &tenants);
    }
    for place in 0..5usize {
        leave(rt, alloc, &mut house, &mut tenants, place)?;
    }
    compare_words(rt, &house, &tenants);
    same(rt, house.live_words(), 0);
    Ok(())
}

#[test]
fn twenty_thousand_calls(rt: HostRuntime) -> Result<(), Fail> {
    walk(&rt, rt.alloc(), 1, 20_000)
}

/// A few calls, which are also made with each request for memory refused in turn.
#[test]
fn a_short_walk(rt: HostRuntime) -> Result<(), Fail> {
    walk(&rt, rt.alloc(), 2, 300)
}
