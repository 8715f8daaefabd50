//! Packets by handle. The library keeps handles alone; what they stand for lives here until the library lets go of it.

use super::super::packet::{Packet, PacketLocked};
use super::library::{Bundles, Groups, OutList, Table, Waiting};

#[derive(Debug)]
pub enum Kept {
    /// Received, for a bundle.
    In(PacketLocked),
    /// Sent, to be sent again.
    Out(Packet),
}

#[derive(Debug, Default)]
pub struct Pool {
    slots: Vec<Option<Kept>>,
    free: Vec<u32>,
    /// How many were held when it was last swept.
    held: usize,
}

impl Pool {
    /// How many packets are kept.
    pub fn count(&self) -> usize {
        self.slots.len() - self.free.len()
    }

    /// A handle that stands for nothing yet.
    pub fn reserve(&mut self) -> u32 {
        self.free.pop().unwrap_or_else(|| {
            self.slots.push(None);
            (self.slots.len() - 1) as u32
        })
    }

    pub fn put(&mut self, handle: u32, kept: Kept) {
        self.slots[handle as usize] = Some(kept);
    }

    pub fn get(&self, handle: u32) -> Option<&Kept> {
        self.slots.get(handle as usize)?.as_ref()
    }

    /// Takes a packet out, and its handle back.
    pub fn take(&mut self, handle: u32) -> Option<Kept> {
        let kept = self.slots.get_mut(handle as usize)?.take();
        self.free.push(handle);
        kept
    }

    /// The handles that stand for a packet.
    pub fn handles(&self) -> impl Iterator<Item = u32> + '_ {
        (0..self.slots.len() as u32).filter(|h| self.slots[*h as usize].is_some())
    }

    /// Lets go of packets that the library no longer holds. That is looked for when the pool has doubled, so that a call's share
    /// is small.
    pub fn tidy(&mut self, table: &Table) {
        if self.count() > 2 * self.held + 64 {
            self.sweep(table);
        }
    }

    pub fn sweep(&mut self, table: &Table) {
        let mut held = vec![false; self.slots.len()];
        each_held(table, |handle| {
            if let Some(held) = held.get_mut(handle as usize) {
                *held = true;
            }
        });
        for (i, held) in held.iter().enumerate() {
            if !held && self.slots[i].is_some() {
                self.take(i as u32);
            }
        }
        self.held = self.count();
    }
}

/// Every handle that a well-formed table holds, as `relay_holds` tells.
pub fn each_held(t: &Table, mut f: impl FnMut(u32)) {
    let mut lists = |out: &OutList, groups: &Groups, bundles: &Bundles| {
        let entries = &out.entries[..out.len as usize];
        entries.iter().filter(|e| e.held == 1).for_each(|e| f(e.handle));
        for g in &groups.groups[..groups.len as usize] {
            g.marks.iter().zip(&g.handles).filter(|(m, _)| **m == 1).for_each(|(_, h)| f(*h));
        }
        bundles.handles[..bundles.total as usize].iter().for_each(|h| f(*h));
    };
    t.offs[..t.offcount as usize].iter().for_each(|c| lists(&c.out, &c.groups, &c.bundles));
    t.ons[..t.oncount as usize].iter().for_each(|c| lists(&c.out, &c.groups, &c.bundles));
    let mut waiting = |w: &Waiting| w.packets[..w.len as usize].iter().for_each(|p| f(p.handle));
    for c in &t.ons[..t.oncount as usize] {
        waiting(&c.buffer);
        waiting(&c.queue);
    }
}
