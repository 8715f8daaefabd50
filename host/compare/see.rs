//! Compares the original's private state with a table, copies it, and moves its numbers. This module is added at the end of the
//! original's text (`host/build`), whose own lines it leaves as they are.

use super::*;
use crate::Key;
use crate::library as lib;

macro_rules! must {
    ($is:expr, $what:expr) => {
        if !$is {
            return Err($what);
        }
    };
}

type Same = Result<(), &'static str>;

impl Protocol {
    fn off(&self, key: Key) -> Option<&OffChannelData> {
        match key {
            Key::Off(addr) => self.off_channels.get(&addr).map(|c| &c.off),
            Key::On(addr, index) => self.channels.get(&(addr, index)).map(|c| &c.off),
        }
    }

    fn off_mut(&mut self, key: Key) -> Option<&mut OffChannelData> {
        match key {
            Key::Off(addr) => self.off_channels.get_mut(&addr).map(|c| &mut c.off),
            Key::On(addr, index) => self.channels.get_mut(&(addr, index)).map(|c| &mut c.off),
        }
    }

    pub fn has(&self, key: Key) -> bool {
        self.off(key).is_some()
    }

    /// The stored version and the expected number, 0 where there is none.
    pub fn view(&self, key: Key) -> Option<(u32, u32)> {
        match key {
            Key::Off(_) => self.off(key).map(|_| (0, 0)),
            Key::On(addr, index) => self.channels.get(&(addr, index)).map(|c| {
                let version = c.on.index.map_or(0, |i| i.version.get());
                (version, c.on.in_reliable_expected_seq.get())
            }),
        }
    }

    /// The length of the next bundle.
    pub fn next_length(&self, key: Key) -> Option<usize> {
        self.off(key)?.in_bundles.front().map(|b| b.len())
    }

    /// How many packets wait for an ack.
    pub fn out_length(&self, key: Key) -> usize {
        self.off(key).map_or(0, |off| off.out_reliable_packets.len())
    }

    pub fn has_group(&self, key: Key, first: Seq) -> bool {
        self.off(key).is_some_and(|off| off.in_fragments.contains_key(&first))
    }

    pub fn acks(&self, key: Key) -> Option<&VecDeque<Seq>> {
        self.off(key).map(|off| &off.in_reliable_packets)
    }

    /// Takes numbers out of an ack queue, each at its earliest place. True if all were there.
    pub fn take_acks(&mut self, key: Key, names: &[Seq]) -> bool {
        let Some(off) = self.off_mut(key) else { return false };
        let mut acks = off.in_reliable_packets.clone();
        for name in names {
            let Some(place) = acks.iter().position(|ack| ack == name) else { return false };
            acks.remove(place);
        }
        off.in_reliable_packets = acks;
        true
    }

    /// Whether a packet with this handle is kept anywhere.
    pub fn holds(&self, handle: u32) -> bool {
        let is = |packet: &Packet| packet.handle == handle;
        let offs = self.off_channels.values().map(|c| &c.off);
        let mut all = offs.chain(self.channels.values().map(|c| &c.off));
        all.any(|off| {
            let mut out = off.out_reliable_packets.iter();
            let mut groups = off.in_fragments.values();
            out.any(|p| p.packet.as_ref().is_some_and(is))
                || groups.any(|g| g.fragments.iter().flatten().any(|p| is(p.packet())))
                || off.in_bundles.iter().any(|b| b.iter().any(is))
        }) || self.channels.values().any(|c| {
            let waiting = c.on.in_reliable_packets.iter();
            waiting.chain(&c.on.in_reliable_contiguous_packets).any(|p| is(p.packet()))
        })
    }

    /// Moves the sources and a channel's expected number to where a long history would have brought them.
    pub fn set_numbers(&mut self, shared: Seq, key: Key, source: Seq, expected: Seq) {
        self.shared.off_seq_alloc = SeqAlloc::new(shared);
        if let Key::On(addr, index) = key {
            let on = &mut self.channels.get_mut(&(addr, index)).expect("a channel").on;
            on.seq_alloc = SeqAlloc::new(source);
            on.in_reliable_expected_seq = expected;
        }
    }

    /// The same state once more. `alloc(0)` tells a source's next number, and leaves it.
    pub fn copy(&mut self) -> Protocol {
        let on = |c: &mut OnChannel| OnChannel {
            off: c.off.copy(),
            on: OnChannelData {
                index: c.on.index,
                seq_alloc: SeqAlloc::new(c.on.seq_alloc.alloc(0)),
                in_reliable_expected_seq: c.on.in_reliable_expected_seq,
                in_reliable_contiguous_packets: c.on.in_reliable_contiguous_packets.iter().map(again).collect(),
                in_reliable_packets: c.on.in_reliable_packets.iter().map(again).collect(),
            },
        };
        Protocol {
            shared: ProtocolShared {
                off_seq_alloc: SeqAlloc::new(self.shared.off_seq_alloc.alloc(0)),
                last_accepted_prefix: self.shared.last_accepted_prefix,
                prefix_offset: self.shared.prefix_offset,
                follows_accepted: self.shared.follows_accepted,
            },
            off_channels: self.off_channels.iter().map(|(&k, c)| (k, OffChannel { off: c.off.copy() })).collect(),
            channels: self.channels.iter_mut().map(|(&k, c)| (k, on(c))).collect(),
        }
    }

    /// Whether a packet with a range waits anywhere: a run that the original panics at may come.
    pub fn ranged_waits(&self) -> bool {
        self.channels.values().any(|c| {
            let waiting = c.on.in_reliable_packets.iter().chain(&c.on.in_reliable_contiguous_packets);
            waiting.into_iter().any(|p| p.config().sequence_range().is_some())
        })
    }

    /// After the original panicked at a run with a packet of no range in it: the run is dropped, as the port drops it, and then goes
    /// on what was going on, the making of bundles. It may panic again.
    pub fn drop_run(&mut self, key: Key) {
        let Key::On(addr, index) = key else { unreachable!("runs wait on on-channels") };
        let c = self.channels.get_mut(&(addr, index)).expect("the channel of the record");
        let range = c.on.in_reliable_contiguous_packets.front().and_then(|p| p.config().sequence_range());
        let (first, last) = range.expect("the first of a run");
        c.on.in_reliable_contiguous_packets.drain(..(last - first + 1) as usize);
        while let Some(bundle) = c.on.pop_in_reliable_bundle() {
            c.off.in_bundles.push_back(bundle);
        }
    }

    /// The limits that this state is over, by their place in `Play::past`.
    pub fn over(&self) -> Vec<usize> {
        let mut over = Vec::new();
        let mut test = |limit, is| {
            if is && !over.contains(&limit) {
                over.push(limit);
            }
        };
        test(0, self.off_channels.len() > lib::OFF_CHANNELS);
        test(1, self.channels.len() > lib::ON_CHANNELS);
        let offs = self.off_channels.values().map(|c| &c.off);
        for off in offs.chain(self.channels.values().map(|c| &c.off)) {
            test(2, off.out_reliable_packets.len() > lib::OUT_ENTRIES);
            test(3, off.in_reliable_packets.len() > lib::ACKS);
            test(6, off.in_fragments.len() > lib::GROUPS);
            test(7, off.in_fragments.values().any(|g| g.fragments.len() > lib::PLACES));
            test(8, off.in_bundles.len() > lib::BUNDLES);
            test(9, off.in_bundles.iter().map(|b| b.len()).sum::<usize>() > lib::BUNDLE_HANDLES);
        }
        for c in self.channels.values() {
            test(4, c.on.in_reliable_packets.len() > lib::WAITING);
            test(5, c.on.in_reliable_contiguous_packets.len() > lib::WAITING);
        }
        over
    }

    /// Whether a table holds this state, and nothing else. `order` has the keys in order of creation, by kind. Where a channel's
    /// bytes are those of `before`, its unused places are not looked at again. `one`: no more than one record lies between the two, so
    /// that the order of groups can be told.
    pub fn same(&mut self, t: &lib::Table, before: &lib::Table, offs: &[Key], ons: &[Key], one: bool) -> Same {
        must!(t.forwarding == u32::from(self.shared.follows_accepted), "forwarding");
        must!(t.offcount as usize <= lib::OFF_CHANNELS && t.oncount as usize <= lib::ON_CHANNELS, "channels over their limit");
        must!(t.prefix == self.shared.last_accepted_prefix, "last prefix");
        must!(t.offset == self.shared.prefix_offset, "prefix offset");
        must!(t.source == self.shared.off_seq_alloc.alloc(0).get(), "shared source");
        must!(t.offcount as usize == self.off_channels.len() && offs.len() == self.off_channels.len(), "count of off-channels");
        must!(t.oncount as usize == self.channels.len() && ons.len() == self.channels.len(), "count of on-channels");
        for (i, c) in t.offs.iter().enumerate() {
            let Some(&key) = offs.get(i) else {
                must!(crate::same_bytes(c, &before.offs[i]) || *c == lib::OffChannel::ZERO, "unused off-channel");
                continue;
            };
            let Key::Off(addr) = key else { return Err("kind") };
            must!(c.address == crate::shown(&addr), "order of off-channels");
            let off = &self.off_channels.get(&addr).ok_or("off-channel")?.off;
            off.same(&c.out, &c.acks, &c.groups, &c.bundles)?;
            if !crate::same_bytes(c, &before.offs[i]) {
                spare(&c.out, &c.acks, &c.groups, &c.bundles)?;
                must!(!one || groups_in_order(&before.offs[i].groups, &c.groups), "order of groups");
            }
        }
        for (i, c) in t.ons.iter().enumerate() {
            let Some(&key) = ons.get(i) else {
                must!(crate::same_bytes(c, &before.ons[i]) || *c == lib::OnChannel::ZERO, "unused on-channel");
                continue;
            };
            let Key::On(addr, index) = key else { return Err("kind") };
            must!(c.address == crate::shown(&addr) && c.index == index.map_or(0, |i| i.get()), "order of on-channels");
            let channel = self.channels.get_mut(&(addr, index)).ok_or("on-channel")?;
            channel.off.same(&c.out, &c.acks, &c.groups, &c.bundles)?;
            let on = &mut channel.on;
            must!(c.version == on.index.map_or(0, |i| i.version.get()), "version");
            must!(c.expected == on.in_reliable_expected_seq.get(), "expected number");
            must!(c.source == on.seq_alloc.alloc(0).get(), "a channel's source");
            must!(waiting(&c.buffer, &on.in_reliable_packets), "buffer");
            must!(waiting(&c.queue, &on.in_reliable_contiguous_packets), "contiguous queue");
            if !crate::same_bytes(c, &before.ons[i]) {
                spare(&c.out, &c.acks, &c.groups, &c.bundles)?;
                must!(!one || groups_in_order(&before.ons[i].groups, &c.groups), "order of groups");
                let unused = |w: &lib::Waiting| w.packets[w.len as usize..].iter().all(|p| *p == lib::Packet::ZERO);
                must!(unused(&c.buffer) && unused(&c.queue), "unused places of a queue");
            }
        }
        Ok(())
    }
}

fn again(packet: &PacketLocked) -> PacketLocked {
    packet.packet().clone().read_config_locked().ok().expect("a stand-in can be read")
}

fn waiting(w: &lib::Waiting, packets: &VecDeque<PacketLocked>) -> bool {
    w.len as usize == packets.len()
        && packets.len() <= lib::WAITING
        && w.packets.iter().zip(packets).all(|(p, q)| {
            let range = q.config().sequence_range();
            let ranged = match range {
                None => (0, 0, 0),
                Some((first, last)) => (1, first.get(), last.get()),
            };
            p.number == q.config().sequence_num().get() && p.handle == q.packet().handle && (p.ranged, p.first, p.last) == ranged
        })
}

/// What is not in use is zero.
fn spare(out: &lib::OutList, acks: &lib::AckQueue, groups: &lib::Groups, bundles: &lib::Bundles) -> Same {
    must!(out.entries[out.len as usize..].iter().all(|e| *e == lib::OutEntry::ZERO), "unused out entries");
    must!(acks.numbers[acks.len as usize..].iter().all(|n| *n == 0), "unused acks");
    must!(groups.groups[groups.len as usize..].iter().all(|g| *g == lib::Fragments::ZERO), "unused groups");
    must!(bundles.lengths[bundles.len as usize..].iter().all(|n| *n == 0), "unused bundles");
    must!(bundles.handles[bundles.total as usize..].iter().all(|n| *n == 0), "unused handles");
    for g in &groups.groups[..groups.len as usize] {
        must!(g.marks[g.len as usize..].iter().all(|n| *n == 0), "unused marks");
        must!(g.marks.iter().zip(&g.handles).all(|(m, h)| *m == 1 || (*m == 0 && *h == 0)), "handles of empty places");
    }
    Ok(())
}

/// Groups stand in order of creation: those that were there, less what was removed, then new ones.
fn groups_in_order(before: &lib::Groups, after: &lib::Groups) -> bool {
    let firsts = |g: &lib::Groups| g.groups[..(g.len as usize).min(lib::GROUPS)].iter().map(|g| g.first).collect::<Vec<_>>();
    let (before, after) = (firsts(before), firsts(after));
    let kept: Vec<u32> = before.iter().copied().filter(|f| after.contains(f)).collect();
    after.starts_with(&kept)
}

impl OffChannelData {
    fn copy(&self) -> Self {
        let entry = |p: &OutReliablePacket| OutReliablePacket {
            sequence_num: p.sequence_num,
            time: p.time,
            packet: p.packet.clone(),
            sent: p.sent,
        };
        let group = |g: &Fragments| Fragments {
            fragments: g.fragments.iter().map(|p| p.as_ref().map(again)).collect(),
            seq_count: g.seq_count,
            last_update: g.last_update,
        };
        let bundle = |b: &Bundle| Bundle { packets: b.packets.clone(), ..Bundle::default() };
        Self {
            out_reliable_packets: self.out_reliable_packets.iter().map(entry).collect(),
            in_reliable_packets: self.in_reliable_packets.clone(),
            in_fragments: self.in_fragments.iter().map(|(&first, g)| (first, group(g))).collect(),
            in_bundles: self.in_bundles.iter().map(bundle).collect(),
        }
    }

    fn same(&self, out: &lib::OutList, acks: &lib::AckQueue, groups: &lib::Groups, bundles: &lib::Bundles) -> Same {
        let within = |len: u32, limit: usize| len as usize <= limit;
        must!(
            within(out.len, lib::OUT_ENTRIES) && within(acks.len, lib::ACKS) && within(groups.len, lib::GROUPS),
            "a list over its limit"
        );
        must!(within(bundles.len, lib::BUNDLES) && within(bundles.total, lib::BUNDLE_HANDLES), "bundles over their limit");
        must!(groups.groups.iter().all(|g| within(g.len, lib::PLACES)), "a group over its limit");
        must!(out.len as usize == self.out_reliable_packets.len(), "length of the out list");
        for (e, p) in out.entries.iter().zip(&self.out_reliable_packets) {
            let handle = p.packet.as_ref().map_or((0, 0), |p| (1, p.handle));
            must!(e.number == p.sequence_num.get() && (e.held, e.handle) == handle, "out entry");
            must!(e.time == p.time.0 && e.sent == p.sent.0, "times of an out entry");
        }
        must!(acks.len as usize == self.in_reliable_packets.len(), "length of the ack queue");
        must!(acks.numbers.iter().zip(&self.in_reliable_packets).all(|(a, b)| *a == b.get()), "ack queue");
        must!(groups.len as usize == self.in_fragments.len(), "count of groups");
        for g in &groups.groups[..groups.len as usize] {
            let group = self.in_fragments.get(&Seq::new(g.first).ok_or("first number")?).ok_or("group")?;
            must!(g.updated == group.last_update.0 && g.count == group.seq_count, "group's last update and count");
            must!(g.len as usize == group.fragments.len(), "group's length");
            for (i, p) in group.fragments.iter().enumerate() {
                let place = p.as_ref().map_or((0, 0), |p| (1, p.packet().handle));
                must!((g.marks[i], g.handles[i]) == place, "place of a group");
            }
        }
        must!(bundles.len as usize == self.in_bundles.len(), "count of bundles");
        let mut at = 0;
        for (len, bundle) in bundles.lengths.iter().zip(&self.in_bundles) {
            must!(*len as usize == bundle.len(), "length of a bundle");
            must!(bundle.iter().enumerate().all(|(i, p)| bundles.handles[at + i] == p.handle), "handles of a bundle");
            at += bundle.len();
        }
        must!(bundles.total as usize == at, "handles in all");
        Ok(())
    }
}
