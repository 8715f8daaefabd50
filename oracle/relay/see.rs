//! What the comparison sees of the original's private fields, and the one thing it changes there. This module is added at the
//! end of the original's text (`oracle/build`), whose own lines it leaves as they are.

use std::fmt::Write;

use super::*;
use crate::Key;

impl Protocol {
    fn off(&self, key: Key) -> Option<&OffChannelData> {
        match key {
            Key::Off(addr) => self.off_channels.get(&addr).map(|c| &c.off),
            Key::On(addr, index) => self.channels.get(&(addr, index)).map(|c| &c.off),
        }
    }

    /// Every channel, sorted: the original's own order is that of a hash map.
    fn keys(&self) -> Vec<Key> {
        let offs = self.off_channels.keys().map(|&addr| Key::Off(addr));
        let ons = self
            .channels
            .keys()
            .map(|&(addr, index)| Key::On(addr, index));
        let mut keys: Vec<Key> = offs.chain(ons).collect();
        keys.sort();
        keys
    }

    /// The stored version, if the channel is indexed, and the expected number, if it is one on-channel.
    pub fn view(&self, key: Key) -> Option<(Option<u32>, Option<Seq>)> {
        match key {
            Key::Off(_) => self.off(key).map(|_| (None, None)),
            Key::On(addr, index) => self.channels.get(&(addr, index)).map(|c| {
                let version = c.on.index.map(|i| i.version.get());
                (version, Some(c.on.in_reliable_expected_seq))
            }),
        }
    }

    /// The ack queue of a channel.
    pub fn acks(&self, key: Key) -> Option<&VecDeque<Seq>> {
        self.off(key).map(|off| &off.in_reliable_packets)
    }

    /// Takes numbers out of an ack queue, each at its earliest place. True if all were there.
    pub fn take_acks(&mut self, key: Key, names: &[Seq]) -> bool {
        let off = match key {
            Key::Off(addr) => self.off_channels.get_mut(&addr).map(|c| &mut c.off),
            Key::On(addr, index) => self.channels.get_mut(&(addr, index)).map(|c| &mut c.off),
        };
        let Some(off) = off else { return false };
        let mut acks = off.in_reliable_packets.clone();
        for name in names {
            let Some(place) = acks.iter().position(|ack| ack == name) else {
                return false;
            };
            acks.remove(place);
        }
        off.in_reliable_packets = acks;
        true
    }

    /// Whether a packet with this handle is kept anywhere.
    pub fn holds(&self, handle: u32) -> bool {
        let is = |packet: &Packet| packet.handle == handle;
        let offs = self.off_channels.values().map(|c| &c.off);
        offs.chain(self.channels.values().map(|c| &c.off))
            .any(|off| {
                let mut out = off.out_reliable_packets.iter();
                let mut groups = off.in_fragments.values();
                out.any(|p| p.packet.as_ref().is_some_and(is))
                    || groups.any(|g| g.fragments.iter().flatten().any(|p| is(p.packet())))
                    || off.in_bundles.iter().any(|b| b.iter().any(is))
            })
            || self.channels.values().any(|c| {
                let waiting = c.on.in_reliable_packets.iter();
                waiting
                    .chain(&c.on.in_reliable_contiguous_packets)
                    .any(|p| is(p.packet()))
            })
    }

    /// The whole state, in one line.
    pub fn dump(&self) -> String {
        let shared = &self.shared;
        let mut text = format!(
            "dump prefix {} offset {} shared {}",
            shared.last_accepted_prefix,
            shared.prefix_offset,
            shared.off_seq_alloc_next()
        );
        for key in self.keys() {
            write!(text, " | {key}").unwrap();
            if let Key::On(addr, index) = key {
                let on = &self.channels[&(addr, index)].on;
                let version = on.index.map_or("-".into(), |i| i.version.to_string());
                let (next, expected) = (next(&on.seq_alloc), on.in_reliable_expected_seq);
                write!(text, " version {version} next {next} expected {expected}").unwrap();
                write!(text, " buffer{}", waiting(&on.in_reliable_packets)).unwrap();
                let queue = waiting(&on.in_reliable_contiguous_packets);
                write!(text, " queue{queue}").unwrap();
            }
            text += &self.off(key).unwrap().dump();
        }
        text
    }
}

impl ProtocolShared {
    fn off_seq_alloc_next(&self) -> Seq {
        next(&self.off_seq_alloc)
    }
}

/// The next number of a source. Its field is private to another module of the original, but it derives Debug.
fn next(source: &SeqAlloc) -> Seq {
    let text = format!("{source:?}");
    let digits: String = text.chars().filter(char::is_ascii_digit).collect();
    Seq::new(digits.parse().unwrap()).unwrap()
}

fn waiting(packets: &VecDeque<PacketLocked>) -> String {
    let shown = |p: &PacketLocked| {
        let range = p.config().sequence_range();
        let range = range.map_or("-".into(), |(first, last)| format!("{first}..{last}"));
        format!(
            " {},{},{range}",
            p.config().sequence_num(),
            p.packet().handle
        )
    };
    packets.iter().map(shown).collect()
}

impl OffChannelData {
    fn dump(&self) -> String {
        let mut text = " out".to_string();
        for p in &self.out_reliable_packets {
            let handle = p
                .packet
                .as_ref()
                .map_or("-".into(), |p| p.handle.to_string());
            write!(
                text,
                " {},{handle},{},{}",
                p.sequence_num, p.time.0, p.sent.0
            )
            .unwrap();
        }
        text += " acks";
        for ack in &self.in_reliable_packets {
            write!(text, " {ack}").unwrap();
        }
        text += " groups";
        let mut groups: Vec<_> = self.in_fragments.iter().collect();
        groups.sort_by_key(|(first, _)| first.get());
        for (first, group) in groups {
            write!(
                text,
                " {first},{},{}:",
                group.last_update.0, group.seq_count
            )
            .unwrap();
            let places: Vec<String> = group
                .fragments
                .iter()
                .map(|p| {
                    p.as_ref()
                        .map_or("-".into(), |p| p.packet().handle.to_string())
                })
                .collect();
            text += &places.join(".");
        }
        text += " bundles";
        for bundle in &self.in_bundles {
            let handles: Vec<String> = bundle.iter().map(|p| p.handle.to_string()).collect();
            write!(text, " {}", handles.join(".")).unwrap();
        }
        text
    }
}
