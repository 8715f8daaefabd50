//! The host's side held to the original: the same packets and bundles are put to both, over the same `packet.rs` and `bundle.rs`.

use std::io::{self, Read, Write};
use std::net::SocketAddr;
use std::num::NonZero;
use std::time::Duration;

use crate::net::bundle::Bundle;
use crate::net::element::{Element, ElementLength};
use crate::net::original;
use crate::net::packet::{Packet, PacketConfig, flags};
use crate::net::proto::{Protocol, Refusal, Why, library, pool};
use crate::net::seq::Seq;

/// Bytes.
struct Blob(Vec<u8>);

impl Element<()> for Blob {
    fn write_length(&self, _: &()) -> io::Result<ElementLength> {
        Ok(ElementLength::Variable16)
    }
    fn write(&self, write: &mut dyn Write, _: &()) -> io::Result<u8> {
        write.write_all(&self.0).map(|()| 1)
    }
    fn read_length(_: &(), _: u8) -> io::Result<ElementLength> {
        Ok(ElementLength::Variable16)
    }
    fn read(read: &mut dyn Read, _: &(), _: usize, _: u8) -> io::Result<Self> {
        let mut bytes = Vec::new();
        read.read_to_end(&mut bytes).map(|_| Self(bytes))
    }
}

struct Random(u64);

impl Random {
    fn below(&mut self, n: u64) -> u64 {
        self.0 = self.0.wrapping_mul(6_364_136_223_846_793_005).wrapping_add(1_442_695_040_888_963_407);
        (self.0 >> 33) % n
    }
}

fn addr(n: u16) -> SocketAddr {
    ([127, 0, 0, 1], n).into()
}

fn blob(seed: u8, len: usize) -> Bundle {
    let mut bundle = Bundle::new();
    let bytes = (0..len).map(|i| seed.wrapping_add(i as u8)).collect();
    bundle.element_writer().write_simple(Blob(bytes)).expect("it fits");
    bundle
}

fn bytes(bundle: &Bundle) -> Vec<Vec<u8>> {
    bundle.iter().map(|p| p.slice().to_vec()).collect()
}

/// A packet with a configuration, as a peer writes it.
fn packet(set: impl FnOnce(&mut PacketConfig)) -> Packet {
    let mut config = PacketConfig::new();
    set(&mut config);
    let mut packet = Packet::new();
    packet.write_config(&mut config);
    packet
}

fn reliable(number: u32) -> Packet {
    packet(|c| {
        c.set_on_channel(true);
        c.set_reliable(true);
        c.set_sequence_num(Seq::new(number).expect("legal"));
    })
}

/// Packets behind a carrier, as the game writes them: without their prefix, and the first one written with its length inverted.
fn carrying(mut carrier: Packet, piggybacks: &[Packet]) -> Packet {
    for (i, p) in piggybacks.iter().rev().enumerate() {
        let body = &p.slice()[4..];
        carrier.grow(body.len()).copy_from_slice(body);
        let len = body.len() as i16;
        carrier.grow(2).copy_from_slice(&(if i == 0 { !len } else { len }).to_le_bytes());
    }
    carrier.write_flags(carrier.read_flags() | flags::HAS_PIGGYBACKS);
    carrier
}

fn added(why: &Why) -> bool {
    why.refusal().is_some_and(|r| !r.is_original())
}

/// One end, ours and the original side by side, against a peer that is the original.
struct Both {
    ours: Protocol,
    theirs: original::Protocol,
    withheld: usize,
    accepted: usize,
    bundles: usize,
    sent: usize,
}

impl Both {
    fn new() -> Self {
        Self { ours: Protocol::new(), theirs: original::Protocol::new(), withheld: 0, accepted: 0, bundles: 0, sent: 0 }
    }

    fn accept(&mut self, packet: &Packet, from: SocketAddr) {
        let ours = self.ours.accept(packet.clone(), from);
        let ours = match ours {
            Err(rejected) if added(&rejected.why) => {
                self.withheld += 1;
                assert_eq!(rejected.packet.slice(), packet.slice());
                return;
            }
            Err(rejected) => Err(rejected.packet.slice().to_vec()),
            Ok(mut channel) => {
                let key = (channel.is_on(), channel.index().map(|i| (i.index, i.version)));
                Ok((key, channel.pop_bundles().map(|b| bytes(&b)).collect::<Vec<_>>()))
            }
        };
        let theirs = self.theirs.accept(packet.clone(), from);
        let theirs = match theirs {
            Err(packet) => Err(packet.slice().to_vec()),
            Ok(mut channel) => {
                let key = (channel.is_on(), channel.index().map(|i| (i.index, i.version)));
                Ok((key, channel.pop_bundles().map(|b| bytes(&b)).collect::<Vec<_>>()))
            }
        };
        assert_eq!(ours, theirs);
        assert_eq!(self.ours.last_accepted_prefix(), self.theirs.last_accepted_prefix());
        self.accepted += usize::from(ours.is_ok());
        self.bundles += ours.map_or(0, |(_, bundles)| bundles.len());
    }

    /// Sends the same bundle from both. None if ours is refused.
    fn send(
        &mut self,
        to: SocketAddr,
        key: Option<Option<NonZero<u32>>>,
        seed: u8,
        len: usize,
        reliable: bool,
    ) -> Option<Vec<Packet>> {
        let (mut a, mut b) = (blob(seed, len), blob(seed, len));
        let ours = match key {
            None => self.ours.off_channel(to),
            Some(index) => self.ours.channel(to, index),
        };
        let prepared = ours.map_err(Why::Refused).and_then(|mut c| c.prepare(&mut a, reliable));
        if let Err(why) = prepared {
            assert!(added(&why), "{why}");
            assert_eq!(bytes(&a), bytes(&b), "a refused bundle is as it was");
            self.withheld += 1;
            return None;
        }
        match key {
            None => self.theirs.off_channel(to).prepare(&mut b, reliable),
            Some(index) => self.theirs.channel(to, index).prepare(&mut b, reliable),
        }
        assert_eq!(bytes(&a), bytes(&b));
        self.sent += a.len();
        Some(a.into_iter().collect())
    }

    fn resends(&mut self) {
        let sorted = |packets: Vec<(SocketAddr, Packet)>| {
            let mut rows: Vec<_> = packets.into_iter().map(|(a, p)| (a, p.slice().to_vec())).collect();
            rows.sort();
            rows
        };
        let forever = Duration::from_secs(1_000_000);
        let ours = sorted(self.ours.take_resends(Duration::ZERO, forever));
        assert_eq!(ours, sorted(self.theirs.take_resends(Duration::ZERO, forever)));
    }

    /// The pool has every packet that the library holds, and its own account of them is the library's.
    fn pool(&self) {
        let table = self.ours.table();
        let mut held = Vec::new();
        pool::each_held(table, |h| held.push(h));
        assert!(held.len() <= self.ours.kept_packets());
        for handle in 0..4_000 {
            assert_eq!(library::holds(table, handle), Ok(held.contains(&handle)));
        }
    }
}

#[test]
fn random_traffic_is_the_original_s_byte_for_byte() {
    let (mut accepted, mut bundles, mut sent, mut withheld) = (0, 0, 0, 0);
    for seed in 1..=150 {
        let mut random = Random(seed);
        let mut both = Both::new();
        let mut peer = original::Protocol::new();
        let (here, there) = (addr(1), addr(2));
        let keys = [None, Some(None), Some(NonZero::new(3))];
        let mut wire: Vec<Packet> = Vec::new();
        for step in 0..250 {
            let key = keys[random.below(3) as usize];
            let len = [4, 60, 900, 1_500, 4_000][random.below(5) as usize];
            match random.below(10) {
                0..=3 => {
                    // Far below what acks of a full packet would need: there the original panics.
                    let len = if random.below(4) == 0 && step < 6 { len } else { len.min(900) };
                    let mut bundle = blob(step as u8, len);
                    let wanted = random.below(2) == 0;
                    match key {
                        None => peer.off_channel(here).prepare(&mut bundle, wanted),
                        Some(index) => peer.channel(here, index).prepare(&mut bundle, wanted),
                    }
                    wire.extend(bundle.into_iter());
                }
                4..=6 if !wire.is_empty() => {
                    let at = random.below(wire.len().min(4) as u64) as usize;
                    let packet = if random.below(8) == 0 { wire[at].clone() } else { wire.remove(at) };
                    if random.below(10) != 0 {
                        both.accept(&packet, there);
                    }
                }
                7 | 8 => {
                    let few = both.ours.table().ons.iter().all(|c| c.acks.len <= 3)
                        && both.ours.table().offs.iter().all(|c| c.acks.len <= 3);
                    let len = if few { len } else { len.min(900) };
                    let wanted = random.below(3) == 0;
                    if let Some(packets) = both.send(there, key, step as u8, len, wanted) {
                        for packet in packets.into_iter().filter(|_| random.below(5) != 0) {
                            if let Ok(mut channel) = peer.accept(packet, here) {
                                let _ = channel.pop_bundles();
                            }
                        }
                    }
                }
                _ => match random.below(6) {
                    0 => both.resends(),
                    1 => {
                        both.ours.transfer_prefix_offset_from_last_received();
                        both.theirs.transfer_prefix_offset_from_last_received();
                    }
                    2 => {
                        both.ours.reset_prefix_offset();
                        both.theirs.reset_prefix_offset();
                    }
                    _ => (),
                },
            }
        }
        both.pool();
        accepted += both.accepted;
        bundles += both.bundles;
        sent += both.sent;
        withheld += both.withheld;
    }
    println!("{accepted} packets accepted, {bundles} bundles, {sent} packets sent, {withheld} refused by the port alone");
    assert!(accepted > 5_000 && bundles > 5_000 && sent > 2_000);
}

#[test]
fn piggybacks_come_first_and_there_may_be_many() {
    for count in [1, 2, 7, 8, 9, 12] {
        let mut both = Both::new();
        let piggybacks: Vec<Packet> = (0..count).map(reliable).collect();
        both.accept(&carrying(reliable(count), &piggybacks), addr(2));
        assert_eq!((both.accepted, both.withheld, both.bundles), (1, 0, count as usize + 1));
        let inner = carrying(reliable(count + 2), &[reliable(count + 1)]);
        both.accept(&carrying(reliable(count + 3), &[inner]), addr(2));
    }
}

#[test]
fn a_packet_with_more_acks_than_a_record() {
    for (count, cumulative) in [(8, None), (9, None), (16, Some(3)), (17, None), (30, Some(7)), (64, Some(40))] {
        let mut both = Both::new();
        for i in 0..30 {
            both.send(addr(2), Some(None), i, 20, true).expect("room");
        }
        let acks = packet(|c| {
            c.set_on_channel(true);
            *c.single_acks_mut() = (0..count).map(|n| Seq::new(2 * n).expect("legal")).collect();
            if let Some(n) = cumulative {
                c.set_cumulative_ack(Seq::new(n).expect("legal"));
            }
        });
        both.accept(&acks, addr(2));
        assert_eq!(both.accepted, 1);
        both.resends();
    }
}

#[test]
fn forwarded_acks_are_the_original_s() {
    let mut random = Random(5);
    for _ in 0..50 {
        let mut both = Both { ours: Protocol::new_forwarding(), theirs: original::Protocol::new_forwarding(), ..Both::new() };
        for _ in 0..30 {
            both.accept(&reliable(random.below(40) as u32), addr(2));
        }
        for _ in 0..10 {
            let out = packet(|c| {
                c.set_on_channel(true);
                *c.single_acks_mut() = (0..random.below(20)).map(|_| Seq::new(random.below(40) as u32).expect("legal")).collect();
                if random.below(3) == 0 {
                    c.set_cumulative_ack(Seq::new(random.below(10) as u32).expect("legal"));
                }
                if random.below(2) == 0 {
                    c.set_reliable(true);
                    c.set_sequence_num(Seq::new(random.below(60) as u32).expect("legal"));
                }
            });
            assert_eq!(both.ours.accept_out(&out, addr(2)).is_ok(), both.theirs.accept_out(&out, addr(2)));
            // The acks that are left are written by both.
            if random.below(4) == 0 {
                both.send(addr(2), Some(None), 9, 30, false).expect("room");
            }
        }
        both.send(addr(2), Some(None), 1, 30, true).expect("room");
        both.resends();
    }
}

#[test]
fn limits_are_refusals_with_01_s_numbers() {
    let mut p = Protocol::new();
    (0..4).for_each(|n| _ = p.off_channel(addr(n)).expect("room"));
    assert_eq!(p.off_channel(addr(9)).err(), Some(Refusal::TableFull));
    assert!(p.off_channel(addr(3)).is_ok());
    (0..8).for_each(|n| _ = p.channel(addr(20 + n), None).expect("room"));
    assert_eq!(p.channel(addr(9), None).err(), Some(Refusal::TableFull));

    let mut long = Bundle::new();
    (0..17).for_each(|_| long.push_empty());
    let mut channel = p.channel(addr(20), None).expect("there");
    assert_eq!(channel.prepare(&mut long, true).err().and_then(|w| w.refusal()), Some(Refusal::OutOfRange));
    for n in 0..32 {
        channel.prepare(&mut blob(n, 10), true).expect("room");
    }
    assert_eq!(channel.waiting_for_ack(), 32);
    let mut late = blob(1, 10);
    let before = bytes(&late);
    assert_eq!(channel.prepare(&mut late, true).err().and_then(|w| w.refusal()), Some(Refusal::OverLimit));
    assert_eq!(bytes(&late), before);
    let ack = packet(|c| {
        c.set_on_channel(true);
        c.set_cumulative_ack(Seq::new(5).expect("legal"));
    });
    let mut channel = p.accept(ack, addr(20)).expect("granted");
    assert_eq!(channel.waiting_for_ack(), 27);
    channel.prepare(&mut late, true).expect("room again");
    let cumulative_off = packet(|c| c.set_cumulative_ack(Seq::new(5).expect("legal")));
    let rejected = p.accept(cumulative_off, addr(1)).expect_err("refused");
    assert_eq!(rejected.why.refusal(), Some(Refusal::CumulativeOff));
    assert_eq!(rejected.why.refusal().map(|r| (r.number(), r.is_original())), Some((6, true)));
    for n in 1..=13 {
        assert_eq!(Refusal::of(n).map(Refusal::number), Some(n));
    }
    assert_eq!(Refusal::of(0), None);
}

#[test]
fn resends_fall_due_and_are_given_up() {
    let mut p = Protocol::new();
    let at = Duration::from_millis;
    p.set_time(at(10));
    p.channel(addr(2), None).expect("room").prepare(&mut blob(1, 10), true).expect("room");
    p.set_time(at(109));
    assert!(p.take_resends(at(100), at(1_000)).is_empty());
    p.set_time(at(110));
    assert_eq!(p.take_resends(at(100), at(1_000)).len(), 1);
    assert!(p.take_resends(at(100), at(1_000)).is_empty());
    p.set_time(at(1_009));
    assert_eq!(p.take_resends(at(100), at(1_000)).len(), 1);
    p.set_time(at(1_010));
    assert!(p.take_resends(at(100), at(1_000)).is_empty());
    assert_eq!(p.channel(addr(2), None).expect("there").waiting_for_ack(), 0);
}

#[test]
fn packets_are_let_go_of() {
    let mut p = Protocol::new();
    for n in 0..20_000u32 {
        // Each comes twice, and every second one is out of order.
        for number in [n ^ 1, n ^ 1] {
            if let Ok(mut channel) = p.accept(reliable(number & 0x0FFF_FFFF), addr(2)) {
                let _ = channel.pop_bundles();
                let _ = channel.prepare(&mut blob(1, 10), n % 3 == 0);
            }
        }
        p.accept(
            packet(|c| {
                c.set_on_channel(true);
                c.set_cumulative_ack(Seq::new(n).expect("legal"));
            }),
            addr(2),
        )
        .map(|mut c| _ = c.pop_bundles())
        .expect("granted");
    }
    assert!(p.kept_packets() <= 300, "{}", p.kept_packets());
}

#[test]
fn a_full_packet_takes_the_acks_that_fit() {
    let mut p = Protocol::new();
    for n in 0..40 {
        p.accept(reliable(n), addr(2)).map(|mut c| _ = c.pop_bundles()).expect("granted");
    }
    let mut channel = p.channel(addr(2), None).expect("there");
    let mut bundle = blob(1, 1_420);
    channel.prepare(&mut bundle, true).expect("room");
    let first = bundle.iter().next().expect("one").read_config_locked_ref().expect("readable");
    let written = first.config().single_acks().len();
    assert!((3..10).contains(&written), "{written}");
    let mut rest = blob(1, 10);
    channel.prepare(&mut rest, false).expect("room");
    let second = rest.iter().next().expect("one").read_config_locked_ref().expect("readable");
    assert_eq!(second.config().single_acks().len(), 40 - written);
}
