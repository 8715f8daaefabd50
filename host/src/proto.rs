//! Protocol with reliability, defragmenting of bundles and channel support: the names and answers of wg-toolkit's `proto.rs`, over the
//! proved library. It stands in the place of that file, beside the original `packet.rs`, `bundle.rs` and `seq.rs`.
//!
//! Packets stay in Rust and cross as handles. The library decides everything of the state; what is left here is reading a packet's
//! fields, writing them in [`Channel::prepare`], and keeping the packets that the library holds.

pub mod library;
pub mod pool;
pub mod refusal;

use std::collections::VecDeque;
use std::fmt;
use std::net::SocketAddr;
use std::num::NonZero;
use std::time::{Duration, Instant};

use super::bundle::Bundle;
use super::packet::{PACKET_RESERVED_FOOTER_LEN, Packet, PacketConfig, PacketConfigError, PacketLocked};
use super::seq::Seq;

use library::{Handles, Key, Names, Prepared, RECORD_ACKS, RECORDS, RESENT_NUMBERS, Record, Table, View};
use pool::{Kept, Pool};

pub use refusal::{Refusal, Rejected, Why};

/// A protocol tracker for an interface, providing support for accepting and preparing bundles, with reliability, defragmenting and
/// (off)channel support.
pub struct Protocol {
    table: Box<Table>,
    pool: Pool,
    /// An address crosses as its place here. One is kept once it has a channel, so there are never more than there are channels.
    addresses: Vec<SocketAddr>,
    clock: Clock,
}

/// Times cross in whole milliseconds.
#[derive(Debug, Clone, Copy)]
enum Clock {
    Since(Instant),
    Supplied(u64),
}

fn millis(time: Duration) -> u64 {
    u64::try_from(time.as_millis()).unwrap_or(u64::MAX)
}

/// The refusal of a number that the library answers.
fn refusal(code: u32) -> Refusal {
    Refusal::of(code).unwrap_or_else(|| panic!("the library answers {code}, which is no refusal"))
}

/// An answer of a call that is never refused here: a table that only these calls write is well formed, and its channels stay.
fn sure<T>(answer: Result<T, u32>) -> T {
    answer.unwrap_or_else(|code| panic!("the relay's table was overwritten: {}", refusal(code)))
}

impl Protocol {
    pub fn new() -> Self {
        Self::with(false)
    }

    /// A protocol for one direction of a stream being forwarded, as a proxy does: its sequence numbers follow the accepted reliable
    /// packets, so that an injected packet continues from them.
    pub fn new_forwarding() -> Self {
        Self::with(true)
    }

    fn with(forwarding: bool) -> Self {
        if let Err(wrong) = library::check_layout() {
            panic!("{wrong}");
        }
        Self {
            table: library::boxed(forwarding),
            pool: Pool::default(),
            addresses: Vec::new(),
            clock: Clock::Since(Instant::now()),
        }
    }

    /// From now on the time is what this was last called with, and stands still between. A time that goes back is not taken.
    pub fn set_time(&mut self, now: Duration) {
        self.clock = Clock::Supplied(millis(now).max(self.now()));
    }

    fn now(&self) -> u64 {
        match self.clock {
            Clock::Since(began) => millis(began.elapsed()).max(self.table.latest),
            Clock::Supplied(now) => now.max(self.table.latest),
        }
    }

    /// The number of an address: its own, or the next.
    fn number(&self, addr: SocketAddr) -> u32 {
        self.addresses.iter().position(|a| *a == addr).unwrap_or(self.addresses.len()) as u32
    }

    /// After a call that may have made a channel: a new address is kept if it has one now.
    fn keep_address(&mut self, addr: SocketAddr, number: u32) {
        if number as usize == self.addresses.len() {
            let t = &self.table;
            let offs = t.offs[..t.offcount as usize].iter().map(|c| c.address);
            if offs.chain(t.ons[..t.oncount as usize].iter().map(|c| c.address)).any(|a| a == number) {
                self.addresses.push(addr);
            }
        }
    }

    /// Return the off-channel handle, the off-channel isn't a real channel and bundles prepared with it will be sent out of channel.
    /// The original makes as many as are asked for; here the fifth is refused (4).
    pub fn off_channel(&mut self, addr: SocketAddr) -> Result<Channel<'_>, Refusal> {
        self.find(addr, Key { address: self.number(addr), ..Key::ZERO })
    }

    /// Return a handle to a channel associated with the given address, optionally indexed, created if not already existing with
    /// initial version of 1. The ninth is refused (4).
    pub fn channel(&mut self, addr: SocketAddr, index: Option<NonZero<u32>>) -> Result<Channel<'_>, Refusal> {
        let (indexed, index) = index.map_or((0, 0), |i| (1, i.get()));
        self.find(addr, Key { address: self.number(addr), on: 1, indexed, index })
    }

    fn find(&mut self, addr: SocketAddr, key: Key) -> Result<Channel<'_>, Refusal> {
        let view = library::channel(&mut self.table, &key).granted().map_err(refusal)?;
        self.keep_address(addr, key.address);
        Ok(self.handle(&view))
    }

    fn handle(&mut self, view: &View) -> Channel<'_> {
        let index =
            NonZero::new(view.index).zip(NonZero::new(view.version)).map(|(index, version)| ChannelIndex { index, version });
        let key = Key { address: view.address, on: view.on, indexed: index.is_some().into(), index: view.index };
        Channel { protocol: self, key, index }
    }

    /// The reliable packets sent at least `timeout` ago and still not acknowledged, to send again, with their address. Each is then
    /// due again after another `timeout`, and dropped once unacknowledged for `give_up`. Off-channels come first, each kind in order
    /// of creation.
    pub fn take_resends(&mut self, timeout: Duration, give_up: Duration) -> Vec<(SocketAddr, Packet)> {
        let mut lent = [0; RESENT_NUMBERS];
        let now = self.now();
        let rows = sure(library::take_resends(&mut self.table, now, millis(timeout), millis(give_up), &mut lent));
        let (pool, addresses) = (&self.pool, &self.addresses);
        let resend = |row: &[u32]| match pool.get(row[1]) {
            Some(Kept::Out(packet)) => (addresses[row[0] as usize], packet.clone()),
            _ => unreachable!("an entry's handle stands for a packet that was sent"),
        };
        let resends = lent[..2 * rows as usize].chunks(2).map(resend).collect();
        self.pool.tidy(&self.table);
        resends
    }

    /// Reset the prefix offset to zero.
    pub fn reset_prefix_offset(&mut self) {
        sure(library::reset_prefix_offset(&mut self.table));
    }

    /// Return the last accepted prefix from any packet.
    pub fn last_accepted_prefix(&self) -> u32 {
        sure(library::last_accepted_prefix(&self.table))
    }

    /// Set the current prefix offset used for computing the prefix of prepared packets from the value of the last accepted packet.
    pub fn transfer_prefix_offset_from_last_received(&mut self) {
        sure(library::transfer_prefix_offset(&mut self.table));
    }

    /// Accept a new incoming packet and return the associated channel where the packet has been accepted. Any piggyback packet is
    /// still registered but errors are not forwarded. A packet that is refused comes back with the reason.
    ///
    /// A delivery of the library has 8 records, each of 8 single acks: a packet with more of either is put as several deliveries.
    pub fn accept(&mut self, packet: Packet, addr: SocketAddr) -> Result<Channel<'_>, Rejected> {
        let mut packets = Vec::new();
        if let Err((error, packet)) = flatten(packet, &mut packets) {
            return Err(Rejected { packet, why: Why::Unreadable(error) });
        }
        let mut records = Vec::new();
        let mut carrier = 0;
        for locked in packets {
            carrier = self.pool.reserve();
            deliveries_of(&locked, carrier, &mut records);
            self.pool.put(carrier, Kept::In(locked));
        }
        let (now, number) = (self.now(), self.number(addr));
        let mut said = None;
        for delivery in records.chunks(RECORDS) {
            said = Some(library::accept(&mut self.table, now, number, delivery));
        }
        let said = said.expect("a carrier");
        self.keep_address(addr, number);
        if said.code != 0 {
            let Some(Kept::In(locked)) = self.pool.take(carrier) else { unreachable!("it was put there") };
            self.pool.tidy(&self.table);
            return Err(Rejected { packet: locked.destruct().0, why: refusal(said.code).into() });
        }
        self.pool.tidy(&self.table);
        Ok(self.handle(&said.view))
    }

    /// Accept an outgoing packet. This is for proxies, which forward packets and never prepare them: it does to the state what their
    /// preparation would have done. The original answers a bool.
    pub fn accept_out(&mut self, packet: &Packet, addr: SocketAddr) -> Result<(), Why> {
        let config = packet.read_config_locked_ref().map_err(Why::Unreadable)?.destruct().1;
        let record = record_of(&config, packet.read_prefix(), 0);
        let acks: Vec<u32> = config.single_acks().iter().map(|n| n.get()).collect();
        let (now, number) = (self.now(), self.number(addr));
        let parts: Vec<&[u32]> = if acks.is_empty() { vec![&[]] } else { acks.chunks(RECORD_ACKS).collect() };
        for (i, part) in parts.iter().enumerate() {
            let mut r = with_acks(record, part);
            // The cumulative ack goes first, and what is sent last.
            r.hascumulative &= u32::from(i == 0);
            r.reliable &= u32::from(i == parts.len() - 1);
            let said = library::accept_out(&mut self.table, now, number, &r);
            self.keep_address(addr, number);
            said.granted().map_err(refusal)?;
        }
        Ok(())
    }

    /// How many packets are kept, held or not yet let go of.
    pub fn kept_packets(&self) -> usize {
        self.pool.count()
    }

    /// The state, as the library has it.
    pub fn table(&self) -> &Table {
        &self.table
    }
}

impl Default for Protocol {
    fn default() -> Self {
        Self::new()
    }
}

impl fmt::Debug for Protocol {
    fn fmt(&self, f: &mut fmt::Formatter<'_>) -> fmt::Result {
        let t = &self.table;
        f.debug_struct("Protocol")
            .field("addresses", &self.addresses)
            .field("off_channels", &t.offcount)
            .field("channels", &t.oncount)
            .field("last_accepted_prefix", &t.prefix)
            .field("prefix_offset", &t.offset)
            .field("packets", &self.pool.count())
            .finish()
    }
}

/// The packets of a delivery in the library's order: piggybacks before their carrier, innermost first. One that can't be read is left
/// out with what it carries, unless it is the carrier of all.
fn flatten(packet: Packet, packets: &mut Vec<PacketLocked>) -> Result<(), (PacketConfigError, Packet)> {
    let mut locked = packet.read_config_locked()?;
    for piggyback in std::mem::take(locked.piggybacks_mut()) {
        let _ = flatten(piggyback, packets);
    }
    packets.push(locked);
    Ok(())
}

/// A packet's fields, but for its single acks.
fn record_of(config: &PacketConfig, prefix: u32, handle: u32) -> Record {
    let mut r = Record { handle, prefix, ..Record::ZERO };
    r.on = config.on_channel().into();
    if let Some((index, version)) = config.indexed_channel() {
        (r.indexed, r.index, r.version) = (1, index.get(), version.get());
    }
    (r.reliable, r.number) = (config.reliable().into(), config.sequence_num().get());
    if let Some((first, last)) = config.sequence_range() {
        (r.ranged, r.first, r.last) = (1, first.get(), last.get());
    }
    if let Some(ack) = config.cumulative_ack() {
        (r.hascumulative, r.cumulative) = (1, ack.get());
    }
    if let Some(number) = config.last_reliable_sequence_num() {
        (r.haslast, r.lastreliable) = (1, number.get());
    }
    r
}

fn with_acks(r: Record, acks: &[u32]) -> Record {
    let mut r = Record { ackcount: acks.len() as u32, ..r };
    r.acks[..acks.len()].copy_from_slice(acks);
    r
}

/// The records of a packet: one, unless it has more single acks than a record. The others come before it and apply acks alone: they
/// are reliable with a last reliable number, which is refused (7) after its acks were applied. The cumulative ack goes first.
fn deliveries_of(locked: &PacketLocked, handle: u32, records: &mut Vec<Record>) {
    let config = locked.config();
    let mut r = record_of(config, locked.packet().read_prefix(), handle);
    let acks: Vec<u32> = config.single_acks().iter().map(|n| n.get()).collect();
    // Off-channel with a cumulative ack nothing is applied at all (6).
    let refused = r.on == 0 && r.hascumulative == 1;
    let split = if refused { 0 } else { acks.len().saturating_sub(1) / RECORD_ACKS * RECORD_ACKS };
    for part in acks[..split].chunks(RECORD_ACKS) {
        let before = Record { handle: 0, reliable: 1, number: 0, ranged: 0, haslast: 1, lastreliable: 0, ..r };
        records.push(with_acks(before, part));
        r.hascumulative = 0;
    }
    records.push(with_acks(r, if refused { &[] } else { &acks[split..] }));
}

/// A handle to a channel or to the special off-channel fake channel.
pub struct Channel<'a> {
    protocol: &'a mut Protocol,
    key: Key,
    index: Option<ChannelIndex>,
}

impl Channel<'_> {
    /// Return true if this generic channel represents an actual on-channel one.
    pub fn is_on(&self) -> bool {
        self.key.on == 1
    }

    /// Return true if this generic channel represents an actual off-channel one.
    pub fn is_off(&self) -> bool {
        !self.is_on()
    }

    /// If this generic channel is an actual on-channel one, and it has an index (and version) then it's returned.
    pub fn index(&self) -> Option<ChannelIndex> {
        self.index
    }

    /// Pop the next bundle able to be received, if any, this ensures that bundles are received in the correct order!
    pub fn next_bundle(&mut self) -> Option<Bundle> {
        let mut lent = [0; library::BUNDLE_HANDLES];
        let count = sure(library::next_bundle(&mut self.protocol.table, &self.key, &mut lent))?;
        let packet = |handle: &u32| match self.protocol.pool.take(*handle) {
            Some(Kept::In(locked)) => locked,
            _ => unreachable!("a bundle's handle stands for a packet that was received"),
        };
        Some(Bundle::new_with_multiple(lent[..count as usize].iter().map(packet)))
    }

    /// Pop all the next bundles, in order, and without borrowing the channel.
    pub fn pop_bundles(&mut self) -> impl Iterator<Item = Bundle> + use<> {
        std::iter::from_fn(|| self.next_bundle()).collect::<Vec<_>>().into_iter()
    }

    /// Prepare a bundle to be sent, adding acks and other configuration required by this tracker into all packets. After this
    /// function, all packets are ready to be sent and the bundle should not be touched for this to remain true.
    ///
    /// Where it fails (more than 16 packets, more than 32 waiting for an ack) the bundle is as it was, and may be tried again. Acks
    /// that do not fit into the first packet stay queued for the next bundle; the original panics there.
    pub fn prepare(&mut self, bundle: &mut Bundle, reliable: bool) -> Result<(), Why> {
        if bundle.iter().any(|packet| packet.free() < PACKET_RESERVED_FOOTER_LEN) {
            return Err(Why::NoFooterRoom);
        }
        let now = self.protocol.now();
        let Protocol { table, pool, .. } = &mut *self.protocol;
        // One too many is refused, and so is any greater number.
        let mut handles = Handles { count: bundle.len().min(library::HANDLES + 1) as u32, ..Handles::ZERO };
        let kept = if reliable { bundle.len().min(library::HANDLES) } else { 0 };
        handles.handles[..kept].fill_with(|| pool.reserve());
        let prepared = match library::prepare(table, now, &self.key, reliable.into(), &handles).granted() {
            Ok(prepared) => prepared,
            Err(code) => {
                handles.handles[..kept].iter().for_each(|h| _ = pool.take(*h));
                return Err(refusal(code).into());
            }
        };
        self.write(bundle, &prepared, reliable);
        let Protocol { table, pool, .. } = &mut *self.protocol;
        for (handle, packet) in handles.handles[..kept].iter().zip(bundle.iter()) {
            pool.put(*handle, Kept::Out(packet.clone()));
        }
        pool.tidy(table);
        Ok(())
    }

    /// The writing half of `prepare`: all that goes into the packets, by the original's code, and the acks that it wrote are reported.
    fn write(&mut self, bundle: &mut Bundle, prepared: &Prepared, reliable: bool) {
        let number = |n| Seq::new(n).expect("a number of the library is legal");
        let mut config = PacketConfig::new();
        config.set_reliable(reliable);
        if prepared.allocated == 1 {
            config.set_sequence_num(number(prepared.first));
        }
        if prepared.on == 1 {
            config.set_on_channel(true);
            config.set_cumulative_ack(number(prepared.expected));
            if let Some((index, version)) = NonZero::new(prepared.index).zip(NonZero::new(prepared.version)) {
                config.set_indexed_channel(index, version);
            }
        }
        let queued = self.queued_acks();
        let offered = queued.len().min(ack_room(bundle, &config));
        *config.single_acks_mut() = queued[..offered].iter().map(|n| number(*n)).collect::<VecDeque<Seq>>();
        bundle.write_config(&mut config);
        bundle.update_prefix(prepared.offset);
        // The original takes acks from the front, and leaves those that it did not write.
        self.acks_written(&queued[..offered - config.single_acks().len()]);
    }

    fn acks_written(&mut self, numbers: &[u32]) {
        let mut names = Names { count: numbers.len() as u32, ..Names::ZERO };
        names.numbers[..numbers.len()].copy_from_slice(numbers);
        sure(library::acks_written(&mut self.protocol.table, &self.key, &names));
    }

    /// The numbers to be acknowledged, in order.
    fn queued_acks(&self) -> Vec<u32> {
        let acks = self.lists().1;
        acks.numbers[..acks.len as usize].to_vec()
    }

    /// Drops the numbers that are queued to be acknowledged, and tells how many. For a proxy, which forwards the other end's acks and
    /// writes none: those of packets that were lost behind it stay queued off-channel, and the queue has 64 places. The original's
    /// grows.
    pub fn drop_queued_acks(&mut self) -> usize {
        let queued = self.queued_acks();
        self.acks_written(&queued);
        queued.len()
    }

    /// How many packets were sent on this channel and wait for an ack: 32 at most.
    pub fn waiting_for_ack(&self) -> usize {
        self.lists().0.len as usize
    }

    /// How many numbers lie between the oldest packet that waits for an ack and the next to be sent, on an on-channel. A peer that
    /// runs this library too can't fill a gap with more than 15 single packets buffered behind it, and its channel then stops for
    /// good: send no more where this would pass 16. Single acks do not lower it, as they do the count above.
    pub fn in_flight(&self) -> usize {
        let (t, key) = (&self.protocol.table, &self.key);
        let first = self.lists().0.entries[0].number;
        let source = t.ons.iter().find(|c| (key.on, c.address, c.index) == (1, key.address, key.index)).map(|c| c.source);
        match source {
            Some(source) if self.waiting_for_ack() > 0 => (source.wrapping_sub(first) & library::MASK) as usize,
            _ => self.waiting_for_ack(),
        }
    }

    fn lists(&self) -> (&library::OutList, &library::AckQueue) {
        let (t, key) = (&self.protocol.table, &self.key);
        if key.on == 0 {
            let c = t.offs.iter().find(|c| c.address == key.address).expect("a channel that is there");
            return (&c.out, &c.acks);
        }
        let c = t.ons.iter().find(|c| (c.address, c.index) == (key.address, key.index)).expect("a channel that is there");
        (&c.out, &c.acks)
    }
}

impl fmt::Debug for Channel<'_> {
    fn fmt(&self, f: &mut fmt::Formatter<'_>) -> fmt::Result {
        let addr = self.protocol.addresses.get(self.key.address as usize);
        f.debug_struct("Channel").field("addr", &addr).field("on", &self.is_on()).field("index", &self.index).finish()
    }
}

/// How many acks `PacketConfig::write` may be given: it does not look whether they fit. All that fit go into the first packet. The
/// offset of a first request is private to the bundle, so its two bytes are always counted.
fn ack_room(bundle: &Bundle, config: &PacketConfig) -> usize {
    let Some(first) = bundle.iter().next() else { return 0 };
    let range = if bundle.len() > 1 { 8 } else { 0 };
    let sequence = if config.reliable() || range != 0 { 4 } else { 0 };
    let cumulative = if config.cumulative_ack().is_some() { 4 } else { 0 };
    let index = if config.indexed_channel().is_some() { 8 } else { 0 };
    first.free().saturating_sub(range + 2 + sequence + 1 + cumulative + index) / 4
}

/// Documented from BigWorld source code (programming\bigworld\lib\network\udp_channel.hpp).
#[derive(Debug, Clone, Copy, PartialEq, Eq)]
pub struct ChannelIndex {
    /// An indexed channel is a way of multiplexing several channels between a pair of addresses.
    pub index: NonZero<u32>,
    /// How many times the channel was offloaded, which tells packets that are out of date.
    pub version: NonZero<u32>,
}
