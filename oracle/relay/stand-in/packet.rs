//! Stand-ins for the original's packets: the fields that its rules read, and a handle in the place of the bytes.

use std::collections::VecDeque;
use std::fmt;
use std::num::NonZero;

use super::Key;
use super::seq::Seq;

#[derive(Debug, Clone, Default)]
pub struct Packet {
    pub handle: u32,
    pub prefix: u32,
    pub config: PacketConfig,
    pub piggybacks: VecDeque<Packet>,
    /// The channel that it was sent on. The original tells of a resend its address alone.
    pub sent_on: Option<Key>,
}

impl Packet {
    pub fn read_prefix(&self) -> u32 {
        self.prefix
    }

    pub fn read_config_locked(self) -> Result<PacketLocked, (PacketConfigError, Self)> {
        Ok(PacketLocked { packet: self })
    }

    pub fn read_config_locked_ref(&self) -> Result<PacketLocked, PacketConfigError> {
        Ok(PacketLocked {
            packet: self.clone(),
        })
    }
}

/// A packet whose fields could be read: every one of ours.
#[derive(Debug)]
pub struct PacketLocked {
    packet: Packet,
}

impl PacketLocked {
    pub fn packet(&self) -> &Packet {
        &self.packet
    }

    pub fn config(&self) -> &PacketConfig {
        &self.packet.config
    }

    pub fn piggybacks_mut(&mut self) -> &mut VecDeque<Packet> {
        &mut self.packet.piggybacks
    }

    pub fn destruct(self) -> (Packet, ()) {
        (self.packet, ())
    }
}

#[derive(Debug, Clone)]
pub struct PacketConfigError;

impl fmt::Display for PacketConfigError {
    fn fmt(&self, f: &mut fmt::Formatter<'_>) -> fmt::Result {
        f.write_str("unreadable")
    }
}

#[derive(Debug, Clone, Default)]
pub struct PacketConfig {
    pub on_channel: bool,
    pub indexed_channel: Option<(NonZero<u32>, NonZero<u32>)>,
    pub reliable: bool,
    /// None where it was never set: the original has 0 there.
    pub sequence_num: Option<Seq>,
    pub sequence_range: Option<(Seq, Seq)>,
    pub cumulative_ack: Option<Seq>,
    pub single_acks: VecDeque<Seq>,
    pub last_reliable_sequence_num: Option<Seq>,
}

impl PacketConfig {
    pub fn new() -> Self {
        Self::default()
    }

    pub fn on_channel(&self) -> bool {
        self.on_channel
    }

    pub fn set_on_channel(&mut self, on_channel: bool) {
        self.on_channel = on_channel;
    }

    pub fn indexed_channel(&self) -> Option<(NonZero<u32>, NonZero<u32>)> {
        self.indexed_channel
    }

    pub fn set_indexed_channel(&mut self, index: NonZero<u32>, version: NonZero<u32>) {
        self.indexed_channel = Some((index, version));
    }

    pub fn reliable(&self) -> bool {
        self.reliable
    }

    pub fn set_reliable(&mut self, reliable: bool) {
        self.reliable = reliable;
    }

    pub fn sequence_num(&self) -> Seq {
        self.sequence_num.unwrap_or_default()
    }

    pub fn set_sequence_num(&mut self, num: Seq) {
        self.sequence_num = Some(num);
    }

    pub fn sequence_range(&self) -> Option<(Seq, Seq)> {
        self.sequence_range
    }

    pub fn cumulative_ack(&self) -> Option<Seq> {
        self.cumulative_ack
    }

    pub fn set_cumulative_ack(&mut self, num: Seq) {
        self.cumulative_ack = Some(num);
    }

    pub fn single_acks(&self) -> &VecDeque<Seq> {
        &self.single_acks
    }

    pub fn single_acks_mut(&mut self) -> &mut VecDeque<Seq> {
        &mut self.single_acks
    }

    pub fn last_reliable_sequence_num(&self) -> Option<Seq> {
        self.last_reliable_sequence_num
    }
}
