//! A stand-in for the original's bundle: its packets in order, and what `prepare` gave it to write.

use super::packet::{Packet, PacketConfig, PacketLocked};

#[derive(Debug, Default)]
pub struct Bundle {
    pub packets: Vec<Packet>,
    /// How many acks its writing takes, from the front, as the original's does.
    pub acks_written: usize,
    /// What was written to it.
    pub config: PacketConfig,
    pub prefix_offset: u32,
}

impl Bundle {
    pub fn new_with_single(packet: PacketLocked) -> Self {
        std::iter::once(packet).collect()
    }

    pub fn new_with_multiple(packets: impl Iterator<Item = PacketLocked>) -> Self {
        packets.collect()
    }

    pub fn len(&self) -> usize {
        self.packets.len()
    }

    pub fn iter(&self) -> impl Iterator<Item = &Packet> {
        self.packets.iter()
    }

    pub fn write_config(&mut self, config: &mut PacketConfig) {
        self.config = config.clone();
        config.single_acks_mut().drain(..self.acks_written);
    }

    pub fn update_prefix(&mut self, offset: u32) {
        self.prefix_offset = offset;
    }
}

impl FromIterator<PacketLocked> for Bundle {
    fn from_iter<T: IntoIterator<Item = PacketLocked>>(packets: T) -> Self {
        Self {
            packets: packets.into_iter().map(|p| p.destruct().0).collect(),
            ..Self::default()
        }
    }
}
