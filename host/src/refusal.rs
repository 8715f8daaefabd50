//! The refusals of the specification 01, by its numbers, and what a caller gets where the original had no room for one.

use std::fmt;

use super::super::packet::{Packet, PacketConfigError};

macro_rules! refusals {
    ($($(#[$about:meta])* $name:ident = $number:literal, $text:literal;)*) => {
        /// Why the relay refuses. 5 to 9 are the original's own rejections; it has none of the others.
        #[derive(Debug, Clone, Copy, PartialEq, Eq, Hash)]
        #[repr(u32)]
        pub enum Refusal {
            $($(#[$about])* $name = $number,)*
        }

        impl Refusal {
            /// The refusal of a number of 01.
            pub fn of(number: u32) -> Option<Self> {
                match number {
                    $($number => Some(Self::$name),)*
                    _ => None,
                }
            }
        }

        impl fmt::Display for Refusal {
            fn fmt(&self, f: &mut fmt::Formatter<'_>) -> fmt::Result {
                let text = match self {
                    $(Self::$name => $text,)*
                };
                write!(f, "{text} ({})", self.number())
            }
        }
    };
}

refusals! {
    /// Never, unless the table's memory was written by something else.
    NotWellFormed = 1, "the table is not well formed";
    /// A bundle of more than 16 packets. What `PacketConfig::read` lets through is never out of range.
    OutOfRange = 2, "a field is out of range, or a list is too long";
    /// Never: the clock does not go back.
    TimeBack = 3, "the time is below the latest";
    /// There are 4 off-channels and 8 on-channels, and none is ever removed.
    TableFull = 4, "no room for another channel";
    /// Changes the last accepted prefix.
    OldVersion = 5, "an old version of an indexed channel";
    /// Changes the last accepted prefix, and makes the channel.
    CumulativeOff = 6, "a cumulative ack off-channel";
    /// This and the next two: as 6, and the packet's acks are applied.
    ReliableWithLast = 7, "a last reliable number in a reliable packet";
    UnexpectedLast = 8, "a last reliable number that is not the expected one";
    LastOff = 9, "a last reliable number off-channel";
    /// The original panics.
    BeyondGroup = 10, "a fragment beyond its group";
    /// One of 01's limits: see "Room" there. Nothing of the packet is kept.
    OverLimit = 11, "no room for what this would leave";
    /// Never: the lists lent here always suffice.
    ListTooShort = 12, "the lent list is too short";
    /// Never: a [`Channel`](super::Channel) is one that is there.
    NoChannel = 13, "no such channel";
}

impl Refusal {
    /// The number in 01.
    pub fn number(self) -> u32 {
        self as u32
    }

    /// Whether the original rejects such a packet too.
    pub fn is_original(self) -> bool {
        (5..=9).contains(&self.number())
    }
}

impl std::error::Error for Refusal {}

/// Why a packet or a bundle is not taken.
#[derive(Debug, Clone)]
pub enum Why {
    /// The packet's configuration can't be read.
    Unreadable(PacketConfigError),
    /// The relay refuses it.
    Refused(Refusal),
    /// A packet of the bundle has less than `PACKET_RESERVED_FOOTER_LEN` bytes free, and `PacketConfig::write` could panic.
    NoFooterRoom,
}

impl Why {
    /// The relay's refusal, if it is one.
    pub fn refusal(&self) -> Option<Refusal> {
        match self {
            Self::Refused(refusal) => Some(*refusal),
            _ => None,
        }
    }
}

impl fmt::Display for Why {
    fn fmt(&self, f: &mut fmt::Formatter<'_>) -> fmt::Result {
        match self {
            Self::Unreadable(error) => write!(f, "the packet can't be read: {error:?}"),
            Self::Refused(refusal) => refusal.fmt(f),
            Self::NoFooterRoom => f.write_str("a packet of the bundle has no room for its footer"),
        }
    }
}

impl std::error::Error for Why {}

impl From<Refusal> for Why {
    fn from(refusal: Refusal) -> Self {
        Self::Refused(refusal)
    }
}

/// A packet that was not accepted, and why. The original answers the packet alone.
#[derive(Debug)]
pub struct Rejected {
    pub packet: Packet,
    pub why: Why,
}

impl fmt::Display for Rejected {
    fn fmt(&self, f: &mut fmt::Formatter<'_>) -> fmt::Result {
        self.why.fmt(f)
    }
}

impl std::error::Error for Rejected {}

impl From<Rejected> for Packet {
    fn from(rejected: Rejected) -> Self {
        rejected.packet
    }
}
