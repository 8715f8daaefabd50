//! The script's language: the driver's, as 01 has it, and a line for each other call.

use std::iter::Peekable;
use std::net::SocketAddr;
use std::num::NonZero;

use crate::Key;
use crate::packet::Packet;
use crate::seq::Seq;

/// Why a line is not carried out.
pub enum Failed {
    /// It can't be read.
    Bad,
    /// It can be read, and names what the original's types can't hold.
    Unfit,
}

/// The words of a line, and whether one of them named what the original's types can't hold.
pub struct Words<'a> {
    words: Peekable<std::slice::Split<'a, u8, fn(&u8) -> bool>>,
    unfit: bool,
}

pub type Read<T> = Result<T, Failed>;

impl<'a> Words<'a> {
    pub fn of(line: &'a [u8]) -> Self {
        let blank: fn(&u8) -> bool = |b| *b == b' ';
        Self {
            words: line.split(blank).peekable(),
            unfit: false,
        }
    }

    pub fn word(&mut self) -> Read<&'a [u8]> {
        self.words.next().ok_or(Failed::Bad)
    }

    /// Takes the next word if it is this one.
    pub fn is(&mut self, word: &str) -> bool {
        self.words.next_if(|w| *w == word.as_bytes()).is_some()
    }

    pub fn more(&mut self) -> bool {
        self.words.peek().is_some()
    }

    /// Nothing may follow.
    pub fn end(mut self) -> Read<()> {
        match (self.words.next(), self.unfit) {
            (Some(_), _) => Err(Failed::Bad),
            (None, true) => Err(Failed::Unfit),
            (None, false) => Ok(()),
        }
    }

    pub fn long(&mut self) -> Read<u64> {
        let word = self.word()?;
        if !word.iter().all(u8::is_ascii_digit) {
            return Err(Failed::Bad);
        }
        let digits = std::str::from_utf8(word).map_err(|_| Failed::Bad)?;
        digits.parse().map_err(|_| Failed::Bad)
    }

    pub fn number(&mut self) -> Read<u32> {
        self.long()?.try_into().map_err(|_| Failed::Bad)
    }

    pub fn seq(&mut self) -> Read<Seq> {
        let seq = Seq::new(self.number()?);
        self.unfit |= seq.is_none();
        Ok(seq.unwrap_or_default())
    }

    pub fn address(&mut self) -> Read<SocketAddr> {
        Ok(SocketAddr::from((self.number()?.to_be_bytes(), 1)))
    }

    /// `off`, `on` or `idx I`, of the channel at an address.
    pub fn key(&mut self, addr: SocketAddr) -> Read<Key> {
        if self.is("off") {
            return Ok(Key::Off(addr));
        }
        if self.is("on") {
            return Ok(Key::On(addr, None));
        }
        if !self.is("idx") {
            return Err(Failed::Bad);
        }
        let index = NonZero::new(self.number()?);
        self.unfit |= index.is_none();
        Ok(Key::On(addr, index))
    }

    /// A prefix and the fields of a record, in their order.
    pub fn record(&mut self) -> Read<Packet> {
        let mut packet = Packet {
            prefix: self.number()?,
            ..Packet::default()
        };
        let config = &mut packet.config;
        config.on_channel = self.is("on");
        if self.is("idx") {
            let (index, version) = (NonZero::new(self.number()?), NonZero::new(self.number()?));
            config.indexed_channel = index.zip(version);
            self.unfit |= config.on_channel && config.indexed_channel.is_none();
        }
        config.reliable = self.is("rel");
        if self.is("seq") {
            config.sequence_num = Some(self.seq()?);
        }
        if self.is("rng") {
            config.sequence_range = Some((self.seq()?, self.seq()?));
        }
        if self.is("cum") {
            config.cumulative_ack = Some(self.seq()?);
        }
        while self.is("ack") {
            let ack = self.seq()?;
            config.single_acks.push_back(ack);
        }
        if self.is("lrs") {
            config.last_reliable_sequence_num = Some(self.seq()?);
        }
        if self.is("pkt") {
            packet.handle = self.number()?;
        }
        Ok(packet)
    }
}
