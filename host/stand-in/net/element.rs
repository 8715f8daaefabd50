//! A stand-in for the original's module of this name, which is missing from the text given: what bundle.rs asks of it.

use std::io::{self, Read, Write};

use super::codec::Codec;
use crate::util::io::{WgReadExt, WgWriteExt};

/// How an element's length is written.
#[derive(Debug, Clone, Copy, PartialEq, Eq)]
pub enum ElementLength {
    Fixed(u32),
    Undefined,
    Variable8,
    Variable16,
    Variable24,
    Variable32,
}

impl ElementLength {
    /// How many bytes the length takes.
    pub fn len(self) -> usize {
        match self {
            Self::Fixed(_) | Self::Undefined => 0,
            Self::Variable8 => 1,
            Self::Variable16 => 2,
            Self::Variable24 => 3,
            Self::Variable32 => 4,
        }
    }

    /// None where all bits are set: the length is then in the element's first bytes.
    pub fn read(self, mut read: impl Read) -> io::Result<Option<u32>> {
        match self {
            Self::Fixed(len) => Ok(Some(len)),
            Self::Undefined => Ok(Some(u32::MAX)),
            _ => {
                let len = read.read_uint(self.len())?;
                Ok((len != u64::MAX >> (64 - 8 * self.len())).then_some(len as u32))
            }
        }
    }

    /// False where the length does not fit, and all bits are set instead.
    pub fn write(self, mut write: impl Write, len: u32) -> io::Result<bool> {
        if self.len() == 0 {
            return Ok(true);
        }
        let most = u64::MAX >> (64 - 8 * self.len());
        let fits = u64::from(len) < most;
        write.write_uint(if fits { len.into() } else { most }, self.len())?;
        Ok(fits)
    }
}

pub trait Element<C: ?Sized>: Sized {
    fn write_length(&self, config: &C) -> io::Result<ElementLength>;
    /// Answers the element's id.
    fn write(&self, write: &mut dyn Write, config: &C) -> io::Result<u8>;
    fn read_length(config: &C, id: u8) -> io::Result<ElementLength>;
    fn read(read: &mut dyn Read, config: &C, len: usize, id: u8) -> io::Result<Self>;
}

pub const REPLY_ID: u8 = 0xFF;

#[derive(Debug)]
pub struct Reply<D> {
    pub request_id: u32,
    pub data: D,
}

impl<D> Reply<D> {
    pub fn new(request_id: u32, data: D) -> Self {
        Self { request_id, data }
    }
}

impl<C: ?Sized, D: Codec<C>> Element<C> for Reply<D> {
    fn write_length(&self, _: &C) -> io::Result<ElementLength> {
        Ok(ElementLength::Variable32)
    }

    fn write(&self, mut write: &mut dyn Write, config: &C) -> io::Result<u8> {
        write.write_u32(self.request_id)?;
        self.data.write(&mut write, config)?;
        Ok(REPLY_ID)
    }

    fn read_length(_: &C, _: u8) -> io::Result<ElementLength> {
        Ok(ElementLength::Variable32)
    }

    fn read(mut read: &mut dyn Read, config: &C, _: usize, _: u8) -> io::Result<Self> {
        Ok(Self { request_id: read.read_u32()?, data: D::read(&mut read, config)? })
    }
}
