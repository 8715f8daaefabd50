//! A stand-in for the original's module of this name, which is missing from the text given: what bundle.rs asks of it.

use std::io::{self, Read, Write};

pub trait Codec<C: ?Sized>: Sized {
    fn write(&self, write: &mut dyn Write, config: &C) -> io::Result<()>;
    fn read(read: &mut dyn Read, config: &C) -> io::Result<Self>;
}

impl<C: ?Sized> Codec<C> for () {
    fn write(&self, _: &mut dyn Write, _: &C) -> io::Result<()> {
        Ok(())
    }

    fn read(_: &mut dyn Read, _: &C) -> io::Result<Self> {
        Ok(())
    }
}

/// All bytes that are left.
impl<C: ?Sized> Codec<C> for Vec<u8> {
    fn write(&self, write: &mut dyn Write, _: &C) -> io::Result<()> {
        write.write_all(self)
    }

    fn read(read: &mut dyn Read, _: &C) -> io::Result<Self> {
        let mut bytes = Vec::new();
        read.read_to_end(&mut bytes)?;
        Ok(bytes)
    }
}
