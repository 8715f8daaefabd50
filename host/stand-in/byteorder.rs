//! A stand-in for the crate of this name: little endian alone, which is all that the original uses.

use std::io::{self, Read, Write};

pub struct LE;

macro_rules! read {
    ($($name:ident: $kind:ty;)*) => {$(
        fn $name<T>(&mut self) -> io::Result<$kind> {
            let mut bytes = [0; size_of::<$kind>()];
            self.read_exact(&mut bytes)?;
            Ok(<$kind>::from_le_bytes(bytes))
        }
    )*};
}

macro_rules! write {
    ($($name:ident: $kind:ty;)*) => {$(
        fn $name<T>(&mut self, n: $kind) -> io::Result<()> {
            self.write_all(&n.to_le_bytes())
        }
    )*};
}

pub trait ReadBytesExt: Read {
    read! {
        read_u16: u16; read_i16: i16; read_u32: u32; read_i32: i32; read_u64: u64; read_i64: i64; read_f32: f32; read_f64: f64;
    }

    fn read_u8(&mut self) -> io::Result<u8> {
        let mut byte = [0];
        self.read_exact(&mut byte)?;
        Ok(byte[0])
    }

    fn read_i8(&mut self) -> io::Result<i8> {
        Ok(self.read_u8()? as i8)
    }

    fn read_uint<T>(&mut self, n: usize) -> io::Result<u64> {
        let mut bytes = [0; 8];
        self.read_exact(&mut bytes[..n])?;
        Ok(u64::from_le_bytes(bytes))
    }

    fn read_int<T>(&mut self, n: usize) -> io::Result<i64> {
        let unused = 64 - 8 * n as u32;
        Ok((self.read_uint::<T>(n)? << unused) as i64 >> unused)
    }

    fn read_u24<T>(&mut self) -> io::Result<u32> {
        Ok(self.read_uint::<T>(3)? as u32)
    }

    fn read_i24<T>(&mut self) -> io::Result<i32> {
        Ok(self.read_int::<T>(3)? as i32)
    }
}

pub trait WriteBytesExt: Write {
    write! {
        write_u16: u16; write_i16: i16; write_u32: u32; write_i32: i32; write_u64: u64; write_i64: i64; write_f32: f32; write_f64: f64;
    }

    fn write_u8(&mut self, n: u8) -> io::Result<()> {
        self.write_all(&[n])
    }

    fn write_i8(&mut self, n: i8) -> io::Result<()> {
        self.write_all(&[n as u8])
    }

    fn write_uint<T>(&mut self, n: u64, count: usize) -> io::Result<()> {
        self.write_all(&n.to_le_bytes()[..count])
    }

    fn write_int<T>(&mut self, n: i64, count: usize) -> io::Result<()> {
        self.write_all(&n.to_le_bytes()[..count])
    }

    fn write_u24<T>(&mut self, n: u32) -> io::Result<()> {
        self.write_uint::<T>(n.into(), 3)
    }

    fn write_i24<T>(&mut self, n: i32) -> io::Result<()> {
        self.write_int::<T>(n.into(), 3)
    }
}

impl<R: Read + ?Sized> ReadBytesExt for R {}
impl<W: Write + ?Sized> WriteBytesExt for W {}
