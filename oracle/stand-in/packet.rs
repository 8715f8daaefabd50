// A stand-in for the original's packet: the prefix and the two words after it. What follows it is the original's own text.
pub struct Packet {
    inner: Inner,
}

struct Inner {
    buf: [u8; 12],
}

impl Packet {
    pub fn with_words(p0: u32, p1: u32) -> Self {
        let mut buf = [0; 12];
        buf[4..8].copy_from_slice(&p0.to_le_bytes());
        buf[8..12].copy_from_slice(&p1.to_le_bytes());
        Self {
            inner: Inner { buf },
        }
    }
}
