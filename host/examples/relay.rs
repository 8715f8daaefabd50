//! Two endpoints and a relay on loopback UDP. Every datagram passes a seeded shim that loses, repeats and delays some. Packets are
//! written and read by the original `packet.rs` and `bundle.rs`; all three keep their state in the proved library.
//!
//!     relay [--seed S] [--bundles N] [--loss PERCENT]       by default seed 1, 300 bundles of each stream, 15 percent lost
//!
//! It ends by itself when each end has every reliable bundle of the other, in order and byte for byte, and every ack has come. The
//! clock is supplied: one turn of the loop is a millisecond, so a run takes no longer than its work.

use std::collections::{BTreeMap, BTreeSet};
use std::io::{self, Read, Write};
use std::net::{SocketAddr, UdpSocket};
use std::num::NonZero;
use std::process::ExitCode;
use std::time::{Duration, Instant};

use relay_host::net::bundle::{Bundle, NextElementReader};
use relay_host::net::element::{Element, ElementLength};
use relay_host::net::packet::Packet;
use relay_host::net::proto::{Channel, Protocol, Refusal, Why};

const RESEND_AFTER: Duration = Duration::from_millis(60);
const GIVE_UP: Duration = Duration::from_secs(1_000);
/// Packets that may be under way on a channel: a gap with more than 15 behind it could not be filled.
const WINDOW: usize = 16;
const LONGEST_RUN: u64 = 200_000;

struct Random(u64);

impl Random {
    fn next(&mut self) -> u64 {
        self.0 = self.0.wrapping_add(0x9E37_79B9_7F4A_7C15);
        let mut z = self.0;
        z = (z ^ (z >> 30)).wrapping_mul(0xBF58_476D_1CE4_E5B9);
        z = (z ^ (z >> 27)).wrapping_mul(0x94D0_49BB_1331_11EB);
        z ^ (z >> 31)
    }

    fn below(&mut self, n: u64) -> u64 {
        self.next() % n
    }
}

// ---- What is sent

/// An element of bytes.
#[derive(Debug, PartialEq)]
struct Blob(Vec<u8>);

impl Element<()> for Blob {
    fn write_length(&self, _: &()) -> io::Result<ElementLength> {
        Ok(ElementLength::Variable16)
    }
    fn write(&self, write: &mut dyn Write, _: &()) -> io::Result<u8> {
        write.write_all(&self.0).map(|()| 1)
    }
    fn read_length(_: &(), _: u8) -> io::Result<ElementLength> {
        Ok(ElementLength::Variable16)
    }
    fn read(read: &mut dyn Read, _: &(), _: usize, _: u8) -> io::Result<Self> {
        let mut bytes = Vec::new();
        read.read_to_end(&mut bytes).map(|_| Self(bytes))
    }
}

/// The streams of an end. The first two are reliable and in order, the third reliable alone, the others neither.
const STREAMS: [&str; 5] = [
    "reliable, on-channel",
    "reliable, indexed channel",
    "reliable, off-channel",
    "unreliable, on-channel",
    "unreliable, off-channel",
];
const RELIABLE: usize = 3;

fn channel<'a>(protocol: &'a mut Protocol, stream: usize, peer: SocketAddr) -> Result<Channel<'a>, Refusal> {
    match stream {
        0 | 3 => protocol.channel(peer, None),
        1 => protocol.channel(peer, NonZero::new(3)),
        _ => protocol.off_channel(peer),
    }
}

/// The content of a bundle, which both ends can make: its end, stream and number, and then bytes.
fn content(end: usize, stream: usize, number: u64) -> Vec<Vec<u8>> {
    let mut random = Random(number.wrapping_mul(31).wrapping_add((end * 8 + stream) as u64));
    let count = if stream < 2 { 1 + random.below(3) } else { 1 };
    (0..count)
        .map(|_| {
            let mut bytes = vec![end as u8, stream as u8];
            bytes.extend(number.to_le_bytes());
            let most = if stream < 2 && random.below(4) == 0 { 3_500 } else { 300 };
            let len = random.below(most);
            bytes.extend((0..len).map(|_| random.next() as u8));
            bytes
        })
        .collect()
}

fn written(end: usize, stream: usize, number: u64) -> Bundle {
    let mut bundle = Bundle::new();
    for (i, bytes) in content(end, stream, number).into_iter().enumerate() {
        let mut writer = bundle.element_writer();
        // Now and then an element is a request, or an answer to one.
        match (number + i as u64) % 5 {
            3 => writer.write_simple_request(Blob(bytes), number as u32),
            4 => writer.write_simple_reply(bytes, number as u32),
            _ => writer.write_simple(Blob(bytes)),
        }
        .expect("an element is written");
    }
    bundle
}

/// The end, stream and number of a bundle whose bytes are as they were sent. None for one that carries acks alone.
fn read(bundle: &Bundle) -> Result<Option<(usize, usize, u64)>, String> {
    let mut elements = Vec::new();
    let mut reader = bundle.element_reader();
    while let Some(next) = reader.next() {
        elements.push(match next {
            NextElementReader::Element(e) => e.read_simple::<Blob>().map_err(|e| e.to_string())?.element.0,
            NextElementReader::Reply(r) => r.read_simple::<Vec<u8>>().map_err(|e| e.to_string())?,
        });
    }
    let Some(first) = elements.first() else { return Ok(None) };
    let header: [u8; 10] = first.get(..10).and_then(|b| b.try_into().ok()).ok_or("a short element")?;
    let (end, stream) = (header[0] as usize, header[1] as usize);
    let number = u64::from_le_bytes(header[2..].try_into().expect("eight bytes"));
    if elements != content(end, stream, number) {
        return Err(format!("bundle {number} of stream {stream} has other bytes than were sent"));
    }
    Ok(Some((end, stream, number)))
}

/// What one place has seen of one end's streams.
#[derive(Default)]
struct Seen {
    /// Of the streams in order: how many, which is the next number.
    next: [u64; 2],
    /// Of the others: which.
    numbers: [BTreeSet<u64>; 3],
    repeats: u64,
}

impl Seen {
    fn take(&mut self, end: usize, bundle: &Bundle) -> Result<(), String> {
        let Some((of, stream, number)) = read(bundle)? else { return Ok(()) };
        if of != end {
            return Err("a bundle of the wrong end".into());
        }
        match stream {
            0 | 1 if number == self.next[stream] => self.next[stream] += 1,
            0 | 1 => return Err(format!("stream {stream}: bundle {number} and not {}", self.next[stream])),
            _ if self.numbers[stream - 2].insert(number) => (),
            _ => self.repeats += 1,
        }
        Ok(())
    }

    fn all(&self, bundles: u64) -> bool {
        self.next == [bundles; 2] && self.numbers[0].len() as u64 == bundles
    }
}

// ---- The shim

/// One way between two sockets.
struct Link {
    name: &'static str,
    random: Random,
    loss: u64,
    /// When it is due, its place, and the datagram.
    held: BTreeMap<(u64, u64), Vec<u8>>,
    taken: u64,
    lost: u64,
    repeated: u64,
    late: u64,
    last: u64,
}

impl Link {
    fn new(name: &'static str, seed: u64, loss: u64) -> Self {
        let random = Random(seed);
        Self { name, random, loss, held: BTreeMap::new(), taken: 0, lost: 0, repeated: 0, late: 0, last: 0 }
    }

    /// All that came in at a socket.
    fn read(&mut self, socket: &UdpSocket, now: u64) -> io::Result<()> {
        let mut bytes = [0; 2_048];
        loop {
            let len = match socket.recv_from(&mut bytes) {
                Ok((len, _)) => len,
                Err(e) if e.kind() == io::ErrorKind::WouldBlock => return Ok(()),
                Err(e) => return Err(e),
            };
            self.taken += 1;
            if self.random.below(100) < self.loss {
                self.lost += 1;
                continue;
            }
            let copies = if self.random.below(12) == 0 { 2 } else { 1 };
            self.repeated += copies - 1;
            for copy in 0..copies {
                let late = if self.random.below(4) == 0 { 1 + self.random.below(30) } else { 0 };
                self.held.insert((now + late, 2 * self.taken + copy), bytes[..len].to_vec());
            }
        }
    }

    fn due(&mut self, now: u64) -> Vec<Packet> {
        let later = self.held.split_off(&(now + 1, 0));
        let due = std::mem::replace(&mut self.held, later);
        for (_, place) in due.keys() {
            self.late += u64::from(*place < self.last);
            self.last = self.last.max(*place);
        }
        due.into_values()
            .filter_map(|bytes| {
                let mut packet = Packet::new();
                packet.buf_mut().get_mut(..bytes.len())?.copy_from_slice(&bytes);
                packet.set_len(bytes.len());
                Some(packet)
            })
            .collect()
    }
}

fn socket() -> io::Result<UdpSocket> {
    let socket = UdpSocket::bind("127.0.0.1:0")?;
    socket.set_nonblocking(true)?;
    Ok(socket)
}

// ---- The ends and the relay

struct End {
    which: usize,
    socket: UdpSocket,
    /// The relay, as this end sees it.
    peer: SocketAddr,
    protocol: Protocol,
    /// How many bundles of each stream were sent.
    sent: [u64; 5],
    seen: Seen,
    packets: u64,
    resends: u64,
    refused: BTreeMap<u32, u64>,
}

impl End {
    fn new(which: usize, peer: SocketAddr) -> io::Result<Self> {
        Ok(Self {
            which,
            socket: socket()?,
            peer,
            protocol: Protocol::new(),
            sent: [0; 5],
            seen: Seen::default(),
            packets: 0,
            resends: 0,
            refused: BTreeMap::new(),
        })
    }

    fn send(&mut self, stream: usize, mut bundle: Bundle) -> Result<bool, String> {
        let reliable = stream < RELIABLE;
        let mut c = channel(&mut self.protocol, stream, self.peer).map_err(|e| e.to_string())?;
        if reliable && c.in_flight() + bundle.len() > WINDOW {
            return Ok(false);
        }
        match c.prepare(&mut bundle, reliable) {
            Ok(()) => (),
            Err(Why::Refused(Refusal::OverLimit)) => return Ok(false),
            Err(why) => return Err(why.to_string()),
        }
        for packet in bundle.iter() {
            self.packets += 1;
            self.socket.send_to(packet.slice(), self.peer).map_err(|e| e.to_string())?;
        }
        Ok(true)
    }

    fn turn(&mut self, now: u64, bundles: u64) -> Result<(), String> {
        self.protocol.set_time(Duration::from_millis(now));
        for stream in 0..STREAMS.len() {
            let most = if stream < RELIABLE { bundles } else { bundles / 2 };
            if self.sent[stream] < most && (now + stream as u64) % 3 == 0 {
                let bundle = written(self.which, stream, self.sent[stream]);
                self.sent[stream] += u64::from(self.send(stream, bundle)?);
            }
        }
        if now % 20 == 0 {
            // Acks alone, in an empty packet on each channel.
            for stream in [3, 4] {
                let mut empty = Bundle::new();
                empty.push_empty();
                self.send(stream, empty)?;
            }
            let mut empty = Bundle::new();
            empty.push_empty();
            let mut indexed = channel(&mut self.protocol, 1, self.peer).map_err(|e| e.to_string())?;
            indexed.prepare(&mut empty, false).map_err(|e| e.to_string())?;
            for packet in empty.iter() {
                self.socket.send_to(packet.slice(), self.peer).map_err(|e| e.to_string())?;
            }
        }
        for (addr, packet) in self.protocol.take_resends(RESEND_AFTER, GIVE_UP) {
            self.resends += 1;
            self.socket.send_to(packet.slice(), addr).map_err(|e| e.to_string())?;
        }
        Ok(())
    }

    fn accept(&mut self, packet: Packet) -> Result<(), String> {
        let bundles: Vec<Bundle> = match self.protocol.accept(packet, self.peer) {
            Ok(mut channel) => channel.pop_bundles().collect(),
            Err(rejected) => {
                *self.refused.entry(rejected.why.refusal().ok_or(rejected.to_string())?.number()).or_default() += 1;
                return Ok(());
            }
        };
        bundles.iter().try_for_each(|b| self.seen.take(1 - self.which, b))
    }

    fn acknowledged(&mut self) -> bool {
        (0..RELIABLE).all(|s| channel(&mut self.protocol, s, self.peer).is_ok_and(|c| c.waiting_for_ack() == 0))
    }
}

/// The relay has a protocol for each direction, forwards every packet, and looks at the bundles that pass.
struct Relay {
    sockets: [UdpSocket; 2],
    ends: [SocketAddr; 2],
    directions: [Protocol; 2],
    seen: [Seen; 2],
    forwarded: u64,
    refused: BTreeMap<u32, u64>,
}

impl Relay {
    /// What a proxy owes its tables: what is sent and never acknowledged here is given up, and acks that nobody will write are dropped.
    fn turn(&mut self, now: u64) -> Result<(), String> {
        for (direction, end) in self.directions.iter_mut().zip(self.ends) {
            direction.set_time(Duration::from_millis(now));
            if now % 200 == 0 {
                let resends = direction.take_resends(RESEND_AFTER, Duration::from_secs(1));
                if !resends.is_empty() {
                    return Err("the relay has nothing of its own to send again".into());
                }
                direction.off_channel(end).map_err(|e| e.to_string())?.drop_queued_acks();
            }
        }
        Ok(())
    }

    fn forward(&mut self, from: usize, packet: Packet) -> Result<(), String> {
        let to = 1 - from;
        self.sockets[to].send_to(packet.slice(), self.ends[to]).map_err(|e| e.to_string())?;
        self.forwarded += 1;
        // Of the other direction's stream this packet carries the acks, and it is sent out there.
        if let Err(why) = self.directions[to].accept_out(&packet, self.ends[to]) {
            *self.refused.entry(why.refusal().ok_or(why.to_string())?.number()).or_default() += 1;
        }
        match self.directions[from].accept(packet, self.ends[from]) {
            Ok(mut channel) => channel.pop_bundles().try_for_each(|b| self.seen[from].take(from, &b)),
            Err(rejected) => {
                *self.refused.entry(rejected.why.refusal().ok_or(rejected.to_string())?.number()).or_default() += 1;
                Ok(())
            }
        }
    }
}

fn run(seed: u64, bundles: u64, loss: u64) -> Result<(), String> {
    let text = |e: io::Error| e.to_string();
    let began = Instant::now();
    let sockets = [socket().map_err(text)?, socket().map_err(text)?];
    let at = |s: &UdpSocket| s.local_addr().map_err(text);
    let mut ends = [End::new(0, at(&sockets[0])?).map_err(text)?, End::new(1, at(&sockets[1])?).map_err(text)?];
    let mut relay = Relay {
        ends: [at(&ends[0].socket)?, at(&ends[1].socket)?],
        sockets,
        directions: [Protocol::new_forwarding(), Protocol::new_forwarding()],
        seen: Default::default(),
        forwarded: 0,
        refused: BTreeMap::new(),
    };
    let mut to_relay = [Link::new("first end to relay", seed, loss), Link::new("second end to relay", seed + 1_000, loss)];
    let mut to_end = [Link::new("relay to first end", seed + 2_000, loss), Link::new("relay to second end", seed + 3_000, loss)];

    let mut now = 0;
    loop {
        now += 1;
        relay.turn(now)?;
        ends.iter_mut().try_for_each(|end| end.turn(now, bundles))?;
        for i in 0..2 {
            to_relay[i].read(&relay.sockets[i], now).map_err(text)?;
            for packet in to_relay[i].due(now) {
                relay.forward(i, packet)?;
            }
        }
        for i in 0..2 {
            to_end[i].read(&ends[i].socket, now).map_err(text)?;
            for packet in to_end[i].due(now) {
                ends[i].accept(packet)?;
            }
        }
        if ends.iter().all(|e| e.seen.all(bundles)) && ends.iter_mut().all(|e| e.acknowledged()) {
            break;
        }
        if now == LONGEST_RUN {
            let waiting: Vec<_> = ends.iter().map(|e| (e.sent, e.seen.next, e.seen.numbers[0].len(), &e.refused)).collect();
            return Err(format!("not done after {now} ms: {waiting:?}"));
        }
    }

    println!("relay: seed {seed}, {loss} percent lost, one in 12 repeated, one in 4 up to 30 ms late");
    for link in to_relay.iter().chain(&to_end) {
        println!(
            "  {:<20} {:>7} datagrams, {} lost, {} repeated, {} overtaken",
            link.name, link.taken, link.lost, link.repeated, link.late
        );
    }
    for (i, end) in ends.iter().enumerate() {
        let other = &ends[1 - i];
        println!("  the {} end sent {} packets and {} again", ["first", "second"][i], end.packets, end.resends);
        for (s, name) in STREAMS.iter().enumerate() {
            let got = if s < 2 { other.seen.next[s] } else { other.seen.numbers[s - 2].len() as u64 };
            let relayed = if s < 2 { relay.seen[i].next[s] } else { relay.seen[i].numbers[s - 2].len() as u64 };
            let order = if s < 2 { ", all in order" } else { "" };
            println!("    {name:<26} {:>5} bundles, {got} received{order}; the relay saw {relayed}", end.sent[s]);
        }
        println!("    bundles that came again: {}; packets kept at the end: {}", other.seen.repeats, other.protocol.kept_packets());
    }
    let refused = |r: &BTreeMap<u32, u64>| if r.is_empty() { "nothing".into() } else { format!("{r:?}") };
    println!(
        "  the relay forwarded {} packets; refused, by number: relay {}, ends {} and {}",
        relay.forwarded,
        refused(&relay.refused),
        refused(&ends[0].refused),
        refused(&ends[1].refused)
    );
    println!(
        "relay: every reliable bundle came, byte for byte, and was acknowledged, after {now} ms of the supplied clock ({:.1} s)",
        began.elapsed().as_secs_f64()
    );
    Ok(())
}

fn main() -> ExitCode {
    let (mut seed, mut bundles, mut loss) = (1, 300, 15);
    let mut words = std::env::args().skip(1);
    while let Some(word) = words.next() {
        let value = words.next().and_then(|w| w.parse::<u64>().ok());
        match (word.as_str(), value) {
            ("--seed", Some(n)) => seed = n,
            ("--bundles", Some(n)) if n <= 100_000 => bundles = n,
            ("--loss", Some(n)) if n <= 60 => loss = n,
            _ => {
                eprintln!("usage: relay [--seed S] [--bundles N, at most 100000] [--loss PERCENT, at most 60]");
                return ExitCode::from(2);
            }
        }
    }
    match run(seed, bundles, loss) {
        Ok(()) => ExitCode::SUCCESS,
        Err(what) => {
            println!("relay: seed {seed}: {what}");
            ExitCode::FAILURE
        }
    }
}
