//! Seeded random histories, by family. Numbers are drawn near what the table holds.

use crate::library::{self as lib, Handles, Key, MASK, Names, Record};
use crate::play::{Call, Play, Played};

/// Splitmix64.
pub struct Random(pub u64);

impl Random {
    pub fn next(&mut self) -> u64 {
        self.0 = self.0.wrapping_add(0x9E37_79B9_7F4A_7C15);
        let mut z = self.0;
        z = (z ^ (z >> 30)).wrapping_mul(0xBF58_476D_1CE4_E5B9);
        z = (z ^ (z >> 27)).wrapping_mul(0x94D0_49BB_1331_11EB);
        z ^ (z >> 31)
    }

    /// Both ends included.
    pub fn upto(&mut self, low: u32, high: u32) -> u32 {
        low + (self.next() % (u64::from(high) - u64::from(low) + 1)) as u32
    }

    /// So many times in a thousand.
    pub fn chance(&mut self, thousandths: u32) -> bool {
        self.next() % 1000 < thousandths.into()
    }

    pub fn pick<T: Copy>(&mut self, choices: &[T]) -> T {
        choices[(self.next() % choices.len() as u64) as usize]
    }

    /// By weight.
    pub fn weighed<T: Copy>(&mut self, choices: &[(u32, T)]) -> T {
        let all: u32 = choices.iter().map(|c| c.0).sum();
        let mut at = (self.next() % u64::from(all)) as u32;
        for &(weight, choice) in choices {
            if at < weight {
                return choice;
            }
            at -= weight;
        }
        unreachable!("within the sum")
    }

    pub fn shuffle<T>(&mut self, list: &mut [T]) {
        for i in (1..list.len()).rev() {
            list.swap(i, self.upto(0, i as u32) as usize);
        }
    }
}

const HALF: u32 = 1 << 27;
const SIZE: u32 = 1 << 28;

pub fn plain(on: bool) -> Record {
    Record { on: on.into(), ..Record::ZERO }
}

pub fn reliable(number: u32) -> Record {
    Record { on: 1, reliable: 1, number: number & MASK, ..Record::ZERO }
}

impl Record {
    pub fn range(self, first: u32, last: u32) -> Self {
        Record { ranged: 1, first: first & MASK, last: last & MASK, ..self }
    }
}

pub fn off(address: u32) -> Key {
    Key { address, ..Key::ZERO }
}

pub fn on(address: u32, index: u32) -> Key {
    Key { address, on: 1, indexed: (index != 0).into(), index }
}

/// "Fields not flagged are ignored, as is an index off-channel."
fn fill_record(r: &mut Record, any: &mut Random) {
    let mut junk = || any.next() as u32;
    if r.ranged == 0 {
        (r.first, r.last) = (junk(), junk());
    }
    if r.hascumulative == 0 {
        r.cumulative = junk();
    }
    if r.haslast == 0 {
        r.lastreliable = junk();
    }
    if r.on == 0 {
        (r.indexed, r.index, r.version) = (junk() & 1, junk() & junk() & 1, junk() & 1);
    } else if r.indexed == 0 {
        (r.index, r.version) = (junk(), junk());
    }
    r.acks.iter_mut().skip(r.ackcount as usize).for_each(|n| *n = junk());
}

fn fill_key(k: &mut Key, any: &mut Random) {
    let junk = any.next() as u32;
    if k.on == 0 {
        (k.indexed, k.index) = (any.upto(0, 1), any.pick(&[0, junk]));
    } else if k.indexed == 0 {
        k.index = junk;
    }
}

/// What a maker looks at of a channel.
struct Seen {
    expected: u32,
    source: u32,
    version: u32,
    out: Vec<lib::OutEntry>,
    acks: Vec<u32>,
    groups: Vec<lib::Fragments>,
    ahead: u32,
}

pub struct Maker<'p, 'c> {
    play: &'p mut Play<'c>,
    random: &'p mut Random,
    time: u64,
    handle: u32,
    /// Numbers begin here on the channels whose numbers were moved.
    base: u32,
}

type Family = fn(&mut Maker) -> Played<()>;

const FAMILIES: [(u32, &str, Family); 15] = [
    (6, "in order", |m| m.in_order()),
    (14, "reordered", |m| m.reordered()),
    (5, "far numbers", |m| m.far_numbers()),
    (10, "fragments", |m| m.fragments()),
    (6, "refusals", |m| m.refusals()),
    (3, "versions", |m| m.versions()),
    (8, "piggybacks", |m| m.piggybacks()),
    (3, "times", |m| m.times()),
    (14, "limits", |m| m.limits()),
    (10, "forwarded", |m| m.forwarded()),
    (4, "acks forwarded", |m| m.acks_forwarded()),
    (3, "observed", |m| m.observed()),
    (12, "sends", |m| m.sends()),
    (10, "mixed", |m| m.mixed(60)),
    (1, "long", |m| m.mixed(900)),
];

/// One history. Its family is told.
pub fn history(play: &mut Play, random: &mut Random) -> (&'static str, Played<()>) {
    let weights: Vec<(u32, usize)> = FAMILIES.iter().enumerate().map(|(i, f)| (f.0, i)).collect();
    let (_, name, family) = FAMILIES[random.weighed(&weights)];
    let forwarding = match name {
        "forwarded" | "acks forwarded" | "observed" => true,
        "sends" | "mixed" | "long" | "piggybacks" => random.chance(500),
        _ => random.chance(100),
    };
    let handle = random.pick(&[0, 0, 100, u32::MAX - 40]);
    let mut m = Maker { play, random, time: 0, handle, base: 0 };
    let played = m.play.begin(forwarding).and_then(|()| m.start()).and_then(|()| family(&mut m));
    (name, played)
}

impl Maker<'_, '_> {
    /// Some histories begin where a long one would have brought the numbers: at the wrap, or half the circle on.
    fn start(&mut self) -> Played<()> {
        if self.random.chance(650) {
            return Ok(());
        }
        self.base = self.random.pick(&[SIZE - 4, SIZE - 20, SIZE - 40, HALF - 10, HALF, 1000]);
        for key in [on(7, 0), on(8, 0), on(7, 3)].into_iter().take(self.random.upto(1, 3) as usize) {
            self.call(Call::Channel(key))?;
            let source = self.random.pick(&[self.base, SIZE - 2, 0, HALF]) & MASK;
            self.play.move_numbers(self.random.pick(&[1, self.base, SIZE - 3]) & MASK, key, source, self.base & MASK);
        }
        Ok(())
    }

    /// A call. Now and then what it does not use is filled with anything.
    fn call(&mut self, mut call: Call) -> Played<u32> {
        if self.random.chance(300) {
            let mut any = Random(self.random.next());
            match &mut call {
                Call::Accept { records, .. } => records.iter_mut().for_each(|r| fill_record(r, &mut any)),
                Call::AcceptOut { record, .. } => fill_record(record, &mut any),
                Call::Channel(key) | Call::NextBundle { key, .. } => fill_key(key, &mut any),
                Call::Prepare { key, handles, .. } => {
                    fill_key(key, &mut any);
                    handles.handles.iter_mut().skip(handles.count as usize).for_each(|h| *h = any.next() as u32);
                }
                Call::AcksWritten { key, names } => {
                    fill_key(key, &mut any);
                    names.numbers.iter_mut().skip(names.count as usize).for_each(|n| *n = any.next() as u32);
                }
                _ => (),
            }
        }
        self.play.call(&call)
    }

    // ---- Drawing

    fn chance(&mut self, thousandths: u32) -> bool {
        self.random.chance(thousandths)
    }

    fn tick(&mut self, most: u32) {
        self.time = self.time.saturating_add(self.random.upto(0, most).into());
    }

    /// A handle: mostly a new one.
    fn packet(&mut self) -> u32 {
        if self.chance(900) {
            self.handle = self.handle.wrapping_add(1);
        }
        self.handle
    }

    fn address(&mut self) -> u32 {
        let other = self.random.upto(10, 20);
        self.random.weighed(&[(40, 7), (25, 8), (10, 9), (2, 0), (2, u32::MAX), (3, other)])
    }

    fn key(&mut self, address: u32) -> Key {
        let index = self.random.pick(&[1, 2, 3]);
        self.random.weighed(&[(30, off(address)), (40, on(address, 0)), (25, on(address, index)), (2, on(address, u32::MAX))])
    }

    fn keys(&self) -> Vec<Key> {
        let t = &self.play.table;
        let offs = t.offs[..t.offcount as usize].iter().map(|c| off(c.address));
        offs.chain(t.ons[..t.oncount as usize].iter().map(|c| on(c.address, c.index))).collect()
    }

    /// The key of a channel that is there, mostly.
    fn any_channel(&mut self) -> Key {
        let keys = self.keys();
        if !keys.is_empty() && self.chance(930) {
            return self.random.pick(&keys);
        }
        let address = self.address();
        self.key(address)
    }

    fn seen(&self, k: &Key) -> Option<Seen> {
        let t = &self.play.table;
        let of = |out: &lib::OutList, acks: &lib::AckQueue, groups: &lib::Groups| {
            let out = out.entries[..out.len as usize].to_vec();
            let acks = acks.numbers[..acks.len as usize].to_vec();
            (out, acks, groups.groups[..groups.len as usize].to_vec())
        };
        if k.on == 0 {
            let c = t.offs[..t.offcount as usize].iter().find(|c| c.address == k.address)?;
            let (out, acks, groups) = of(&c.out, &c.acks, &c.groups);
            return Some(Seen { expected: 0, source: t.source, version: 0, out, acks, groups, ahead: 0 });
        }
        let index = if k.indexed == 1 { k.index } else { 0 };
        let c = t.ons[..t.oncount as usize].iter().find(|c| c.address == k.address && c.index == index)?;
        let (out, acks, groups) = of(&c.out, &c.acks, &c.groups);
        Some(Seen { expected: c.expected, source: c.source, version: c.version, out, acks, groups, ahead: c.buffer.len })
    }

    /// A number: near one, half the circle from it, or anywhere. Now and then an illegal one.
    fn number(&mut self, about: u32) -> u32 {
        if self.chance(6) {
            return self.random.pick(&[SIZE, SIZE + 1, u32::MAX]);
        }
        let near = about.wrapping_add(self.random.upto(0, 11)).wrapping_sub(3);
        let half = about.wrapping_add(HALF - 2 + self.random.upto(0, 4));
        let turn = self.random.pick(&[0, HALF, SIZE]).wrapping_add(self.random.upto(0, 6)).wrapping_sub(3);
        let any = self.random.upto(0, MASK);
        self.random.weighed(&[(85, near), (5, half), (5, turn), (5, any)]) & MASK
    }

    /// One of these, mostly.
    fn among(&mut self, numbers: &[u32], about: u32) -> u32 {
        if !numbers.is_empty() && self.chance(800) { self.random.pick(numbers) } else { self.number(about) }
    }

    /// A record of any kind, near the state of its channel.
    fn any_record(&mut self, k: &Key, forwarded: bool) -> Record {
        let seen = self.seen(k);
        let (expected, source, stored) = seen.as_ref().map_or((0, 0, 5), |s| (s.expected, s.source, s.version));
        let out: Vec<u32> = seen.as_ref().map_or(vec![], |s| s.out.iter().map(|e| e.number).collect());
        let acks = seen.as_ref().map_or(vec![], |s| s.acks.clone());
        let named = if forwarded { acks } else { out.clone() };
        let about = match forwarded {
            true => self.random.pick(&[out.last().copied().unwrap_or(source), source]),
            false => expected,
        };
        let mut r = Record { handle: self.packet(), on: k.on, indexed: k.indexed, index: k.index, ..Record::ZERO };
        r.prefix = if self.chance(500) { self.random.next() as u32 } else { 0 };
        if k.on == 1 && k.indexed == 1 {
            r.version = if self.chance(990) { (stored + self.random.pick(&[0, 1, 1, 1, 2])).max(2) - 1 } else { 0 };
        } else if k.on == 0 && self.chance(50) {
            (r.indexed, r.index, r.version) = (1, self.random.pick(&[0, 3]), self.random.pick(&[0, 1]));
        }
        r.reliable = self.chance(500).into();
        if self.chance(950) {
            r.number = self.among(&[expected, expected + 1 & MASK], about);
        }
        if self.chance(250) {
            self.any_range(seen.as_ref(), &mut r);
        }
        if self.chance(if k.on == 1 { 200 } else { 30 }) {
            r.hascumulative = 1;
            r.cumulative = self.among(&named, about);
            if r.cumulative <= MASK {
                r.cumulative = r.cumulative + self.random.pick(&[0, 0, 1]) & MASK;
            }
        }
        if self.chance(300) {
            r.ackcount = self.random.weighed(&[(50, 1), (20, 2), (10, 3), (8, 8), (1, 9)]);
            for i in 0..8 {
                r.acks[i] = self.among(&named, about);
            }
        }
        if self.chance(50) {
            r.haslast = 1;
            let other = self.number(expected);
            r.lastreliable = self.random.pick(&[expected.wrapping_sub(1) & MASK, expected.wrapping_sub(1) & MASK, expected, other]);
        }
        if self.chance(3) {
            let field = self.random.upto(0, 6);
            *[&mut r.on, &mut r.indexed, &mut r.reliable, &mut r.ranged, &mut r.hascumulative, &mut r.haslast, &mut r.number]
                .into_iter()
                .nth(field as usize)
                .expect("one of seven") = self.random.pick(&[2, 3, u32::MAX]);
        }
        r
    }

    /// Mostly a range that the number lies in, or a group that is there.
    fn any_range(&mut self, seen: Option<&Seen>, r: &mut Record) {
        if let Some(s) = seen
            && !s.groups.is_empty()
            && self.chance(600)
        {
            let g = self.random.pick(&s.groups);
            let beyond = self.chance(50);
            let place = if beyond { g.len } else { self.random.upto(0, g.len - 1) };
            r.number = g.first + place & MASK;
            let last = if self.chance(900) { g.first + g.len - 1 & MASK } else { self.number(g.first) };
            (r.ranged, r.first, r.last) = (1, g.first, last);
            return;
        }
        let before = self.random.weighed(&[(70, 0), (15, 1), (10, 2), (5, 5)]);
        let first = r.number.wrapping_sub(before) & MASK;
        let length = self.random.weighed(&[(40, 2u32), (20, 3), (10, 1), (10, 5), (3, 32), (2, 33), (2, 0)]);
        (r.ranged, r.first, r.last) = (1, first, first.wrapping_add(length).wrapping_sub(1) & MASK);
    }

    // ---- Saying

    fn deliver(&mut self, address: u32, r: Record) -> Played<u32> {
        self.call(Call::Accept { time: self.time, address, records: vec![r] })
    }

    /// A reliable packet on a channel, with a handle.
    fn arrive(&mut self, k: &Key, number: u32, range: Option<(u32, u32)>) -> Played<u32> {
        let mut r = reliable(number);
        (r.indexed, r.index, r.version, r.handle) = (k.indexed, k.index, 1, self.packet());
        if let Some((first, last)) = range {
            r = r.range(first, last);
        }
        self.deliver(k.address, r)
    }

    fn pop(&mut self, key: Key) -> Played<u32> {
        self.call(Call::NextBundle { key, places: 64 })
    }

    fn wrote_all(&mut self, key: Key) -> Played<()> {
        if let Some(s) = self.seen(&key) {
            self.wrote(key, &s.acks)?;
        }
        Ok(())
    }

    fn wrote(&mut self, key: Key, numbers: &[u32]) -> Played<u32> {
        let mut names = Names { count: numbers.len() as u32, ..Names::ZERO };
        names.numbers.iter_mut().zip(numbers).for_each(|(n, m)| *n = *m);
        self.call(Call::AcksWritten { key, names })
    }

    fn prepare(&mut self, time: u64, key: Key, reliable: u32, count: u32) -> Played<u32> {
        let mut handles = Handles { count, ..Handles::ZERO };
        for i in 0..(count as usize).min(16) {
            handles.handles[i] = self.packet();
        }
        self.call(Call::Prepare { time, key, reliable, handles })
    }

    // ---- Families

    /// Packets of a stream, in order: number and range.
    fn stream(&mut self, base: u32, count: u32, coherent: u32) -> Vec<(u32, Option<(u32, u32)>)> {
        let (mut packets, mut at) = (Vec::new(), 0);
        while at < count {
            let length = self.random.weighed(&[(50, 1), (20, 2), (12, 3), (8, 4), (6, 7), (2, 12)]);
            let whole = self.chance(coherent);
            let number = base + at;
            for k in 0..length {
                let mut range = (length > 1 || self.chance(100)).then_some((number, number + length - 1));
                if !whole && self.chance(300) {
                    let last = number + length;
                    let wrong = [(number, last), (number + 1, last), (number, number), (number, number.wrapping_sub(1))];
                    range = if self.chance(150) { None } else { Some(self.random.pick(&wrong)) };
                }
                packets.push((number + k, range));
            }
            at += length;
        }
        packets
    }

    /// A channel to stream on, and where its numbers begin.
    fn line(&mut self) -> (Key, u32) {
        let keys: Vec<Key> = self.keys().into_iter().filter(|k| k.on == 1).collect();
        if self.base != 0 && !keys.is_empty() {
            let key = self.random.pick(&keys);
            return (key, self.base);
        }
        let address = self.address();
        (on(address, self.random.pick(&[0, 0, 4])), 0)
    }

    fn send_stream(&mut self, key: Key, packets: &[(u32, Option<(u32, u32)>)], pops: u32) -> Played<()> {
        for &(number, range) in packets {
            self.tick(3);
            self.arrive(&key, number, range)?;
            while self.chance(pops) {
                self.pop(key)?;
            }
            if self.seen(&key).is_some_and(|s| s.acks.len() > 40 || s.ahead > 28) && self.chance(300) {
                self.wrote_all(key)?;
            }
        }
        Ok(())
    }

    fn in_order(&mut self) -> Played<()> {
        for _ in 0..self.random.upto(1, 2) {
            let (key, base) = self.line();
            let count = self.random.upto(5, 40);
            let packets = self.stream(base, count, 970);
            self.send_stream(key, &packets, 500)?;
        }
        Ok(())
    }

    /// Displaced by a little, lost and sent again, and repeated.
    fn reordered(&mut self) -> Played<()> {
        let (key, base) = self.line();
        let (count, coherent) = (self.random.upto(8, 60), self.random.pick(&[1000, 970, 800]));
        let packets = self.stream(base, count, coherent);
        let window = self.random.pick(&[2, 4, 10, 30]);
        let mut order: Vec<(u32, usize)> = Vec::new();
        for i in 0..packets.len() {
            let late = if self.chance(100) { 25 } else { 0 };
            order.push((i as u32 + late + self.random.upto(0, window), i));
            if self.chance(80) {
                order.push((i as u32 + self.random.upto(0, 20), i));
            }
        }
        order.sort();
        let sent: Vec<_> = order.iter().map(|(_, i)| packets[*i]).collect();
        self.send_stream(key, &sent, 500)?;
        for _ in 0..self.random.upto(0, 8) {
            self.pop(key)?;
        }
        Ok(())
    }

    fn far_numbers(&mut self) -> Played<()> {
        let (key, base) = self.line();
        for _ in 0..self.random.upto(10, 40) {
            let expected = self.seen(&key).map_or(base, |s| s.expected);
            let near = expected + self.random.upto(1, 5);
            let far = expected.wrapping_add(HALF - 3 + self.random.upto(0, 5));
            let gone = expected.wrapping_sub(self.random.upto(1, 4));
            let any = self.random.upto(0, MASK);
            let number = self.random.weighed(&[(25, expected), (20, near), (30, far), (10, gone), (15, any)]);
            self.arrive(&key, number, None)?;
            if self.chance(200) {
                self.pop(key)?;
            }
        }
        Ok(())
    }

    /// Groups off-channel and on, reliable off-channel or not, with repeats, wrong places, and ages about ten seconds.
    fn fragments(&mut self) -> Played<()> {
        let keys = [off(7), on(7, 0), off(8), on(7, 2)];
        let many = self.random.upto(1, 3) as usize;
        let mut groups = Vec::new();
        for _ in 0..self.random.upto(1, 6) {
            let few = self.random.upto(0, 30);
            let first = self.random.pick(&[few, few, SIZE - 1, SIZE - 4, HALF]);
            let length = self.random.weighed(&[(30, 2), (25, 3), (20, 5), (10, 8), (8, 1), (4, 32), (2, 33)]);
            groups.push((first, length));
        }
        for _ in 0..self.random.upto(8, 60) {
            let key = self.random.pick(&keys[..many]);
            let (first, length) = self.random.pick(&groups);
            let mut place = if self.chance(960) { self.random.upto(0, length - 1) } else { length };
            self.tick(50);
            let seen = self.seen(&key);
            if let Some(g) = seen.as_ref().and_then(|s| s.groups.iter().find(|g| g.first == first)) {
                let empty: Vec<u32> = (0..g.len).filter(|i| g.marks[*i as usize] == 0).collect();
                if !empty.is_empty() && self.chance(600) {
                    place = self.random.pick(&empty);
                }
                if self.chance(120) {
                    self.time = self.time.max(g.updated + self.random.pick(&[9_999, 10_000, 10_001, 10_002]));
                }
            }
            let last = if self.chance(950) { first + length - 1 & MASK } else { self.number(first) & MASK };
            let mut r = plain(key.on == 1).range(first, last);
            (r.number, r.handle, r.indexed, r.index, r.version) = (first + place & MASK, self.packet(), key.indexed, key.index, 1);
            r.reliable = (key.on == 0 && self.chance(400)).into();
            self.deliver(key.address, r)?;
            if self.chance(200) {
                self.pop(key)?;
            }
        }
        Ok(())
    }

    fn refusals(&mut self) -> Played<()> {
        for _ in 0..self.random.upto(10, 40) {
            let address = self.address();
            let key = self.key(address);
            self.tick(3);
            let r = self.any_record(&key, false);
            let time = if self.chance(960) { self.time } else { self.time.saturating_sub(1) };
            if self.chance(20) {
                self.call(Call::Accept { time, address, records: vec![] })?;
            }
            self.call(Call::Accept { time, address, records: vec![r] })?;
            if self.chance(250) {
                let key = self.any_channel();
                self.pop(key)?;
            }
        }
        Ok(())
    }

    fn versions(&mut self) -> Played<()> {
        for _ in 0..self.random.upto(5, 25) {
            let index = self.random.pick(&[1, 2, u32::MAX]);
            let low = self.random.upto(1, 6);
            let version = self.random.weighed(&[(20, low), (1, u32::MAX), (1, 0)]);
            let r = Record {
                on: self.chance(900).into(),
                indexed: 1,
                index,
                version,
                reliable: self.chance(600).into(),
                number: self.random.upto(0, 4),
                handle: self.packet(),
                ..Record::ZERO
            };
            let address = self.random.pick(&[7, 7, 8]);
            self.deliver(address, r)?;
            if self.chance(200) {
                let mut key = on(7, index);
                key.index = self.random.pick(&[0, index, index]);
                self.pop(key)?;
            }
        }
        Ok(())
    }

    /// A delivery of several records on channels of one address.
    fn several(&mut self, address: u32, count: u32) -> Played<u32> {
        let records = (0..count)
            .map(|_| {
                let key = if self.chance(500) { self.key(address) } else { on(address, 0) };
                self.any_record(&key, false)
            })
            .collect();
        self.call(Call::Accept { time: self.time, address, records })
    }

    fn piggybacks(&mut self) -> Played<()> {
        for _ in 0..self.random.upto(3, 14) {
            let address = self.address();
            self.tick(3);
            let count = self.random.weighed(&[(15, 1), (25, 2), (25, 3), (15, 5), (12, 8), (3, 9), (1, 10), (1, 0)]);
            self.several(address, count)?;
            if self.chance(300) {
                let key = self.any_channel();
                self.pop(key)?;
            }
        }
        Ok(())
    }

    fn times(&mut self) -> Played<()> {
        self.time = self.random.pick(&[0, 5, u64::MAX - 30_000]);
        for _ in 0..self.random.upto(6, 25) {
            let any = self.random.upto(0, 20_000);
            self.time = self.time.saturating_add(self.random.pick(&[0, 1, 9_999, 10_000, 10_001, any]).into());
            let anywhere = self.random.next();
            let time = self.random.weighed(&[(30, self.time), (2, self.time.saturating_sub(1)), (1, anywhere), (1, u64::MAX)]);
            let first = self.random.pick(&[0, 2]);
            let mut r = plain(false).range(first, first + self.random.pick(&[1, 1, 2]));
            (r.number, r.handle) = (first + self.random.upto(0, 1), self.packet());
            r.reliable = self.chance(300).into();
            if !matches!(self.call(Call::Accept { time, address: 7, records: vec![r] })?, 2 | 3) {
                self.time = time;
            }
            if self.chance(200) {
                self.pop(off(7))?;
            }
        }
        Ok(())
    }

    // ---- Limits: filled to the last place, then past it, then with room again

    fn limits(&mut self) -> Played<()> {
        match self.random.upto(0, 11) {
            0 => self.fill_acks()?,
            1 => self.fill_buffer()?,
            2 => self.fill_gap()?,
            3 => self.fill_queue()?,
            4 => self.fill_groups()?,
            5 => self.fill_places()?,
            6 => self.fill_bundles()?,
            7 => self.fill_handles()?,
            8 | 9 => self.fill_channels()?,
            _ => self.fill_out()?,
        }
        for _ in 0..self.random.upto(0, 6) {
            let key = self.any_channel();
            let r = self.any_record(&key, false);
            self.deliver(key.address, r)?;
            self.pop(key)?;
        }
        Ok(())
    }

    fn fill_acks(&mut self) -> Played<()> {
        let (key, base) = self.line();
        for _ in 0..66 {
            let ahead = self.random.pick(&[1, 1, 2]);
            self.arrive(&key, base + ahead, None)?;
        }
        if self.chance(500) {
            self.wrote_all(key)?;
        }
        let key = off(9);
        for _ in 0..66 {
            self.deliver(9, Record { reliable: 1, number: 5, handle: 1, ..Record::ZERO })?;
            if self.chance(900) {
                self.pop(key)?;
            }
        }
        if self.chance(500) {
            self.wrote_all(key)?;
        }
        Ok(())
    }

    fn fill_buffer(&mut self) -> Played<()> {
        let (key, base) = self.line();
        let mut numbers: Vec<u32> = (1..34 + self.random.upto(0, 1)).collect();
        if self.chance(500) {
            self.random.shuffle(&mut numbers);
        }
        for n in numbers {
            self.arrive(&key, base + n, None)?;
        }
        self.arrive(&key, base, None).map(drop)
    }

    /// Single packets behind a gap, then the gap: as many bundles at once.
    fn fill_gap(&mut self) -> Played<()> {
        let (key, base) = self.line();
        for n in 1..=self.random.pick(&[14, 15, 16, 17]) {
            self.arrive(&key, base + n, None)?;
        }
        self.arrive(&key, base, None)?;
        for _ in 0..self.random.upto(0, 17) {
            self.pop(key)?;
        }
        self.arrive(&key, base, None).map(drop)
    }

    fn fill_queue(&mut self) -> Played<()> {
        let (key, base) = self.line();
        let length = self.random.pick(&[31, 32, 33, 33, 34, 40, SIZE]);
        for n in 0..35 {
            let range = Some((base, base.wrapping_add(length - 1)));
            self.arrive(&key, base + n, range)?;
            if self.chance(50) {
                self.arrive(&key, base + n, range)?;
            }
        }
        self.pop(key).map(drop)
    }

    fn fill_groups(&mut self) -> Played<()> {
        let is_on = self.chance(500);
        let step = self.random.pick(&[10, 12]);
        let put = |m: &mut Self, first: u32, place: u32| {
            let mut r = plain(is_on).range(first, first + 1);
            (r.number, r.handle) = (first + place & MASK, m.packet());
            m.deliver(7, r)
        };
        for i in 0..6 {
            let place = self.random.upto(0, 1);
            put(self, i * step, place)?;
        }
        let first = self.random.pick(&[0, step]);
        put(self, first, 1)?;
        put(self, first, 0)?;
        put(self, 70, 0).map(drop)
    }

    fn fill_places(&mut self) -> Played<()> {
        let length = self.random.pick(&[31, 32, 33, 34, SIZE]);
        let first = self.random.pick(&[0, 5, SIZE - 3]);
        let mut places: Vec<u32> = (0..length.min(34)).collect();
        self.random.shuffle(&mut places);
        if length < SIZE {
            places.insert(self.random.pick(&[0, 0, 5]), length);
        }
        for place in places {
            let mut r = plain(false).range(first, first + length - 1);
            (r.number, r.handle, r.reliable) = (first + place & MASK, self.packet(), self.chance(300).into());
            self.deliver(7, r)?;
        }
        self.pop(off(7)).map(drop)
    }

    fn fill_bundles(&mut self) -> Played<()> {
        let is_on = self.chance(300);
        let key = if is_on { on(7, 0) } else { off(7) };
        for _ in 0..self.random.upto(15, 18) {
            let handle = self.packet();
            self.deliver(7, Record { handle, ..plain(is_on) })?;
        }
        for _ in 0..self.random.upto(1, 3) {
            self.pop(key)?;
            for _ in 0..2 {
                let handle = self.packet();
                self.deliver(7, Record { handle, ..plain(is_on) })?;
            }
        }
        Ok(())
    }

    fn fill_handles(&mut self) -> Played<()> {
        if self.chance(500) {
            for k in 0..64 {
                let first = k & !31;
                let mut r = plain(false).range(first, first + 31);
                (r.number, r.handle) = (k, self.packet());
                self.deliver(7, r)?;
            }
            self.deliver(7, plain(false))?;
            self.pop(off(7))?;
            return self.deliver(7, plain(false)).map(drop);
        }
        let (key, base) = self.line();
        let length = self.random.pick(&[16, 21, 31, 32]);
        for k in 0..66 {
            let first = base + k - k % length;
            self.arrive(&key, base + k, Some((first, first + length - 1)))?;
            if k == 50 && self.chance(700) {
                self.wrote_all(key)?;
            }
        }
        let mut r = plain(true);
        (r.indexed, r.index, r.version) = (key.indexed, key.index, 1);
        self.deliver(key.address, r)?;
        self.pop(key)?;
        self.deliver(key.address, r).map(drop)
    }

    fn fill_channels(&mut self) -> Played<()> {
        let is_on = self.chance(600);
        for k in 0..self.random.upto(4, 11) {
            let mut r = plain(is_on);
            (r.reliable, r.handle) = (self.chance(400).into(), self.packet());
            if is_on && self.chance(400) {
                (r.indexed, r.index, r.version) = (1, self.random.upto(1, 3), 1);
            }
            if !is_on && self.chance(200) {
                (r.hascumulative, r.cumulative) = (1, 1);
            } else if self.chance(200) {
                (r.haslast, r.lastreliable) = (1, 3);
            }
            let address = if self.chance(900) { k } else { 0 };
            self.deliver(address, r)?;
            if self.chance(150) {
                self.call(Call::Channel(if is_on { on(k + 20, 0) } else { off(k + 20) }))?;
            }
            if self.chance(150) {
                self.call(Call::AcceptOut { time: self.time, address: k + 30, record: plain(is_on) })?;
            }
        }
        Ok(())
    }

    fn fill_out(&mut self) -> Played<()> {
        let key = if self.chance(500) { on(7, 0) } else { off(7) };
        self.call(Call::Channel(key))?;
        while self.chance(960) {
            let seen = self.seen(&key).expect("a channel");
            let len = seen.out.len() as u32;
            if self.chance(500) {
                let count = self.random.pick(&[1, 2, 3, 16, 32 - len.min(32), 33 - len.min(32)]);
                self.prepare(self.time, key, 1, count.min(17))?;
            } else {
                let number = self.number(len + 100);
                let record = Record { on: key.on, reliable: 1, number, ..Record::ZERO };
                self.call(Call::AcceptOut { time: self.time, address: 7, record })?;
            }
            if len > 30 && self.chance(200) {
                let mut r = plain(key.on == 1);
                r.ackcount = 3;
                r.acks.iter_mut().zip(&seen.out).for_each(|(a, e)| *a = e.number);
                self.deliver(7, r)?;
            }
        }
        Ok(())
    }

    // ---- The other calls

    fn forwarded(&mut self) -> Played<()> {
        for _ in 0..self.random.upto(10, 60) {
            self.tick(3);
            let address = self.random.pick(&[7, 7, 8]);
            let key = self.key(address);
            if self.chance(500) {
                let time = if self.chance(980) { self.time } else { self.time.saturating_sub(1) };
                let record = self.any_record(&key, true);
                self.call(Call::AcceptOut { time, address, record })?;
            } else if self.chance(800) {
                let count = self.random.pick(&[1, 1, 1, 2, 4]);
                self.several(address, count)?;
            } else {
                self.any_call()?;
            }
        }
        Ok(())
    }

    /// A long ack queue, and what forwarded acks make of it.
    fn acks_forwarded(&mut self) -> Played<()> {
        let key = if self.chance(700) { on(7, 0) } else { off(7) };
        for _ in 0..self.random.upto(3, 30) {
            let mut r = reliable(self.number(self.base + 10));
            (r.on, r.handle) = (key.on, self.packet());
            self.deliver(7, r)?;
            if self.chance(500) {
                self.pop(key)?;
            }
        }
        for _ in 0..self.random.upto(1, 12) {
            let acks = self.seen(&key).map_or(vec![], |s| s.acks);
            let mut r = plain(key.on == 1);
            if key.on == 1 && self.chance(250) {
                (r.hascumulative, r.cumulative) = (1, self.among(&acks, self.base));
            }
            r.ackcount = self.random.upto(0, 4);
            for i in 0..4 {
                r.acks[i] = self.among(&acks, self.base);
            }
            self.call(Call::AcceptOut { time: self.time, address: 7, record: r })?;
        }
        Ok(())
    }

    /// The source of an on-channel, moved by the numbers that pass.
    fn observed(&mut self) -> Played<()> {
        let key = on(7, 0);
        for _ in 0..self.random.upto(5, 30) {
            let seen = self.seen(&key);
            let source = seen.as_ref().map_or(0, |s| s.source);
            let far = [0, 1, MASK, MASK - 1, 5, HALF, HALF - 1, HALF - 2, HALF + 1];
            let number = source.wrapping_add(self.random.pick(&far));
            self.arrive(&key, number, None)?;
            if self.chance(400) {
                let count = self.random.upto(0, 3);
                self.prepare(self.time, key, 1, count)?;
            }
            if seen.is_some_and(|s| s.out.len() > 20) {
                let mut r = plain(true);
                (r.hascumulative, r.cumulative) = (1, source);
                self.deliver(7, r)?;
            }
        }
        Ok(())
    }

    fn any_call(&mut self) -> Played<u32> {
        let mut key = self.any_channel();
        let seen = self.seen(&key);
        let time = if self.chance(960) { self.time } else { self.time.saturating_sub(1) };
        if self.chance(8) {
            let bad = [Key { on: 2, ..key }, Key { indexed: 2, ..key }, Key { on: 1, indexed: 1, index: 0, ..key }];
            key = self.random.pick(&bad);
        }
        match self.random.weighed(&[(30, 0), (15, 1), (16, 2), (6, 3), (14, 4), (3, 5), (2, 6), (4, 7), (8, 8), (8, 9)]) {
            0 => {
                let count = self.random.weighed(&[(10, 0), (40, 1), (20, 2), (10, 3), (4, 16), (1, 17), (1, u32::MAX)]);
                let flag = self.random.weighed(&[(60, 1), (30, 0), (1, 2)]);
                self.prepare(time, key, flag, count)
            }
            1 => {
                let mut acks = seen.map_or(vec![], |s| s.acks);
                let count = self.random.upto(0, acks.len() as u32) as usize;
                match self.random.upto(0, 2) {
                    0 => acks.truncate(count),
                    1 => {
                        self.random.shuffle(&mut acks);
                        acks.truncate(count);
                    }
                    _ => {
                        let few = self.random.upto(0, 3);
                        acks = (0..few).map(|_| self.among(&acks, 0)).collect();
                    }
                }
                if self.chance(10) {
                    acks.resize(65, 0);
                }
                self.wrote(key, &acks)
            }
            2 => self.resend(time),
            3 => self.call(Call::Channel(key)),
            4 => {
                let places = self.random.pick(&[0, 1, 2, 64, 64, 64, 100]);
                self.call(Call::NextBundle { key, places })
            }
            5 => self.call(Call::LastAcceptedPrefix),
            6 => self.call(Call::ResetPrefixOffset),
            7 => self.call(Call::TransferPrefixOffset),
            8 => {
                let back = self.random.upto(0, 12);
                self.call(Call::Holds(self.handle.wrapping_sub(back)))
            }
            _ => {
                let record = self.any_record(&key, true);
                self.call(Call::AcceptOut { time, address: key.address, record })
            }
        }
    }

    fn resend(&mut self, time: u64) -> Played<u32> {
        let entries: Vec<lib::OutEntry> = self.keys().iter().filter_map(|k| self.seen(k)).flat_map(|s| s.out).collect();
        let (mut timeout, mut give_up) = (self.random.pick(&[0, 1, 5, 100]), self.random.pick(&[10, 1_000, u64::MAX]));
        if !entries.is_empty() && self.chance(600) {
            let e = self.random.pick(&entries);
            timeout = (time.saturating_sub(e.sent) + self.random.pick(&[0, 1, 2])).saturating_sub(1);
            if self.chance(500) {
                give_up = time.saturating_sub(e.time).saturating_add(self.random.pick(&[0, 1, 2]));
            }
        }
        let held = 2 * entries.iter().filter(|e| e.held == 1).count();
        let places = self.random.pick(&[768, 768, 768, 0, 1, 3, held, held.saturating_sub(1)]);
        self.call(Call::TakeResends { time, timeout, give_up, places })
    }

    fn sends(&mut self) -> Played<()> {
        self.time = self.random.pick(&[0, 0, 0, u64::MAX - 200]);
        for _ in 0..self.random.upto(1, 3) {
            let address = self.random.pick(&[7, 7, 8]);
            let key = self.key(address);
            self.call(Call::Channel(key))?;
        }
        for _ in 0..self.random.upto(10, 60) {
            self.tick(6);
            if self.chance(600) {
                self.any_call()?;
            } else {
                let key = self.any_channel();
                let r = self.any_record(&key, false);
                self.deliver(key.address, r)?;
            }
        }
        Ok(())
    }

    fn mixed(&mut self, most: u32) -> Played<()> {
        for _ in 0..self.random.upto(15, most) {
            let step = self.random.pick(&[3, 3, 3, 4_000]);
            self.tick(step);
            let address = self.address();
            let key = if self.chance(500) { self.any_channel() } else { self.key(address) };
            if self.chance(350) {
                self.any_call()?;
            } else if self.chance(300) {
                self.pop(key)?;
            } else {
                let count = self.random.pick(&[1, 1, 1, 1, 2, 3, 8]);
                if count == 1 {
                    let r = self.any_record(&key, false);
                    self.deliver(key.address, r)?;
                } else {
                    self.several(key.address, count)?;
                }
            }
        }
        Ok(())
    }
}
