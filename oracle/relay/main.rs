//! The original as a program: reads a script on standard input and answers it line by line. `oracle/build` builds it.
//!
//!     original [forwarding]      the first table forwards if the word is given
//!
//! The driver's language, with 01's answers. A refusal has the number of the original's own rejection, 5 to 9; the refusals
//! that the port adds are not known here.
//!
//!     in T A P FIELDS            as the driver
//!     pig P FIELDS               as the driver
//!     pop A KEY                  KEY is off, on or idx I
//!
//! And a line for each other call:
//!
//!     new [forwarding] [nested]  a new table. nested: a held record carries the one before it, instead of all in a row
//!     done                       of the last `in`: how many of its records were not rejected, and the version answered
//!     out T A P FIELDS           `accept_out`
//!     find A KEY                 `channel` or `off_channel`
//!     next A KEY PLACES          `next_bundle`, as pop: the original knows no lent list
//!     prep T A KEY rel|unrel H.. `prepare`
//!     wrote A KEY N..            its other half: each number leaves the ack queue at its earliest place
//!     resend T TIMEOUT GIVEUP PLACES
//!     prefix, reset, transfer    the prefix calls
//!     holds H                    whether a packet with that handle is kept
//!     dump                       the whole state
//!
//! `bad` answers a line that can't be read, `unfit` one that names what the original's types can't hold (an illegal number, a
//! zero index), `lacks` an ack that isn't queued. `panic` says that the original panicked; so does every line after it, up to
//! the next `new`.

#![allow(dead_code, unused_imports, unused_variables)]

mod bundle;
mod clock;
mod packet;
mod proto;
mod said;
mod script;
mod seq;

use std::collections::{BTreeMap, VecDeque};
use std::fmt;
use std::io::{Read as _, Write as _};
use std::net::SocketAddr;
use std::num::NonZero;
use std::panic::{AssertUnwindSafe, catch_unwind};
use std::time::Duration;

use bundle::Bundle;
use packet::Packet;
use proto::{Channel, Protocol};
use script::{Failed, Read, Words};
use seq::Seq;

/// A channel's key.
#[derive(Debug, Clone, Copy, PartialEq, Eq, PartialOrd, Ord)]
pub enum Key {
    Off(SocketAddr),
    On(SocketAddr, Option<NonZero<u32>>),
}

fn shown(addr: &SocketAddr) -> u32 {
    match addr {
        SocketAddr::V4(addr) => (*addr.ip()).into(),
        SocketAddr::V6(_) => unreachable!(),
    }
}

impl fmt::Display for Key {
    fn fmt(&self, f: &mut fmt::Formatter<'_>) -> fmt::Result {
        match self {
            Key::Off(addr) => write!(f, "off {}", shown(addr)),
            Key::On(addr, None) => write!(f, "on {} -", shown(addr)),
            Key::On(addr, Some(index)) => write!(f, "on {} {index}", shown(addr)),
        }
    }
}

struct Relay {
    protocol: Protocol,
    nested: bool,
    held: VecDeque<Packet>,
    done: String,
    panicked: bool,
}

impl Relay {
    fn new(forwarding: bool, nested: bool) -> Self {
        Self {
            protocol: if forwarding {
                Protocol::new_forwarding()
            } else {
                Protocol::new()
            },
            nested,
            held: VecDeque::new(),
            done: "done 0".into(),
            panicked: false,
        }
    }

    /// The original's handle of a channel, which it makes if there is none.
    fn channel(&mut self, key: Key) -> Channel<'_> {
        match key {
            Key::Off(addr) => self.protocol.off_channel(addr),
            Key::On(addr, index) => self.protocol.channel(addr, index),
        }
    }

    /// 01's answer of a channel.
    fn view(&self, key: Key) -> String {
        match self.protocol.view(key) {
            Some((_, Some(expected))) => format!("ok {key} exp {expected}"),
            Some((_, None)) => format!("ok {key}"),
            None => "no channel".into(),
        }
    }

    /// Its version, where it has one.
    fn version(&self, key: Key) -> String {
        let version = self.protocol.view(key).and_then(|(version, _)| version);
        version.map_or(String::new(), |v| format!(" ver {v}"))
    }

    /// One line's answer; none for a record that is held.
    fn answer(&mut self, line: &[u8]) -> Read<Option<String>> {
        let mut words = Words::of(line);
        let held = match words.word()? {
            b"in" => std::mem::take(&mut self.held),
            b"pig" => {
                let packet = words.record()?;
                words.end()?;
                self.held.push_back(packet);
                return Ok(None);
            }
            command => return self.other(command, words).map(Some),
        };
        clock::set(words.long()?);
        let addr = words.address()?;
        let packet = words.record()?;
        words.end()?;
        Ok(Some(self.accept(addr, packet, held)))
    }

    fn accept(&mut self, addr: SocketAddr, mut packet: Packet, held: VecDeque<Packet>) -> String {
        let count = held.len() + 1;
        packet.piggybacks = if self.nested { nest(held) } else { held };
        let key = record_key(addr, &packet);
        said::rejections();
        let accepted = self.protocol.accept(packet, addr);
        let same = accepted.as_ref().ok().map(|channel| {
            let index = channel.index().map(|i| i.index);
            let said = if channel.is_on() {
                Key::On(addr, index)
            } else {
                Key::Off(addr)
            };
            assert!(said == key, "the answer is another channel");
        });
        let rejections = said::rejections();
        self.done = format!("done {}", count - rejections.len());
        if same.is_none() {
            return format!(
                "no {}",
                rejections.last().expect("a rejection has its reason")
            );
        }
        self.done += &self.version(key);
        self.view(key)
    }

    fn other(&mut self, command: &[u8], mut words: Words) -> Read<String> {
        let answer = match command {
            b"new" => {
                let (forwarding, nested) = (words.is("forwarding"), words.is("nested"));
                words.end()?;
                *self = Self::new(forwarding, nested);
                "new".into()
            }
            b"done" => {
                words.end()?;
                self.done.clone()
            }
            b"out" => {
                clock::set(words.long()?);
                let addr = words.address()?;
                let packet = words.record()?;
                words.end()?;
                said::rejections();
                let key = record_key(addr, &packet);
                if self.protocol.accept_out(&packet, addr) {
                    self.view(key) + &self.version(key)
                } else {
                    format!("no {}", said::rejections().last().expect("a reason"))
                }
            }
            b"find" => {
                let addr = words.address()?;
                let key = words.key(addr)?;
                words.end()?;
                self.channel(key);
                self.view(key) + &self.version(key)
            }
            b"pop" | b"next" => {
                let addr = words.address()?;
                let key = words.key(addr)?;
                if command == b"next" {
                    words.number()?;
                }
                words.end()?;
                bundle(self.channel(key).next_bundle())
            }
            b"prep" => self.prepare(words)?,
            b"wrote" => self.wrote(words)?,
            b"resend" => {
                clock::set(words.long()?);
                let timeout = Duration::from_millis(words.long()?);
                let give_up = Duration::from_millis(words.long()?);
                words.number()?;
                words.end()?;
                rows(self.protocol.take_resends(timeout, give_up))
            }
            b"prefix" => {
                words.end()?;
                format!("prefix {}", self.protocol.last_accepted_prefix())
            }
            b"reset" => {
                words.end()?;
                self.protocol.reset_prefix_offset();
                "ok".into()
            }
            b"transfer" => {
                words.end()?;
                self.protocol.transfer_prefix_offset_from_last_received();
                "ok".into()
            }
            b"holds" => {
                let handle = words.number()?;
                words.end()?;
                if self.protocol.holds(handle) {
                    "yes"
                } else {
                    "no"
                }
                .into()
            }
            b"dump" => {
                words.end()?;
                self.protocol.dump()
            }
            _ => return Err(Failed::Bad),
        };
        Ok(answer)
    }

    fn prepare(&mut self, mut words: Words) -> Read<String> {
        clock::set(words.long()?);
        let addr = words.address()?;
        let key = words.key(addr)?;
        let reliable = words.is("rel");
        if !reliable && !words.is("unrel") {
            return Err(Failed::Bad);
        }
        let mut bundle = Bundle::default();
        while words.more() {
            bundle.packets.push(Packet {
                handle: words.number()?,
                sent_on: Some(key),
                ..Packet::default()
            });
        }
        words.end()?;
        self.channel(key).prepare(&mut bundle, reliable);
        let config = bundle.config;
        let number = |n: Option<Seq>| n.map_or("-".into(), |n| n.to_string());
        let mut text = format!("sent {}", number(config.sequence_num));
        if config.on_channel {
            text += &match config.indexed_channel {
                None => " on -".into(),
                Some((index, version)) => format!(" on {index} ver {version}"),
            };
            text += &format!(" exp {}", number(config.cumulative_ack));
        } else {
            text += " off";
        }
        Ok(format!("{text} offset {}", bundle.prefix_offset))
    }

    /// Numbers that stand at the front of the queue go the original's way, through a `prepare` of no packets, which changes
    /// nothing else. For others the original has no way, so they are taken out here.
    fn wrote(&mut self, mut words: Words) -> Read<String> {
        let addr = words.address()?;
        let key = words.key(addr)?;
        let mut names = Vec::new();
        while words.more() {
            names.push(words.seq()?);
        }
        words.end()?;
        let Some(acks) = self.protocol.acks(key) else {
            return Ok("lacks".into());
        };
        if acks.len() >= names.len() && acks.iter().zip(&names).all(|(a, b)| a == b) {
            let mut bundle = Bundle {
                acks_written: names.len(),
                ..Bundle::default()
            };
            self.channel(key).prepare(&mut bundle, false);
            return Ok("ok".into());
        }
        let all = self.protocol.take_acks(key, &names);
        Ok(if all { "ok" } else { "lacks" }.into())
    }
}

/// The channel that a record goes to.
fn record_key(addr: SocketAddr, packet: &Packet) -> Key {
    let config = &packet.config;
    if config.on_channel {
        Key::On(addr, config.indexed_channel.map(|(index, _)| index))
    } else {
        Key::Off(addr)
    }
}

/// Each record carries the one before it.
fn nest(held: VecDeque<Packet>) -> VecDeque<Packet> {
    held.into_iter()
        .fold(VecDeque::new(), |before, mut packet| {
            packet.piggybacks = before;
            VecDeque::from([packet])
        })
}

fn bundle(bundle: Option<Bundle>) -> String {
    let Some(bundle) = bundle else {
        return "none".into();
    };
    let handles: String = bundle.iter().map(|p| format!(" {}", p.handle)).collect();
    format!("bundle {}{handles}", bundle.len())
}

/// Rows per channel, sorted by key. Within a channel their order is the original's.
fn rows(resends: Vec<(SocketAddr, Packet)>) -> String {
    let mut text = format!("rows {}", resends.len());
    let mut channels: BTreeMap<Key, String> = BTreeMap::new();
    for (addr, packet) in resends {
        let key = packet.sent_on.expect("a packet that was sent");
        assert!(matches!(key, Key::Off(a) | Key::On(a, _) if a == addr));
        *channels.entry(key).or_default() += &format!(" {}", packet.handle);
    }
    for (key, handles) in channels {
        text += &format!(" | {key}:{handles}");
    }
    text
}

fn main() {
    std::panic::set_hook(Box::new(|_| ()));
    let forwarding = std::env::args().nth(1).is_some_and(|w| w == "forwarding");
    let mut relay = Relay::new(forwarding, false);
    let mut input = Vec::new();
    std::io::stdin()
        .read_to_end(&mut input)
        .expect("standard input");
    let mut output = Vec::new();
    for line in input.split_inclusive(|&b| b == b'\n') {
        let answer = match line.strip_suffix(b"\n") {
            None => Err(Failed::Bad),
            Some(line) => {
                let over = relay.panicked && line.split(|&b| b == b' ').next() != Some(b"new");
                let ran = catch_unwind(AssertUnwindSafe(|| match over {
                    true => Ok(Some("panic".into())),
                    false => relay.answer(line),
                }));
                ran.unwrap_or_else(|_| {
                    relay.panicked = true;
                    Ok(Some("panic".into()))
                })
            }
        };
        match answer {
            Ok(None) => continue,
            Ok(Some(text)) => output.extend(text.bytes()),
            Err(Failed::Bad) => output.extend(b"bad"),
            Err(Failed::Unfit) => output.extend(b"unfit"),
        }
        output.push(b'\n');
    }
    std::io::stdout()
        .write_all(&output)
        .expect("standard output");
}
