//! The recorder: clocks, stamps, messages under way and versions.
use std::collections::BTreeMap;

use crate::trace::Key;

const DAY_MILLIS: u32 = 86_400_000;
const MAX_READING: u64 = (1 << 48) - 1;
const MAX_UNDER_WAY: usize = 64;
const PLACES: usize = 1_024;

/// Why something is refused, and its number.
#[derive(Clone, Copy)]
pub enum Refusal {
    UnknownKind = 1,
    CutShort = 2,
    MalformedTag = 3,
    SettingOutOfRange = 4,
    MisplacedSetUp = 5,
    OtherKeyKind = 6,
    NoSuchNode = 7,
    ReadingOutOfRange = 8,
    ClockFellBack = 9,
    CounterSpent = 10,
    NumberUnderWay = 11,
    TooManyUnderWay = 12,
    NumberNotUnderWay = 13,
    OtherAddressee = 14,
    MessageTooFarAhead = 15,
    StoreFull = 16,
    NotSettled = 18,
}

/// Stamps are in order of time, then counter.
#[derive(Clone, Copy, Default, PartialEq, Eq, PartialOrd, Ord)]
pub struct Stamp {
    pub time: u64,
    pub counter: u16,
}

impl Stamp {
    fn of_code(code: u64) -> Self {
        Stamp { time: code >> 16, counter: code as u16 }
    }
}

pub struct Event {
    pub stamp: Stamp,
    pub drift: u64,
}

pub struct Version {
    pub value: i32,
    pub stamp: Stamp,
    pub node: u8,
}

/// A kind of keys.
pub trait KeyKind: Copy + Ord {
    fn of(key: Key) -> Result<Self, Refusal>;
}

impl KeyKind for u32 {
    fn of(key: Key) -> Result<Self, Refusal> {
        match key {
            Key::Point(point) => Ok(point),
            Key::Tag(_) => Err(Refusal::OtherKeyKind),
        }
    }
}

impl KeyKind for [u8; 16] {
    fn of(key: Key) -> Result<Self, Refusal> {
        let Key::Tag(tag) = key else {
            return Err(Refusal::OtherKeyKind);
        };
        let len = tag.iter().position(|&byte| byte == 0).unwrap_or(tag.len());
        let (name, padding) = tag.split_at(len);
        let named = name.iter().all(|byte| matches!(byte, b'A'..=b'Z' | b'0'..=b'9' | b'-'));
        if name.is_empty() || !named || padding.iter().any(|&byte| byte != 0) {
            return Err(Refusal::MalformedTag);
        }
        Ok(tag)
    }
}

pub struct Settings {
    nodes: u8,
    lead: u32,
    backstep: u32,
}

impl Settings {
    pub fn new(nodes: u8, lead: u32, backstep: u32) -> Result<Self, Refusal> {
        if !(1..=16).contains(&nodes) || lead > DAY_MILLIS || backstep > DAY_MILLIS {
            return Err(Refusal::SettingOutOfRange);
        }
        Ok(Settings { nodes, lead, backstep })
    }
}

#[derive(Clone, Default)]
struct Node {
    high: u64,
    last: Stamp,
}

struct Message {
    number: u32,
    to: u8,
    stamp: Stamp,
}

pub struct Recorder<K> {
    lead: u64,
    backstep: u64,
    nodes: Vec<Node>,
    messages: Vec<Message>,
    versions: BTreeMap<(K, Stamp, u8), i32>,
}

impl<K: KeyKind> Recorder<K> {
    pub fn new(settings: Settings) -> Self {
        Recorder {
            lead: settings.lead.into(),
            backstep: settings.backstep.into(),
            nodes: vec![Node::default(); settings.nodes.into()],
            messages: Vec::with_capacity(MAX_UNDER_WAY),
            versions: BTreeMap::new(),
        }
    }

    fn node(&self, node: u8) -> Result<&Node, Refusal> {
        self.nodes.get(usize::from(node)).ok_or(Refusal::NoSuchNode)
    }

    fn reading(&self, node: &Node, raw: u64) -> Result<u64, Refusal> {
        if !(1..=MAX_READING).contains(&raw) {
            return Err(Refusal::ReadingOutOfRange);
        }
        if raw + self.backstep < node.high {
            return Err(Refusal::ClockFellBack);
        }
        Ok(raw)
    }

    fn enter(&mut self, node: u8, event: &Event) {
        let node = &mut self.nodes[usize::from(node)];
        node.high = node.high.max(event.stamp.time - event.drift);
        node.last = event.stamp;
    }

    fn place_of(&self, number: u32) -> Option<usize> {
        self.messages.iter().position(|message| message.number == number)
    }

    pub fn note(&mut self, node: u8, raw: u64) -> Result<Event, Refusal> {
        let state = self.node(node)?;
        let event = event_behind(state.last, self.reading(state, raw)?)?;
        self.enter(node, &event);
        Ok(event)
    }

    pub fn send(&mut self, node: u8, raw: u64, to: u8, number: u32) -> Result<Event, Refusal> {
        let state = self.node(node)?;
        self.node(to)?;
        if self.place_of(number).is_some() {
            return Err(Refusal::NumberUnderWay);
        }
        if self.messages.len() == MAX_UNDER_WAY {
            return Err(Refusal::TooManyUnderWay);
        }
        let event = event_behind(state.last, self.reading(state, raw)?)?;
        self.enter(node, &event);
        self.messages.push(Message { number, to, stamp: event.stamp });
        Ok(event)
    }

    pub fn receipt(&mut self, node: u8, raw: u64, number: u32) -> Result<Event, Refusal> {
        let state = self.node(node)?;
        let place = self.place_of(number).ok_or(Refusal::NumberNotUnderWay)?;
        let message = &self.messages[place];
        if message.to != node {
            return Err(Refusal::OtherAddressee);
        }
        let reading = self.reading(state, raw)?;
        if message.stamp.time > reading + self.lead {
            return Err(Refusal::MessageTooFarAhead);
        }
        let event = event_behind(state.last.max(message.stamp), reading)?;
        self.enter(node, &event);
        self.messages.swap_remove(place);
        Ok(event)
    }

    pub fn loss(&mut self, number: u32) -> Result<(), Refusal> {
        let place = self.place_of(number).ok_or(Refusal::NumberNotUnderWay)?;
        self.messages.swap_remove(place);
        Ok(())
    }

    pub fn put(&mut self, node: u8, raw: u64, key: K, value: i32) -> Result<Event, Refusal> {
        let state = self.node(node)?;
        if self.versions.len() == PLACES {
            return Err(Refusal::StoreFull);
        }
        let event = event_behind(state.last, self.reading(state, raw)?)?;
        self.enter(node, &event);
        self.versions.insert((key, event.stamp, node), value);
        Ok(event)
    }

    pub fn read(&self, key: K, code: u64) -> Result<Option<Version>, Refusal> {
        let stamp = Stamp::of_code(code);
        if self.nodes.iter().any(|node| node.last < stamp) {
            return Err(Refusal::NotSettled);
        }
        let up_to = (key, Stamp::default(), 0)..=(key, stamp, u8::MAX);
        let newest = self.versions.range(up_to).next_back();
        Ok(newest.map(|(&(_, stamp, node), &value)| Version { value, stamp, node }))
    }
}

/// The stamp rule: an event at this reading, behind the last stamp that is known.
fn event_behind(last: Stamp, reading: u64) -> Result<Event, Refusal> {
    let time = last.time.max(reading);
    let counter = if time == last.time { last.counter.checked_add(1).ok_or(Refusal::CounterSpent)? } else { 0 };
    Ok(Event { stamp: Stamp { time, counter }, drift: time - reading })
}
