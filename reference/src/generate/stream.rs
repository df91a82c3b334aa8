//! A stream in the making: every call is written down and carried out by the reference
//! processor, so that later ones can depend on its state and its packets.

use crate::calls::{self, Call, Form};
use crate::generate::{flight, wild, Random};
use crate::packets::{Bytes, PACKET_BYTES};
use crate::sorting::Event;
use crate::station::Station;
use crate::tables::{word, KHI, KLO, KTOF};

pub struct Stream {
    pub random: Random,
    pub form: Form,
    pub station: Station,
    /// The tables at the beginning, for `tables.bin`.
    pub tables: Vec<u8>,
    /// Khi, Klo and Ktof as the tables were made.
    pub offsets: [i32; 3],
    /// Events made for wild tables; none if the tables are realistic.
    pub aimed: Vec<Event>,
    pub bytes: Vec<u8>,
    pub calls: usize,
    /// How many of them are `gathered` records.
    pub gathered: usize,
    /// No more calls than these are written.
    pub most: usize,
    pub time: u32,
    /// Whether states are handed in now and then.
    pub states: bool,
}

pub fn offsets(tables: &[u8]) -> [i32; 3] {
    let tables = tables.try_into().expect("tables of the right length");
    [KHI, KLO, KTOF].map(|address| word(tables, address))
}

impl Stream {
    /// Every second seed has realistic tables, the others wild ones.
    pub fn new(seed: u64, form: Form) -> Stream {
        let mut random = Random::new(seed);
        let (tables, aimed) =
            if seed % 2 == 0 { (flight::tables(), Vec::new()) } else { wild::tables(&mut random) };
        let station = Station::new(tables.clone()).expect("tables of the right length");
        let time = random.bits() as u32;
        Stream {
            random,
            form,
            station,
            offsets: offsets(&tables),
            tables,
            aimed,
            bytes: Vec::new(),
            calls: 0,
            gathered: 0,
            most: usize::MAX,
            time,
            states: false,
        }
    }

    /// Writes the call down and carries it out, if the form has a record for it.
    pub fn call(&mut self, call: Call) {
        let from = self.bytes.len();
        if self.calls >= self.most || !calls::write(&call, self.form, &mut self.bytes) {
            return;
        }
        self.calls += 1;
        // Carried out as read: a line of `minute` ends before its first zero byte.
        match calls::read(&mut &self.bytes[from..], self.form) {
            Ok(Some(Call::Event(event))) => drop(self.station.event(&event)),
            Ok(Some(Call::Reading(counts))) => drop(self.station.reading(&counts)),
            Ok(Some(Call::Line(line))) => drop(self.station.line(&line)),
            Ok(Some(Call::Close(time))) => drop(self.station.close(time)),
            Ok(Some(Call::Package(package))) => drop(self.station.package(&package)),
            Ok(Some(Call::Packet(_))) => {}
            Ok(Some(Call::Listing(i, time))) => drop(self.station.listing(i, time)),
            Ok(Some(Call::Gather(packet))) => drop(self.station.gather(&packet)),
            Ok(Some(Call::Gathered)) => self.station.gather_anew(),
            Ok(Some(Call::ToSecond(packet))) => drop(self.station.to_second(&packet)),
            Ok(Some(Call::ToFirst(packet))) => drop(self.station.to_first(&packet)),
            Ok(Some(Call::State(state))) => self.station.hand_in(*state),
            Ok(Some(Call::Show)) => {}
            Ok(Some(Call::Slots(slots))) => self.station.hand_in_slots(&slots),
            Ok(None) | Err(_) => unreachable!("a record just written"),
        }
    }

    pub fn event(&mut self, event: Event) {
        self.call(Call::Event(event));
    }

    pub fn line(&mut self, line: impl Into<Vec<u8>>) {
        self.call(Call::Line(line.into()));
    }

    /// A package of these bytes, `error` added to its sum.
    pub fn package(&mut self, bytes: &[u8], error: u16) {
        let sum = bytes.iter().fold(error, |sum, byte| sum.wrapping_add(*byte as u16));
        let n = (bytes.len() as u16 + 2).to_be_bytes();
        self.call(Call::Package([&n[..], bytes, &sum.to_be_bytes()].concat()));
    }

    /// Closes the interval, a minute later most of the time.
    pub fn close(&mut self) {
        self.time = match self.random.below(20) {
            0 => self.random.bits() as u32,
            1 => self.random.pick(&[0, u32::MAX]),
            _ => self.time.wrapping_add(60),
        };
        self.call(Call::Close(self.time));
    }

    /// Packet k of the last close.
    pub fn written(&self, k: usize) -> Bytes {
        self.station.output[PACKET_BYTES * k..][..PACKET_BYTES].try_into().unwrap()
    }
}
