//! A closed network of single servers: a job that was served goes to a drawn station.

use crate::model::{Bits, Model, Outgoing};
use crate::words::WordStream;

pub struct Stations {
    /// The number of jobs that each station begins with.
    pub jobs: u64,
    /// A service takes a time from 1 to this, drawn.
    pub service: u64,
    /// The time from one station to the next.
    pub travel: u64,
}

pub struct Station {
    /// The jobs that wait or are served here.
    length: u64,
    /// The jobs that were served here.
    served: u64,
}

#[derive(Clone, Copy, Default)]
pub enum Payload {
    #[default]
    Arrive,
    Depart,
}

const SERVICE_BEGAN: u32 = 0;
const NEXT_SERVICE_BEGAN: u32 = 1;
const WAS_EMPTY: u32 = 2;

impl Stations {
    #[inline(always)]
    fn begin_service(&self, lp: u32, words: &mut WordStream, out: &mut Outgoing<Payload>) {
        let drawn = words.below(self.service);
        out.send(lp, 1 + drawn, Payload::Depart);
    }
}

impl Model for Stations {
    type State = Station;
    type Payload = Payload;

    fn start(&self, lp: u32, words: &mut WordStream, out: &mut Outgoing<Payload>) -> Station {
        if self.jobs != 0 {
            self.begin_service(lp, words, out);
        }
        Station { length: self.jobs, served: 0 }
    }

    #[inline(always)]
    fn forward(
        &self,
        lp: u32,
        payload: Payload,
        station: &mut Station,
        bits: &mut Bits,
        words: &mut WordStream,
        out: &mut Outgoing<Payload>,
    ) {
        match payload {
            Payload::Arrive => {
                station.length = station.length.wrapping_add(1);
                if station.length == 1 {
                    bits.set(SERVICE_BEGAN);
                    self.begin_service(lp, words, out);
                }
                out.emit(3, station.length);
            }
            // Only an event that is executed too early, and is taken back, comes here.
            Payload::Depart if station.length == 0 => bits.set(WAS_EMPTY),
            Payload::Depart => {
                station.length -= 1;
                station.served = station.served.wrapping_add(1);
                let dest = words.below(u64::from(out.lps())) as u32;
                out.send(dest, self.travel, Payload::Arrive);
                if station.length != 0 {
                    bits.set(NEXT_SERVICE_BEGAN);
                    self.begin_service(lp, words, out);
                }
                out.emit(4, station.served);
            }
        }
    }

    fn reverse(&self, payload: Payload, station: &mut Station, bits: Bits) {
        match payload {
            Payload::Arrive => station.length = station.length.wrapping_sub(1),
            Payload::Depart if bits.get(WAS_EMPTY) => {}
            Payload::Depart => {
                station.length = station.length.wrapping_add(1);
                station.served = station.served.wrapping_sub(1);
            }
        }
    }
}
