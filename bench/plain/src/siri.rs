//! What the two kinds of deliveries have in common: the root, and what a delivery is read with.

use crate::fault::{BodyFault, Fault};
use crate::gtfs::{StopTime, Timetable};
use crate::json::{members, Members, Needed, Object, Read, Repeated};
use crate::time::{local_day, Day};
use crate::zone::Zone;

/// Most seconds that a stop may be early or late.
pub const MOST_DELAY: i64 = 604_800;
/// Most bytes of the ids of a journey's places that aren't the scheduled stops.
const MOST_PLACES: usize = 4_096;

pub struct Context {
    pub table: Timetable,
    pub zone: Zone,
    pub window: Window,
}

/// Service days, each with the second at which it starts.
pub struct Window {
    first: Day,
    starts: Vec<i64>,
}

impl Window {
    pub fn new(zone: &Zone, first: Day, days: u32) -> Window {
        let noon = |day: i32| i64::from(day) * 86_400 + 43_200;
        let start = |day| noon(day) - zone.offset_of_clock(noon(day)) - 43_200;
        Window { first, starts: (first.0..first.0 + days as i32).map(start).collect() }
    }

    pub fn first(&self) -> Day {
        self.first
    }

    pub fn start_of(&self, day: Day) -> Option<i64> {
        self.starts.get(usize::try_from(i64::from(day.0) - i64::from(self.first.0)).ok()?).copied()
    }
}

impl Context {
    pub fn local_day(&self, secs: i64) -> Day {
        local_day(&self.zone, secs)
    }
}

members! {
    Root<'a, S> {
        siri: Object<Siri<'a, S>> = "Siri",
        service: Object<S> = "ServiceDelivery",
    }
    Siri<'a, S> {
        service: Object<S> = "ServiceDelivery",
    }
}

/// The service delivery of a body.
pub fn service_of<'a, S: Members<'a>>(body: &'a [u8]) -> Result<S, BodyFault> {
    let Read(root) = serde_json::from_slice::<Read<Object<Root<S>>>>(body).map_err(|_| BodyFault::NotJson)?;
    let Object::Present(root) = root else { return Err(BodyFault::NotDelivery("Siri")) };
    let service = match root.siri {
        Object::Missing => root.service,
        Object::Wrong => return Err(BodyFault::NotDelivery("Siri")),
        Object::Present(siri) => siri.service,
    };
    match service {
        Object::Present(service) => Ok(service),
        _ => Err(BodyFault::NotDelivery("ServiceDelivery")),
    }
}

/// The deliveries, all of them objects.
pub fn deliveries_of<'s, T>(deliveries: &'s Needed<T>, name: &'static str) -> Result<Vec<&'s T>, BodyFault> {
    let missing = BodyFault::NotDelivery(name);
    on_the_way(deliveries.0.as_ref().ok_or(missing)?, name)
}

/// The items of a step on the way down, all of them objects.
pub fn on_the_way<'s, T>(items: &'s Repeated<T>, name: &'static str) -> Result<Vec<&'s T>, BodyFault> {
    match items.objects(name) {
        Ok(items) => Ok(items.collect()),
        Err(_) => Err(BodyFault::NotDelivery(name)),
    }
}

/// How a stop of a journey reads; times are said as delays, in seconds. A place is the stop at which the vehicle stops:
/// the scheduled one, or another of its station.
#[derive(Clone, Copy, PartialEq, Eq, Debug)]
pub enum StopReading {
    Absent,
    Skipped,
    Timed { arrival: i32, departure: i32, place: u32 },
}

impl StopReading {
    /// How many bytes the id of its place has, where that isn't the scheduled stop.
    pub fn place_bytes(&self, stop: &StopTime, table: &Timetable) -> usize {
        match *self {
            StopReading::Timed { place, .. } if place != stop.stop => table.stop_ids.text(place).len(),
            _ => 0,
        }
    }
}

/// What a stop supplies to those after it: the delay of its departure, at the scheduled stops.
#[derive(Clone, Copy, Default)]
pub struct Supply(Option<i32>);

impl Supply {
    pub fn at(self, stop: &StopTime) -> StopReading {
        match self.0 {
            Some(delay) => StopReading::Timed { arrival: delay, departure: delay, place: stop.stop },
            None => StopReading::Absent,
        }
    }

    /// The supply behind a stop that reads so.
    pub fn behind(self, reading: StopReading) -> Supply {
        match reading {
            StopReading::Skipped => self,
            StopReading::Absent => Supply(None),
            StopReading::Timed { departure, .. } => Supply(Some(departure)),
        }
    }
}

pub enum Reading {
    Cancelled,
    Stops(Vec<StopReading>),
}

/// The ids of a journey's places together aren't too long.
pub fn check_places(bytes: usize) -> Result<(), Fault> {
    if bytes <= MOST_PLACES {
        Ok(())
    } else {
        Err(Fault::PlacesTooLong(bytes))
    }
}

/// A delay that is in range.
pub fn in_range(at: usize, delay: i128) -> Result<i32, Fault> {
    if delay.abs() <= i128::from(MOST_DELAY) {
        Ok(delay as i32)
    } else {
        Err(Fault::DelayRange(at, delay))
    }
}
