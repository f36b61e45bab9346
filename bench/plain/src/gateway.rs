//! What is kept: of each journey and each situation the bytes of the entity that counts, and the last SIRI text.

use crate::fault::{BodyFault, Fault, Report};
use crate::propagate::readings_of;
use crate::shown::{check_calls, write_siri};
use crate::siri::{Context, Window};
use crate::time::{Day, Instant};
use crate::words::last_day;
use crate::{estimated, situations, written};
use std::collections::btree_map::{BTreeMap, Entry};
use std::io::{self, Write};

const MOST_JOURNEYS: usize = 50_000;
const MOST_SITUATIONS: usize = 5_000;
const MOST_ALERT: usize = 65_536;

struct Journey {
    recorded: Instant,
    /// Empty where nothing is known.
    entity: Box<[u8]>,
}

struct Situation {
    version: u64,
    is_served: bool,
    entity: Box<[u8]>,
}

/// How a server's window moves: it has `days` days, the first at most `keep` days before a body's moment.
pub struct Rolling {
    pub keep: u32,
    pub days: u32,
}

pub struct Gateway {
    context: Context,
    /// A server's window moves; a command's doesn't.
    rolling: Option<Rolling>,
    journeys: BTreeMap<(Day, u32), Journey>,
    situations: BTreeMap<Box<str>, Situation>,
    feed_bytes: usize,
    siri: Vec<u8>,
}

impl Gateway {
    pub fn new(context: Context, rolling: Option<Rolling>) -> Gateway {
        let (journeys, situations) = (BTreeMap::new(), BTreeMap::new());
        let mut gateway = Gateway { context, rolling, journeys, situations, feed_bytes: 0, siri: Vec::new() };
        let nothing = crate::propagate::FeedReading { journeys: BTreeMap::new(), report: Report::default() };
        write_siri(&mut gateway.siri, &nothing, &gateway.context, 0).expect("a vector can be written");
        gateway
    }

    /// The window of a body that comes at the moment, where it isn't the present one.
    fn window_at(&self, moment: i64) -> Option<Window> {
        let rolling = self.rolling.as_ref()?;
        let last = last_day().0 - (rolling.days as i32 - 1);
        let first = Day((self.context.local_day(moment).0 - rolling.keep as i32).min(last));
        (first > self.context.window.first()).then(|| Window::new(&self.context.zone, first, rolling.days))
    }

    /// What the body says counts from here on: days before the window are dropped.
    fn roll(&mut self, moment: i64) {
        if let Some(window) = self.window_at(moment) {
            let kept = self.journeys.split_off(&(window.first(), 0));
            let dropped = std::mem::replace(&mut self.journeys, kept);
            self.feed_bytes -= dropped.values().map(|journey| journey.entity.len()).sum::<usize>();
            self.context.window = window;
        }
    }

    pub fn take_estimated(&mut self, body: &[u8], moment: i64) -> Result<Report, BodyFault> {
        let service = estimated::read(body)?;
        self.roll(moment);
        let mut report = Report::default();
        for (index, verdict) in estimated::verdicts(&service, &self.context).enumerate() {
            let record = match verdict {
                Ok(record) => record,
                Err(fault) => {
                    report.add(index, Err(fault));
                    continue;
                }
            };
            let count = self.journeys.len();
            let extra = record.extra_calls;
            let entity = || written::journey_entity(&record, &self.context).into_boxed_slice();
            match self.journeys.entry((record.day, record.trip)) {
                Entry::Vacant(_) if count >= MOST_JOURNEYS => {
                    report.passed += extra;
                    report.add(index, Err(Fault::Full));
                    continue;
                }
                Entry::Vacant(place) => {
                    let journey = place.insert(Journey { recorded: record.at, entity: entity() });
                    self.feed_bytes += journey.entity.len();
                }
                Entry::Occupied(mut place) if record.at >= place.get().recorded => {
                    let old = place.insert(Journey { recorded: record.at, entity: entity() });
                    self.feed_bytes = self.feed_bytes - old.entity.len() + place.get().entity.len();
                }
                Entry::Occupied(_) => {}
            }
            report.add(index, Ok(extra));
        }
        Ok(report)
    }

    pub fn take_situations(&mut self, body: &[u8], moment: i64) -> Result<Report, BodyFault> {
        let service = situations::read(body)?;
        self.roll(moment);
        let mut report = Report::default();
        for (index, verdict) in situations::verdicts(&service, &self.context).enumerate() {
            let situation = match verdict {
                Ok(situation) => situation,
                Err(fault) => {
                    report.add(index, Err(fault));
                    continue;
                }
            };
            report.passed += situation.unknown_references;
            let body = written::alert_body(&situation, &self.context);
            if body.len() > MOST_ALERT {
                report.add(index, Err(Fault::EntityTooLong(body.len())));
                continue;
            }
            let old = self.situations.get(situation.number);
            if old.is_none() && self.situations.len() >= MOST_SITUATIONS {
                report.add(index, Err(Fault::Full));
                continue;
            }
            report.add(index, Ok(0));
            if old.is_none_or(|old| situation.version >= old.version) {
                let entity = written::field_of(&body).into_boxed_slice();
                let new = Situation { version: situation.version, is_served: situation.is_served, entity };
                self.feed_bytes += new.served().len();
                if let Some(old) = self.situations.insert(situation.number.into(), new) {
                    self.feed_bytes -= old.served().len();
                }
            }
        }
        Ok(report)
    }

    /// Keeps the SIRI text of a feed.
    pub fn take_feed(&mut self, body: &[u8], moment: i64) -> Result<Report, BodyFault> {
        let window = self.window_at(moment);
        let before = window.map(|window| std::mem::replace(&mut self.context.window, window));
        let taken = readings_of(body, &self.context).and_then(|reading| {
            check_calls(&reading, &self.context)?;
            let mut text = Vec::new();
            write_siri(&mut text, &reading, &self.context, moment).expect("a vector can be written");
            Ok((text, reading.report))
        });
        if let Some(before) = before {
            self.context.window = before;
        }
        let (text, report) = taken?;
        self.roll(moment);
        self.siri = text;
        Ok(report)
    }

    pub fn feed_len(&self, moment: i64) -> usize {
        written::header(moment).len() + self.feed_bytes
    }

    /// The header, the journeys by day and trip, and the served alerts by the bytes of their numbers.
    pub fn write_feed(&self, out: &mut impl Write, moment: i64) -> io::Result<()> {
        out.write_all(&written::header(moment))?;
        for journey in self.journeys.values() {
            out.write_all(&journey.entity)?;
        }
        for situation in self.situations.values() {
            out.write_all(situation.served())?;
        }
        Ok(())
    }

    pub fn siri(&self) -> &[u8] {
        &self.siri
    }
}

impl Situation {
    fn served(&self) -> &[u8] {
        if self.is_served {
            &self.entity
        } else {
            &[]
        }
    }
}
