//! The bytes of a feed that is written.

use crate::estimated::Record;
use crate::gtfs::{StopTime, Timetable};
use crate::siri::{Context, Reading, StopReading, Supply};
use crate::situations::{Reference, Situation};
use crate::time::Day;

fn put_varint(out: &mut Vec<u8>, mut value: u64) {
    while value >= 0x80 {
        out.push(value as u8 | 0x80);
        value >>= 7;
    }
    out.push(value as u8);
}

fn put_number(out: &mut Vec<u8>, field: u8, value: u64) {
    out.push(field << 3);
    put_varint(out, value);
}

fn put_bytes(out: &mut Vec<u8>, field: u8, bytes: &[u8]) {
    out.push(field << 3 | 2);
    put_varint(out, bytes.len() as u64);
    out.extend_from_slice(bytes);
}

/// A message of at most 127 bytes.
fn put_short(out: &mut Vec<u8>, field: u8, put: impl FnOnce(&mut Vec<u8>)) {
    out.push(field << 3 | 2);
    out.push(0);
    let start = out.len();
    put(out);
    out[start - 1] = (out.len() - start) as u8;
}

fn put_message(out: &mut Vec<u8>, field: u8, put: impl FnOnce(&mut Vec<u8>)) {
    let mut body = Vec::new();
    put(&mut body);
    put_bytes(out, field, &body);
}

pub fn header(moment: i64) -> Vec<u8> {
    let mut out = Vec::new();
    put_short(&mut out, 1, |out| {
        put_bytes(out, 1, b"2.0");
        put_number(out, 2, 0);
        put_number(out, 3, moment as u64);
    });
    out
}

fn put_trip(out: &mut Vec<u8>, trip_id: &str, day: Day, relation: u64) {
    put_message(out, 1, |out| put_trip_fields(out, trip_id, day, relation));
}

fn put_trip_fields(out: &mut Vec<u8>, trip_id: &str, day: Day, relation: u64) {
    put_bytes(out, 1, trip_id.as_bytes());
    put_bytes(out, 3, &day.compact());
    put_number(out, 4, relation);
}

/// The fewest updates that say how the stops read.
fn put_updates(out: &mut Vec<u8>, start: i64, stops: &[StopTime], readings: &[StopReading], table: &Timetable) {
    let mut supply = Supply::default();
    for (stop, &reading) in stops.iter().zip(readings) {
        if reading == StopReading::Skipped || reading != supply.at(stop) {
            match reading {
                StopReading::Timed { place, .. } if place != stop.stop => put_message(out, 2, |out| {
                    put_update(out, start, stop, reading);
                    put_message(out, 6, |out| put_bytes(out, 1, table.stop_ids.text(place).as_bytes()));
                }),
                _ => put_short(out, 2, |out| put_update(out, start, stop, reading)),
            }
        }
        supply = supply.behind(reading);
    }
}

fn put_update(out: &mut Vec<u8>, start: i64, stop: &StopTime, reading: StopReading) {
    put_number(out, 1, stop.sequence.into());
    match reading {
        StopReading::Skipped => put_number(out, 5, 1),
        StopReading::Absent => put_number(out, 5, 2),
        StopReading::Timed { arrival, departure, .. } => {
            for (field, delay, planned) in [(2, arrival, stop.arrival), (3, departure, stop.departure)] {
                put_short(out, field, |out| {
                    put_number(out, 1, i64::from(delay) as u64);
                    put_number(out, 2, (start + i64::from(planned) + i64::from(delay)) as u64);
                });
            }
        }
    }
}

/// The entity of a record, tag and length included; nothing where nothing is known of any stop.
pub fn journey_entity(record: &Record, context: &Context) -> Vec<u8> {
    let trip_id = context.table.trip_ids.text(record.trip);
    let mut update = Vec::with_capacity(trip_id.len() + 64);
    match &record.reading {
        Reading::Cancelled => put_trip(&mut update, trip_id, record.day, 3),
        Reading::Stops(readings) => {
            if readings.iter().all(|&reading| reading == StopReading::Absent) {
                return Vec::new();
            }
            put_trip(&mut update, trip_id, record.day, 0);
            let start = context.window.start_of(record.day).expect("the day of a record is in the window");
            put_updates(&mut update, start, context.table.stops_of(record.trip), readings, &context.table);
        }
    }
    put_number(&mut update, 4, record.at.secs as u64);
    let mut body = Vec::with_capacity(update.len() + trip_id.len() + 24);
    let id = [&record.day.compact()[..], b":", trip_id.as_bytes()].concat();
    put_bytes(&mut body, 1, &id);
    put_bytes(&mut body, 3, &update);
    field_of(&body)
}

/// An entity's body as a field of the feed.
pub fn field_of(body: &[u8]) -> Vec<u8> {
    let mut out = Vec::with_capacity(body.len() + 6);
    put_bytes(&mut out, 2, body);
    out
}

/// The body of the entity of a situation's alert.
pub fn alert_body(situation: &Situation, context: &Context) -> Vec<u8> {
    let mut body = Vec::new();
    put_bytes(&mut body, 1, format!("alert:{}", situation.number).as_bytes());
    put_message(&mut body, 5, |out| {
        for (start, end) in &situation.periods {
            put_short(out, 1, |out| {
                for (field, second) in [(1, start), (2, end)] {
                    if let Some(second) = second {
                        put_number(out, field, *second as u64);
                    }
                }
            });
        }
        for reference in &situation.references {
            put_message(out, 5, |out| put_reference(out, reference, context));
        }
        put_number(out, 6, situation.cause);
        put_number(out, 7, situation.effect);
        for (field, text) in [(10, situation.summary), (11, situation.description)] {
            if let Some(text) = text {
                put_message(out, field, |out| put_message(out, 1, |out| put_bytes(out, 1, text.as_bytes())));
            }
        }
    });
    body
}

fn put_reference(out: &mut Vec<u8>, reference: &Reference, context: &Context) {
    let table = &context.table;
    match *reference {
        Reference::Route(route) => put_bytes(out, 2, table.route_ids.text(route).as_bytes()),
        Reference::Stop(stop) => put_bytes(out, 5, table.stop_ids.text(stop).as_bytes()),
        Reference::Journey(trip, day) => {
            put_message(out, 4, |out| put_trip_fields(out, table.trip_ids.text(trip), day, 0))
        }
    }
}
