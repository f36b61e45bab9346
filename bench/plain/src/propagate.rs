//! What the trip updates of a feed say of every stop.

use crate::fault::{BodyFault, Fault, Report};
use crate::feed::{read_feed, Entity, Event, Header, StopUpdate};
use crate::gtfs::StopTime;
use crate::siri::{check_places, in_range, Context, Reading, StopReading, Supply};
use crate::time::{is_moment, Day};
use std::collections::BTreeMap;

const DIFFERENTIAL: i32 = 1;
const SCHEDULED: i32 = 0;
const CANCELED: i32 = 3;
const SKIPPED: i32 = 1;
const NO_DATA: i32 = 2;

pub struct Dated {
    pub recorded: Option<i64>,
    pub reading: Reading,
}

pub struct FeedReading {
    /// By day and trip.
    pub journeys: BTreeMap<(Day, u32), Dated>,
    pub report: Report,
}

pub fn readings_of(data: &[u8], context: &Context) -> Result<FeedReading, BodyFault> {
    let mut reading = FeedReading { journeys: BTreeMap::new(), report: Report::default() };
    let mut index = 0;
    let header = read_feed(data, |header, entity| {
        if entity.is_deleted || !entity.has_update {
            reading.report.passed += 1;
        } else {
            let verdict = read_update(header, entity, context);
            let verdict = verdict.map(|(key, dated)| reading.journeys.insert(key, dated)).map(|_| 0);
            reading.report.add(index, verdict);
        }
        index += 1;
    })?;
    if header.incrementality == DIFFERENTIAL {
        return Err(BodyFault::Differential);
    }
    Ok(reading)
}

fn moment(timestamp: Option<u64>) -> Option<i64> {
    timestamp.and_then(|secs| i64::try_from(secs).ok()).filter(|&secs| is_moment(secs))
}

fn read_update(header: &Header, entity: &Entity, context: &Context) -> Result<((Day, u32), Dated), Fault> {
    let update = &entity.update;
    let relation = update.trip.relation;
    if relation != SCHEDULED && relation != CANCELED {
        return Err(Fault::OtherRelation(relation));
    }
    let trip = update.trip.trip_id.and_then(|id| context.table.find_trip(id)).ok_or(Fault::UnknownJourney)?;
    let header_moment = moment(header.timestamp);
    let day = match update.trip.start_date {
        Some(text) if !text.is_empty() => Day::read_compact(text.as_bytes()),
        _ => header_moment.and_then(|secs| {
            let today = context.local_day(secs);
            [Some(today), today.plus(-1)].into_iter().flatten().find(|&day| context.table.runs(trip, day))
        }),
    };
    let day = day.ok_or(Fault::NoDate)?;
    let start = context.window.start_of(day).ok_or(Fault::OutOfWindow)?;
    if !context.table.runs(trip, day) {
        return Err(Fault::NotRunning);
    }
    let reading = if relation == CANCELED {
        Reading::Cancelled
    } else {
        Reading::Stops(propagate(start, context.table.stops_of(trip), &update.stops, context)?)
    };
    Ok(((day, trip), Dated { recorded: moment(update.timestamp).or(header_moment), reading }))
}

/// The readings of all stops, in one walk: what an update says holds until the next one that isn't SKIPPED.
fn propagate(
    start: i64,
    stops: &[StopTime],
    updates: &[StopUpdate],
    context: &Context,
) -> Result<Vec<StopReading>, Fault> {
    let mut readings = Vec::with_capacity(stops.len());
    let mut supply = Supply::default();
    let mut bytes = 0;
    for (number, update) in updates.iter().enumerate() {
        if ![SCHEDULED, SKIPPED, NO_DATA].contains(&update.relation) {
            return Err(Fault::OtherRelation(update.relation));
        }
        let from = readings.len();
        let index = index_of(number, update, stops, from, context)?;
        readings.extend(stops[from..index].iter().map(|stop| supply.at(stop)));
        let stop = &stops[index];
        let own = match update.relation {
            SKIPPED => StopReading::Skipped,
            NO_DATA => StopReading::Absent,
            _ => own_reading(number, update, start, stop, context)?,
        };
        bytes += own.place_bytes(stop, &context.table);
        readings.push(own);
        supply = supply.behind(own);
    }
    check_places(bytes)?;
    let from = readings.len();
    readings.extend(stops[from..].iter().map(|stop| supply.at(stop)));
    Ok(readings)
}

/// The index of an update's stop, which is `from` or after it.
fn index_of(
    number: usize,
    update: &StopUpdate,
    stops: &[StopTime],
    from: usize,
    context: &Context,
) -> Result<usize, Fault> {
    let stop_id = update.stop_id.filter(|id| !id.is_empty());
    let Some(sequence) = update.sequence else {
        let stop = stop_id.and_then(|id| context.table.stop_ids.find(id.as_bytes()));
        let is_it = |found: &StopTime| Some(found.stop) == stop;
        if let Some(index) = stops[from..].iter().position(is_it) {
            return Ok(from + index);
        }
        let is_earlier = stops[..from].iter().any(is_it);
        return Err(if is_earlier { Fault::OutOfOrder(number) } else { Fault::UnknownStop(number) });
    };
    let index = match stops.get(from) {
        Some(next) if next.sequence == sequence => from,
        _ => {
            let found = stops.binary_search_by_key(&sequence, |stop| stop.sequence);
            found.map_err(|_| Fault::UnknownStop(number))?
        }
    };
    if stop_id.is_some_and(|id| context.table.stop_ids.text(stops[index].stop) != id && assigned_to(update) != stop_id)
    {
        return Err(Fault::StopMismatch(number));
    }
    if index < from {
        Err(Fault::OutOfOrder(number))
    } else {
        Ok(index)
    }
}

fn assigned_to<'a>(update: &StopUpdate<'a>) -> Option<&'a str> {
    update.assigned.filter(|id| !id.is_empty())
}

/// The assigned stop, which is of the scheduled one's station, else that.
fn place_of(number: usize, update: &StopUpdate, stop: &StopTime, context: &Context) -> Result<u32, Fault> {
    let table = &context.table;
    let Some(id) = assigned_to(update) else { return Ok(stop.stop) };
    let is_near = |&found: &u32| table.station_of(found) == table.station_of(stop.stop);
    table.stop_ids.find(id.as_bytes()).filter(is_near).ok_or(Fault::OtherPlace(number))
}

/// A time counts before a delay, and one event gives its delay to the other.
fn own_reading(
    number: usize,
    update: &StopUpdate,
    start: i64,
    stop: &StopTime,
    context: &Context,
) -> Result<StopReading, Fault> {
    let place = place_of(number, update, stop, context)?;
    let delay = |event: &Option<Event>, planned: u32| {
        let planned = i128::from(start + i64::from(planned));
        let event = event.as_ref()?;
        event.time.map(|time| i128::from(time) - planned).or(event.delay.map(i128::from))
    };
    let arrival = delay(&update.arrival, stop.arrival);
    let departure = delay(&update.departure, stop.departure);
    let first = arrival.or(departure).ok_or(Fault::NoTime(number))?;
    let arrival = in_range(number, first)?;
    let departure = in_range(number, departure.unwrap_or(first))?;
    Ok(StopReading::Timed { arrival, departure, place })
}
