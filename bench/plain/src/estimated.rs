//! Deliveries of estimated timetables.

use crate::fault::{BodyFault, Fault};
use crate::gtfs::{StopTime, Timetable};
use crate::json::{members, Leaf, Needed, Object, Repeated};
use crate::siri::{check_places, deliveries_of, in_range, on_the_way, service_of, Context, Reading, StopReading};
use crate::time::{read_moment, Day, Instant};

members! {
    Service<'a> {
        response: Leaf<'a> = "ResponseTimestamp",
        deliveries: Needed<Delivery<'a>> = "EstimatedTimetableDelivery",
    }
    Delivery<'a> {
        response: Leaf<'a> = "ResponseTimestamp",
        frames: Repeated<Frame<'a>> = "EstimatedJourneyVersionFrame",
    }
    Frame<'a> {
        recorded: Leaf<'a> = "RecordedAtTime",
        journeys: Repeated<Journey<'a>> = "EstimatedVehicleJourney",
    }
    Journey<'a> {
        recorded: Leaf<'a> = "RecordedAtTime",
        framed: Object<Framed<'a>> = "FramedVehicleJourneyRef",
        cancellation: Leaf<'a> = "Cancellation",
        extra: Leaf<'a> = "ExtraJourney",
        recorded_calls: Object<RecordedCalls<'a>> = "RecordedCalls",
        estimated_calls: Object<EstimatedCalls<'a>> = "EstimatedCalls",
    }
    Framed<'a> {
        day: Leaf<'a> = "DataFrameRef",
        trip: Leaf<'a> = "DatedVehicleJourneyRef",
    }
    RecordedCalls<'a> {
        calls: Repeated<CallMembers<'a>> = "RecordedCall",
    }
    EstimatedCalls<'a> {
        calls: Repeated<CallMembers<'a>> = "EstimatedCall",
    }
    CallMembers<'a> {
        extra: Leaf<'a> = "ExtraCall",
        stop: Leaf<'a> = "StopPointRef",
        order: Leaf<'a> = "Order",
        cancellation: Leaf<'a> = "Cancellation",
        arrival_status: Leaf<'a> = "ArrivalStatus",
        departure_status: Leaf<'a> = "DepartureStatus",
        actual_arrival: Leaf<'a> = "ActualArrivalTime",
        expected_arrival: Leaf<'a> = "ExpectedArrivalTime",
        actual_departure: Leaf<'a> = "ActualDepartureTime",
        expected_departure: Leaf<'a> = "ExpectedDepartureTime",
    }
}

/// What one item says of a trip on a day.
pub struct Record {
    pub trip: u32,
    pub day: Day,
    pub at: Instant,
    pub reading: Reading,
    pub extra_calls: u64,
}

pub type Journeys<'a> = Service<'a>;

pub fn read<'a>(body: &'a [u8]) -> Result<Journeys<'a>, BodyFault> {
    let service: Service = service_of(body)?;
    let deliveries = deliveries_of(&service.deliveries, "EstimatedTimetableDelivery")?;
    for delivery in deliveries {
        on_the_way(&delivery.frames, "EstimatedJourneyVersionFrame")?;
    }
    Ok(service)
}

/// The verdict on each item in document order.
pub fn verdicts<'s>(
    service: &'s Service<'s>,
    context: &'s Context,
) -> impl Iterator<Item = Result<Record, Fault>> + 's {
    let deliveries = service.deliveries.0.iter().flat_map(|deliveries| deliveries.0.iter().flatten());
    let frames = deliveries.flat_map(|delivery| delivery.frames.0.iter().flatten().map(move |frame| (delivery, frame)));
    let items = frames.flat_map(|(delivery, frame)| frame.journeys.0.iter().map(move |item| (delivery, frame, item)));
    items.map(move |(delivery, frame, item)| {
        let journey = item.as_ref().ok_or(Fault::BadField("EstimatedVehicleJourney"))?;
        let moments = [&journey.recorded, &frame.recorded, &delivery.response, &service.response];
        let at = recorded_at(moments, context)?;
        read_journey(journey, at, context)
    })
}

/// The first of the moments that isn't missing.
fn recorded_at(moments: [&Leaf; 4], context: &Context) -> Result<Instant, Fault> {
    for moment in moments {
        if let Some(instant) = moment.read("RecordedAtTime", |text| read_moment(text, &context.zone))? {
            return Ok(instant);
        }
    }
    Err(Fault::BadField("RecordedAtTime"))
}

fn read_journey(journey: &Journey, at: Instant, context: &Context) -> Result<Record, Fault> {
    let framed = "FramedVehicleJourneyRef";
    let named = journey.framed.get(framed)?.ok_or(Fault::BadField(framed))?;
    let day = named.day.read("DataFrameRef", |text| Day::read_either(text.as_bytes()))?;
    let day = day.ok_or(Fault::BadField("DataFrameRef"))?;
    let trip_id = named.trip.needed("DatedVehicleJourneyRef")?;
    let is_cancelled = journey.cancellation.flag("Cancellation")?;
    let is_added = journey.extra.flag("ExtraJourney")?;
    let calls = if is_cancelled { Vec::new() } else { read_calls(journey, context)? };
    if is_added {
        return Err(Fault::AddedJourney);
    }
    let trip = context.table.find_trip(trip_id).ok_or(Fault::UnknownJourney)?;
    let start = context.window.start_of(day).ok_or(Fault::OutOfWindow)?;
    if !context.table.runs(trip, day) {
        return Err(Fault::NotRunning);
    }
    if is_cancelled {
        return Ok(Record { trip, day, at, reading: Reading::Cancelled, extra_calls: 0 });
    }
    let stops = context.table.stops_of(trip);
    let matched = match_calls(&calls, stops, &context.table)?;
    let mut reading = vec![StopReading::Absent; stops.len()];
    for (call, index) in calls.iter().flatten().zip(matched) {
        reading[index] = call.reading(start, &stops[index])?;
    }
    check_places(stops.iter().zip(&reading).map(|(stop, said)| said.place_bytes(stop, &context.table)).sum())?;
    let extra_calls = calls.iter().filter(|call| call.is_none()).count() as u64;
    Ok(Record { trip, day, at, reading: Reading::Stops(reading), extra_calls })
}

/// A call that is read.
struct Call {
    number: usize,
    /// None where no stop has the id.
    stop: Option<u32>,
    order: Option<u64>,
    is_skip: bool,
    /// Seconds, of an event that has a time.
    arrival: Option<i64>,
    departure: Option<i64>,
}

/// All calls, the recorded ones first; None for an extra one.
fn read_calls(journey: &Journey, context: &Context) -> Result<Vec<Option<Call>>, Fault> {
    let recorded = match journey.recorded_calls.get("RecordedCalls")? {
        Some(calls) => Some(calls.calls.objects("RecordedCall")?),
        None => None,
    };
    let estimated = match journey.estimated_calls.get("EstimatedCalls")? {
        Some(calls) => Some(calls.calls.objects("EstimatedCall")?),
        None => None,
    };
    let calls = recorded.into_iter().flatten().chain(estimated.into_iter().flatten());
    calls.enumerate().map(|(number, call)| read_call(number, call, context)).collect()
}

fn read_call(number: usize, call: &CallMembers, context: &Context) -> Result<Option<Call>, Fault> {
    if call.extra.flag("ExtraCall")? {
        return Ok(None);
    }
    let stop = context.table.stop_ids.find(call.stop.needed("StopPointRef")?.as_bytes());
    let order = call.order.whole_number("Order")?;
    let is_cancelled = call.cancellation.flag("Cancellation")?;
    let arrival_status = call.arrival_status.as_text("ArrivalStatus")?;
    let departure_status = call.departure_status.as_text("DepartureStatus")?;
    let time = |leaf: &Leaf, name| leaf.read(name, |text| read_moment(text, &context.zone));
    let actual_arrival = time(&call.actual_arrival, "ActualArrivalTime")?;
    let expected_arrival = time(&call.expected_arrival, "ExpectedArrivalTime")?;
    let actual_departure = time(&call.actual_departure, "ActualDepartureTime")?;
    let expected_departure = time(&call.expected_departure, "ExpectedDepartureTime")?;
    let is_off = |status: Option<&str>| status.map(|text| text.eq_ignore_ascii_case("cancelled"));
    let event = |status, actual: Option<Instant>, expected: Option<Instant>| match is_off(status) {
        Some(true) => None,
        _ => actual.or(expected).map(|instant| instant.secs),
    };
    Ok(Some(Call {
        number,
        stop,
        order,
        is_skip: is_cancelled
            || matches!(
                (is_off(arrival_status), is_off(departure_status)),
                (Some(true), Some(true) | None) | (None, Some(true))
            ),
        arrival: event(arrival_status, actual_arrival, expected_arrival),
        departure: event(departure_status, actual_departure, expected_departure),
    }))
}

impl Call {
    fn reading(&self, start: i64, stop: &StopTime) -> Result<StopReading, Fault> {
        if self.is_skip {
            return Ok(StopReading::Skipped);
        }
        let delay = |time: Option<i64>, planned: u32| {
            time.map(|time| in_range(self.number, i128::from(time - start - i64::from(planned)))).transpose()
        };
        let arrival = delay(self.arrival, stop.arrival)?;
        let departure = delay(self.departure, stop.departure)?;
        let place = self.stop.unwrap_or(stop.stop);
        Ok(match (arrival, departure) {
            (None, None) => StopReading::Absent,
            (Some(arrival), departure) => {
                StopReading::Timed { arrival, departure: departure.unwrap_or(arrival), place }
            }
            (None, Some(departure)) => StopReading::Timed { arrival: departure, departure, place },
        })
    }

    /// From an index on the stop of its order where that is of the named stop's station, else the first with the id,
    /// else the first of that station.
    fn index(&self, stops: &[StopTime], table: &Timetable, from: usize) -> Option<usize> {
        let stop = self.stop?;
        let ordered = self.order.and_then(|order| usize::try_from(order.checked_sub(1)?).ok());
        match ordered {
            Some(index) if index >= from && stops.get(index).is_some_and(|found| self.is_at(found, table)) => {
                Some(index)
            }
            _ => (from..stops.len())
                .find(|&index| stops[index].stop == stop)
                .or_else(|| (from..stops.len()).find(|&index| self.is_at(&stops[index], table))),
        }
    }

    /// Whether a stop is of the named stop's station.
    fn is_at(&self, found: &StopTime, table: &Timetable) -> bool {
        self.stop.is_some_and(|stop| table.station_of(found.stop) == table.station_of(stop))
    }
}

/// The index of the stop of each call that is read; a station at which the trip doesn't stop is told before the order.
fn match_calls(calls: &[Option<Call>], stops: &[StopTime], table: &Timetable) -> Result<Vec<usize>, Fault> {
    let mut matched = Vec::with_capacity(calls.len());
    let mut from = 0;
    for call in calls.iter().flatten() {
        match call.index(stops, table, from) {
            Some(index) => {
                matched.push(index);
                from = index + 1;
            }
            None => {
                let is_unknown = |call: &&Call| !stops.iter().any(|stop| call.is_at(stop, table));
                let unknown = calls.iter().flatten().find(is_unknown);
                return Err(unknown.map_or(Fault::OutOfOrder(call.number), |call| Fault::UnknownStop(call.number)));
            }
        }
    }
    Ok(matched)
}
