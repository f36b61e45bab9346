//! The SIRI text and the lines of a feed's readings.

use crate::fault::BodyFault;
use crate::propagate::{Dated, FeedReading};
use crate::siri::{Context, Reading, StopReading};
use crate::time::{moment_text, Day};
use std::io::{self, Write};

const MOST_CALLS: usize = 400_000;

pub fn check_calls(reading: &FeedReading, context: &Context) -> Result<(), BodyFault> {
    let calls = reading.journeys.keys().map(|&(_, trip)| context.table.stops_of(trip).len()).sum();
    if calls > MOST_CALLS {
        Err(BodyFault::TooManyCalls(calls))
    } else {
        Ok(())
    }
}

/// The delivery with every call of the journeys, members by the bytes of their names.
pub fn write_siri(out: &mut impl Write, reading: &FeedReading, context: &Context, moment: i64) -> io::Result<()> {
    out.write_all(br#"{"Siri":{"ServiceDelivery":{"EstimatedTimetableDelivery":[{"#)?;
    out.write_all(br#""EstimatedJourneyVersionFrame":[{"EstimatedVehicleJourney":["#)?;
    for (index, (&(day, trip), dated)) in reading.journeys.iter().enumerate() {
        if index > 0 {
            out.write_all(b",")?;
        }
        write_journey(out, day, trip, dated, context, moment)?;
    }
    put_moment(out, br#"],"RecordedAtTime":""#, moment)?;
    put_moment(out, br#""}],"ResponseTimestamp":""#, moment)?;
    put_moment(out, br#"","version":"2.0"}],"ResponseTimestamp":""#, moment)?;
    out.write_all(br#""}}}"#)
}

fn put_moment(out: &mut impl Write, front: &[u8], moment: i64) -> io::Result<()> {
    out.write_all(front)?;
    out.write_all(&moment_text(moment))
}

fn put_text(out: &mut impl Write, front: &[u8], text: &str) -> io::Result<()> {
    out.write_all(front)?;
    serde_json::to_writer(out, text).map_err(io::Error::from)
}

fn write_journey(
    out: &mut impl Write,
    day: Day,
    trip: u32,
    dated: &Dated,
    context: &Context,
    moment: i64,
) -> io::Result<()> {
    let table = &context.table;
    let start = context.window.start_of(day).expect("the day of a reading is in the window");
    let is_cancelled = matches!(dated.reading, Reading::Cancelled);
    write!(out, r#"{{"Cancellation":{is_cancelled},"EstimatedCalls":{{"EstimatedCall":["#)?;
    for (place, stop) in table.stops_of(trip).iter().enumerate() {
        let (arrival, departure) = (start + i64::from(stop.arrival), start + i64::from(stop.departure));
        out.write_all(if place > 0 { b"," } else { b"" })?;
        put_moment(out, br#"{"AimedArrivalTime":""#, arrival)?;
        put_moment(out, br#"","AimedDepartureTime":""#, departure)?;
        let said = match &dated.reading {
            Reading::Cancelled => StopReading::Skipped,
            Reading::Stops(readings) => readings[place],
        };
        let mut named = stop.stop;
        match said {
            StopReading::Absent => out.write_all(br#"","#)?,
            StopReading::Skipped => out.write_all(br#"","Cancellation":true,"#)?,
            StopReading::Timed { arrival: early, departure: late, place } => {
                named = place;
                put_moment(out, br#"","ExpectedArrivalTime":""#, arrival + i64::from(early))?;
                put_moment(out, br#"","ExpectedDepartureTime":""#, departure + i64::from(late))?;
                out.write_all(br#"","#)?;
            }
        }
        write!(out, r#""Order":{},"#, place + 1)?;
        put_text(out, br#""StopPointRef":"#, table.stop_ids.text(named))?;
        out.write_all(b"}")?;
    }
    out.write_all(br#"]},"FramedVehicleJourneyRef":{"DataFrameRef":""#)?;
    out.write_all(&day.dashed())?;
    put_text(out, br#"","DatedVehicleJourneyRef":"#, table.trip_ids.text(trip))?;
    let route = table.trips[trip as usize].route;
    put_text(out, br#"},"IsCompleteStopSequence":true,"LineRef":"#, table.route_ids.text(route))?;
    put_moment(out, br#","RecordedAtTime":""#, dated.recorded.unwrap_or(moment))?;
    out.write_all(br#""}"#)
}

/// A line for each stop of each journey, what was set aside, and the totals.
pub fn write_lines(out: &mut impl Write, reading: &FeedReading, context: &Context) -> io::Result<()> {
    let table = &context.table;
    for (&(day, trip), dated) in &reading.journeys {
        let front = [&day.dashed()[..], b" ", table.trip_ids.text(trip).as_bytes()].concat();
        let Reading::Stops(readings) = &dated.reading else {
            out.write_all(&front)?;
            out.write_all(b" cancelled\n")?;
            continue;
        };
        let start = context.window.start_of(day).expect("the day of a reading is in the window");
        for (place, (stop, said)) in table.stops_of(trip).iter().zip(readings).enumerate() {
            out.write_all(&front)?;
            write!(out, " {} {}", place + 1, table.stop_ids.text(stop.stop))?;
            match *said {
                StopReading::Absent => out.write_all(b" absent\n")?,
                StopReading::Skipped => out.write_all(b" skipped\n")?,
                StopReading::Timed { arrival, departure, .. } => {
                    put_moment(out, b" ", start + i64::from(stop.arrival) + i64::from(arrival))?;
                    put_moment(out, b" ", start + i64::from(stop.departure) + i64::from(departure))?;
                    out.write_all(b"\n")?;
                }
            }
        }
    }
    for (index, fault) in &reading.report.aside {
        writeln!(out, "aside {index} {fault}")?;
    }
    writeln!(out, "{}", reading.report.totals())
}
