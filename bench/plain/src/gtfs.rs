//! A GTFS Schedule folder. Rows are taken as they are read; no file is held whole.

use crate::fault::Exit;
use crate::time::{number, Day};
use ahash::RandomState;
use csv::ByteRecord;
use indexmap::IndexSet;
use std::borrow::Borrow;
use std::collections::HashMap;
use std::fs::File;
use std::hash::{Hash, Hasher};
use std::io::ErrorKind;

const MOST_FILE: u64 = 268_435_456;
const MOST_ID: usize = 200;
const MAY_BE_MISSING: &str = "parent_station";
const MOST_STOPS_OF_TRIP: usize = 250;
const UNTIMED: u32 = u32::MAX;

/// An id, which is looked up by its bytes.
#[derive(PartialEq, Eq)]
struct Id(Box<str>);

impl Hash for Id {
    fn hash<H: Hasher>(&self, state: &mut H) {
        self.0.as_bytes().hash(state)
    }
}

impl Borrow<[u8]> for Id {
    fn borrow(&self) -> &[u8] {
        self.0.as_bytes()
    }
}

#[derive(Default)]
pub struct Ids(IndexSet<Id, RandomState>);

impl Ids {
    pub fn find(&self, id: &[u8]) -> Option<u32> {
        self.0.get_index_of(id).map(|number| number as u32)
    }

    pub fn text(&self, number: u32) -> &str {
        &self.0[number as usize].0
    }

    /// Its number, and whether it is new.
    fn insert(&mut self, id: &str) -> (u32, bool) {
        match self.find(id.as_bytes()) {
            Some(number) => (number, false),
            None => (self.0.insert_full(Id(id.into())).0 as u32, true),
        }
    }
}

#[derive(Clone, Copy)]
pub struct StopTime {
    pub sequence: u32,
    pub stop: u32,
    /// Seconds from the start of the service day.
    pub arrival: u32,
    pub departure: u32,
}

pub struct Trip {
    pub route: u32,
    service: u32,
    is_carried: bool,
    /// In rising sequence.
    pub stops: Vec<StopTime>,
}

struct Calendar {
    weekdays: [bool; 7],
    start: Day,
    end: Day,
}

#[derive(Default)]
pub struct Timetable {
    pub stop_ids: Ids,
    pub route_ids: Ids,
    pub trip_ids: Ids,
    pub trips: Vec<Trip>,
    /// Of each stop its parent, or itself.
    stations: Vec<u32>,
    services: Ids,
    calendars: HashMap<u32, Calendar, RandomState>,
    exceptions: HashMap<(u32, Day), bool, RandomState>,
}

impl Timetable {
    /// The number of a carried trip.
    pub fn find_trip(&self, id: &str) -> Option<u32> {
        self.trip_ids.find(id.as_bytes()).filter(|&trip| self.trips[trip as usize].is_carried)
    }

    pub fn station_of(&self, stop: u32) -> u32 {
        self.stations[stop as usize]
    }

    pub fn stops_of(&self, trip: u32) -> &[StopTime] {
        &self.trips[trip as usize].stops
    }

    pub fn runs(&self, trip: u32, day: Day) -> bool {
        let service = self.trips[trip as usize].service;
        match self.exceptions.get(&(service, day)) {
            Some(&added) => added,
            None => self.calendars.get(&service).is_some_and(|calendar| {
                (calendar.start..=calendar.end).contains(&day) && calendar.weekdays[day.weekday() as usize]
            }),
        }
    }
}

/// One data row of a file, with the columns that are read.
struct Row<'a, const N: usize> {
    file: &'static str,
    number: u32,
    most_rows: u32,
    columns: &'static [&'static str; N],
    fields: [&'a [u8]; N],
}

impl<'a, const N: usize> Row<'a, N> {
    fn texts(&self) -> Result<[&'a str; N], Exit> {
        let mut texts = [""; N];
        for (text, field) in texts.iter_mut().zip(self.fields) {
            *text = std::str::from_utf8(field).map_err(|_| self.refused("NotUtf8", ""))?;
        }
        Ok(texts)
    }

    fn refused(&self, fault: &str, column: &str) -> Exit {
        let space = if column.is_empty() { "" } else { " " };
        Exit::Refused(format!("{fault} {} {}{space}{column}", self.file, self.number))
    }

    fn good<T>(&self, column: usize, value: Option<T>) -> Result<T, Exit> {
        value.ok_or_else(|| self.refused("BadField", self.columns[column]))
    }

    fn id(&self, column: usize) -> Result<(), Exit> {
        self.good(column, (!self.fields[column].is_empty()).then_some(()))
    }

    fn known(&self, column: usize, ids: &Ids) -> Result<u32, Exit> {
        ids.find(self.fields[column]).ok_or_else(|| self.refused("Unknown", self.columns[column]))
    }

    fn limits(&self, ids: &[usize]) -> Result<(), Exit> {
        if self.number > self.most_rows || ids.iter().any(|&column| self.fields[column].len() > MOST_ID) {
            return Err(self.refused("Limit", ""));
        }
        Ok(())
    }

    fn once(&self, is_new: bool) -> Result<(), Exit> {
        if is_new {
            Ok(())
        } else {
            Err(self.refused("Duplicate", ""))
        }
    }
}

fn trim(mut field: &[u8]) -> &[u8] {
    while let [b' ' | b'\t', rest @ ..] = field {
        field = rest;
    }
    while let [rest @ .., b' ' | b'\t'] = field {
        field = rest;
    }
    field
}

/// Hands each data row on; false where there is no such file.
fn read_rows<const N: usize>(
    folder: &str,
    file: &'static str,
    columns: &'static [&'static str; N],
    most_rows: u32,
    mut take: impl FnMut(Row<N>) -> Result<(), Exit>,
) -> Result<bool, Exit> {
    let opened = match File::open(format!("{folder}/{file}")) {
        Ok(opened) => opened,
        Err(error) if matches!(error.kind(), ErrorKind::NotFound | ErrorKind::NotADirectory) => return Ok(false),
        Err(_) => return Err(Exit::Failed),
    };
    if opened.metadata()?.len() > MOST_FILE {
        return Err(Exit::Refused(format!("TooLong {file}")));
    }
    let mut builder = csv::ReaderBuilder::new();
    let mut reader = builder.has_headers(false).flexible(true).buffer_capacity(1 << 16).from_reader(opened);
    let mut record = ByteRecord::new();
    let mut places = [None; N];
    reader.read_byte_record(&mut record).map_err(|_| Exit::Failed)?;
    for (place, column) in places.iter_mut().zip(columns) {
        let found = record.iter().position(|name| trim(name) == column.as_bytes());
        if found.is_none() && *column != MAY_BE_MISSING {
            return Err(Exit::Refused(format!("NoColumn {file} {column}")));
        }
        *place = found;
    }
    let mut number = 0;
    while reader.read_byte_record(&mut record).map_err(|_| Exit::Failed)? {
        number += 1;
        let fields = places.map(|place| trim(place.and_then(|place| record.get(place)).unwrap_or(b"")));
        take(Row { file, number, most_rows, columns, fields })?;
    }
    Ok(true)
}

pub fn read_folder(folder: &str) -> Result<Timetable, Exit> {
    let missing = |file: &str| Exit::Missing(format!("{folder}/{file}"));
    let need = |there: bool, file: &str| if there { Ok(()) } else { Err(missing(file)) };
    let mut table = Timetable::default();

    let mut zone: Option<Box<str>> = None;
    let there = read_rows(folder, "agency.txt", &["agency_timezone"], 10_000, |row| {
        let [name] = row.texts()?;
        row.limits(&[])?;
        if zone.get_or_insert_with(|| name.into()).as_ref() != name {
            return Err(Exit::Refused(format!("Zones {}", row.number)));
        }
        Ok(())
    })?;
    need(there, "agency.txt")?;

    let mut parents: Vec<(u32, Box<str>)> = Vec::new();
    let there = read_rows(folder, "stops.txt", &["stop_id", MAY_BE_MISSING], 100_000, |row| {
        let [id, parent] = row.texts()?;
        row.id(0)?;
        row.limits(&[0, 1])?;
        if !parent.is_empty() {
            parents.push((row.number, parent.into()));
        }
        row.once(table.stop_ids.insert(id).1)
    })?;
    need(there, "stops.txt")?;
    table.stations = (0..table.stop_ids.0.len() as u32).collect();
    for (number, parent) in parents {
        let unknown = || Exit::Refused(format!("Unknown stops.txt {number} {MAY_BE_MISSING}"));
        table.stations[number as usize - 1] = table.stop_ids.find(parent.as_bytes()).ok_or_else(unknown)?;
    }

    let there = read_rows(folder, "routes.txt", &["route_id"], 100_000, |row| {
        let [id] = row.texts()?;
        row.id(0)?;
        row.limits(&[0])?;
        row.once(table.route_ids.insert(id).1)
    })?;
    need(there, "routes.txt")?;

    let there = read_rows(folder, "trips.txt", &["trip_id", "route_id", "service_id"], 200_000, |row| {
        let [trip, _, service] = row.texts()?;
        (0..3).try_for_each(|column| row.id(column))?;
        row.limits(&[0, 1, 2])?;
        let route = row.known(1, &table.route_ids)?;
        row.once(table.trip_ids.insert(trip).1)?;
        let service = table.services.insert(service).0;
        table.trips.push(Trip { route, service, is_carried: true, stops: Vec::new() });
        Ok(())
    })?;
    need(there, "trips.txt")?;

    let has_calendar = read_calendar(folder, &mut table)?;
    if !read_exceptions(folder, &mut table)? && !has_calendar {
        return Err(missing("calendar.txt"));
    }

    read_rows(folder, "frequencies.txt", &["trip_id"], 200_000, |row| {
        row.texts()?;
        row.id(0)?;
        row.limits(&[0])?;
        let trip = row.known(0, &table.trip_ids)?;
        table.trips[trip as usize].is_carried = false;
        Ok(())
    })?;

    read_stop_times(folder, &mut table)?;
    Ok(table)
}

fn read_calendar(folder: &str, table: &mut Timetable) -> Result<bool, Exit> {
    const COLUMNS: [&str; 10] = [
        "service_id",
        "monday",
        "tuesday",
        "wednesday",
        "thursday",
        "friday",
        "saturday",
        "sunday",
        "start_date",
        "end_date",
    ];
    read_rows(folder, "calendar.txt", &COLUMNS, 200_000, |row| {
        let texts = row.texts()?;
        row.id(0)?;
        let mut weekdays = [false; 7];
        for (day, runs) in weekdays.iter_mut().enumerate() {
            *runs = row.good(
                day + 1,
                match texts[day + 1] {
                    "0" => Some(false),
                    "1" => Some(true),
                    _ => None,
                },
            )?;
        }
        let start = row.good(8, Day::read_compact(row.fields[8]))?;
        let end = row.good(9, Day::read_compact(row.fields[9]))?;
        row.limits(&[0])?;
        let service = table.services.insert(texts[0]).0;
        row.once(table.calendars.insert(service, Calendar { weekdays, start, end }).is_none())
    })
}

fn read_exceptions(folder: &str, table: &mut Timetable) -> Result<bool, Exit> {
    read_rows(folder, "calendar_dates.txt", &["service_id", "date", "exception_type"], 4_000_000, |row| {
        let [service, _, kind] = row.texts()?;
        row.id(0)?;
        let day = row.good(1, Day::read_compact(row.fields[1]))?;
        let added = row.good(
            2,
            match kind {
                "1" => Some(true),
                "2" => Some(false),
                _ => None,
            },
        )?;
        row.limits(&[0])?;
        let service = table.services.insert(service).0;
        row.once(table.exceptions.insert((service, day), added).is_none())
    })
}

/// Seconds, or UNTIMED for an empty text.
fn read_time(text: &[u8]) -> Option<u32> {
    let (hours, rest) = match text {
        [] => return Some(UNTIMED),
        [hour, rest @ ..] if rest.len() == 6 => (digit(*hour)?, rest),
        [ten, hour, rest @ ..] if rest.len() == 6 => (digit(*ten)? * 10 + digit(*hour)?, rest),
        _ => return None,
    };
    let [b':', m, minute, b':', s, second] = *rest else { return None };
    let (minutes, seconds) = (digit(m)? * 10 + digit(minute)?, digit(s)? * 10 + digit(second)?);
    (minutes < 60 && seconds < 60).then_some(hours * 3600 + minutes * 60 + seconds)
}

fn digit(byte: u8) -> Option<u32> {
    byte.is_ascii_digit().then(|| u32::from(byte - b'0'))
}

/// Where a stop time without times stood.
struct Untimed {
    trip: u32,
    sequence: u32,
    row: u32,
}

fn read_stop_times(folder: &str, table: &mut Timetable) -> Result<(), Exit> {
    const COLUMNS: [&str; 5] = ["trip_id", "stop_sequence", "stop_id", "arrival_time", "departure_time"];
    let mut last = None;
    let mut untimed = Vec::new();
    let there = read_rows(folder, "stop_times.txt", &COLUMNS, 4_000_000, |row| {
        let (trip, time) = match known_row(&row, table, last) {
            Some(known) => known,
            None => return Err(row_fault(&row, table)),
        };
        if last != Some(trip) {
            if let Some(last) = last {
                table.trips[last as usize].stops.shrink_to_fit();
            }
            last = Some(trip);
        }
        if time.arrival == UNTIMED {
            untimed.push(Untimed { trip, sequence: time.sequence, row: row.number });
        }
        let stops = &mut table.trips[trip as usize].stops;
        match stops.last() {
            Some(before) if before.sequence >= time.sequence => {
                match stops.binary_search_by_key(&time.sequence, |stop| stop.sequence) {
                    Ok(_) => return Err(row_fault(&row, table)),
                    Err(place) => stops.insert(place, time),
                }
            }
            _ => stops.push(time),
        }
        Ok(())
    })?;
    if !there {
        return Err(Exit::Missing(format!("{folder}/stop_times.txt")));
    }
    for trip in table.trips.iter_mut().filter(|trip| !trip.is_carried) {
        trip.stops = Vec::new();
    }
    let ends = |stops: &[StopTime]| Some((stops.first()?.sequence, stops.last()?.sequence));
    for Untimed { trip, sequence, row } in &untimed {
        if let Some((first, last)) = ends(table.stops_of(*trip)) {
            if *sequence == first || *sequence == last {
                return Err(Exit::Refused(format!("UntimedEnd {row}")));
            }
        }
    }
    if !untimed.is_empty() {
        table.trips.iter_mut().for_each(|trip| fill_times(&mut trip.stops));
    }
    Ok(())
}

/// The trip and the stop time of a row, unless it has a fault; only an equal sequence isn't looked for.
fn known_row(row: &Row<5>, table: &Timetable, last: Option<u32>) -> Option<(u32, StopTime)> {
    let [trip_id, sequence, stop, arrival, departure] = row.fields;
    let trip = match last {
        Some(last) if table.trip_ids.text(last).as_bytes() == trip_id => last,
        _ => table.trip_ids.find(trip_id)?,
    };
    let stop = table.stop_ids.find(stop)?;
    let sequence = number(sequence)?;
    let (arrival, departure) = (read_time(arrival)?, read_time(departure)?);
    if row.number > row.most_rows || table.stops_of(trip).len() == MOST_STOPS_OF_TRIP {
        return None;
    }
    let (arrival, departure) = match (arrival, departure) {
        (UNTIMED, _) => (departure, departure),
        (_, UNTIMED) => (arrival, arrival),
        both => both,
    };
    Some((trip, StopTime { sequence, stop, arrival, departure }))
}

/// The first fault of a row that has one.
fn row_fault(row: &Row<5>, table: &Timetable) -> Exit {
    let find = || -> Result<(), Exit> {
        row.texts()?;
        row.id(0)?;
        row.good(1, number(row.fields[1]))?;
        row.id(2)?;
        row.good(3, read_time(row.fields[3]))?;
        row.good(4, read_time(row.fields[4]))?;
        row.limits(&[0, 2])?;
        let trip = table.trip_ids.find(row.fields[0]);
        if trip.is_some_and(|trip| table.stops_of(trip).len() == MOST_STOPS_OF_TRIP) {
            return Err(row.refused("Limit", ""));
        }
        row.known(0, &table.trip_ids)?;
        row.known(2, &table.stop_ids)?;
        Ok(())
    };
    find().err().unwrap_or_else(|| row.refused("Duplicate", ""))
}

/// A stop without times gets both from its nearest timed neighbours, in equal steps.
fn fill_times(stops: &mut [StopTime]) {
    let mut before = 0;
    for next in 1..stops.len() {
        if stops[next].arrival == UNTIMED {
            continue;
        }
        let (leaves, comes) = (stops[before].departure, stops[next].arrival);
        let span = u64::from(comes.saturating_sub(leaves));
        let steps = (next - before) as u64;
        for (step, stop) in (1..).zip(&mut stops[before + 1..next]) {
            let time = leaves + (span * step / steps) as u32;
            (stop.arrival, stop.departure) = (time, time);
        }
        before = next;
    }
}
