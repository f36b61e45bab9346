//! GTFS Realtime feeds that are read: protobuf's fields, the messages, and the fault of least place.

use crate::fault::BodyFault;

const MOST_ENTITY: u64 = 1_048_576;
const MOST_GROUPS: usize = 64;

#[derive(Clone, Copy)]
enum Value {
    Varint(u64),
    Bytes(usize, usize),
    Other,
}

struct Field {
    /// Where its tag begins.
    at: usize,
    number: u32,
    value: Value,
}

type Kind = &'static str;

/// The fields of a body, until it ends or breaks.
struct Fields<'a> {
    data: &'a [u8],
    at: usize,
    end: usize,
}

impl Fields<'_> {
    fn varint(&mut self) -> Result<u64, Kind> {
        let bytes = &self.data[self.at..self.end];
        let mut value = 0;
        for (place, &byte) in bytes.iter().take(10).enumerate() {
            value |= u64::from(byte & 0x7f) << (7 * place);
            if byte < 0x80 {
                self.at += place + 1;
                return Ok(value);
            }
        }
        Err(if bytes.len() < 10 { "Truncated" } else { "LongVarint" })
    }

    fn tag(&mut self) -> Result<(u32, u32), Kind> {
        let tag = u32::try_from(self.varint()?).map_err(|_| "BadTag")?;
        if tag >> 3 == 0 || tag & 7 > 5 {
            Err("BadTag")
        } else {
            Ok((tag >> 3, tag & 7))
        }
    }

    fn bytes(&mut self, length: u64) -> Result<Value, Kind> {
        if length > (self.end - self.at) as u64 {
            return Err("Truncated");
        }
        let start = self.at;
        self.at += length as usize;
        Ok(Value::Bytes(start, self.at))
    }

    fn payload(&mut self, kind: u32) -> Result<Value, Kind> {
        match kind {
            0 => self.varint().map(Value::Varint),
            1 => self.bytes(8).map(|_| Value::Other),
            2 => {
                let length = self.varint()?;
                self.bytes(length)
            }
            _ => self.bytes(4).map(|_| Value::Other),
        }
    }

    /// The rest of a group whose start was read.
    fn group(&mut self, number: u32) -> Result<(), Kind> {
        let mut open = vec![number];
        while let Some(&innermost) = open.last() {
            match self.tag()? {
                (_, 3) if open.len() == MOST_GROUPS => return Err("DeepGroup"),
                (number, 3) => open.push(number),
                (number, 4) if number == innermost => {
                    open.pop();
                }
                (_, 4) => return Err("BadGroup"),
                (_, kind) => {
                    self.payload(kind)?;
                }
            }
        }
        Ok(())
    }

    fn field(&mut self) -> Result<(u32, Value), Kind> {
        match self.tag()? {
            (number, 3) => self.group(number).map(|_| (number, Value::Other)),
            (_, 4) => Err("BadGroup"),
            (number, kind) => self.payload(kind).map(|value| (number, value)),
        }
    }
}

impl Iterator for Fields<'_> {
    type Item = Result<Field, (usize, Kind)>;

    fn next(&mut self) -> Option<Self::Item> {
        if self.at == self.end {
            return None;
        }
        let at = self.at;
        Some(match self.field() {
            Ok((number, value)) => Ok(Field { at, number, value }),
            Err(kind) => {
                self.at = self.end;
                Err((at, kind))
            }
        })
    }
}

#[derive(Default)]
pub struct Header {
    has_version: bool,
    pub incrementality: i32,
    pub timestamp: Option<u64>,
}

#[derive(Default)]
pub struct Entity<'a> {
    has_id: bool,
    pub is_deleted: bool,
    pub has_update: bool,
    /// Meant where there is one.
    pub update: TripUpdate<'a>,
}

#[derive(Default)]
pub struct TripUpdate<'a> {
    has_trip: bool,
    pub trip: Trip<'a>,
    pub stops: Vec<StopUpdate<'a>>,
    pub timestamp: Option<u64>,
}

#[derive(Default)]
pub struct Trip<'a> {
    pub trip_id: Option<&'a str>,
    pub start_date: Option<&'a str>,
    pub relation: i32,
}

#[derive(Default)]
pub struct StopUpdate<'a> {
    pub sequence: Option<u32>,
    pub arrival: Option<Event>,
    pub departure: Option<Event>,
    pub stop_id: Option<&'a str>,
    pub relation: i32,
    /// The assigned stop of its properties.
    pub assigned: Option<&'a str>,
}

#[derive(Default)]
pub struct Event {
    pub delay: Option<i32>,
    pub time: Option<i64>,
}

// At one place the first of these counts.
const ENTITY_TOO_LONG: u8 = 0;
const WIRE: u8 = 1;
const NOT_TEXT: u8 = 2;
const MISSING_FIELD: u8 = 3;

struct Reader<'a> {
    data: &'a [u8],
    fault: Option<(usize, u8, BodyFault)>,
}

/// Reads a feed and hands on each entity with the header; what is handed on counts only if no fault comes.
pub fn read_feed<'a>(data: &'a [u8], mut take: impl FnMut(&Header, &Entity<'a>)) -> Result<Header, BodyFault> {
    let mut reader = Reader { data, fault: None };
    let header = reader.header();
    let mut entity = Entity::default();
    reader.fields(0, data.len(), |reader, field| {
        if let (2, Value::Bytes(start, end)) = (field.number, field.value) {
            reader.entity(&mut entity, field.at, start, end);
            take(&header, &entity);
        }
    });
    match reader.fault {
        Some((_, _, fault)) => Err(fault),
        None => Ok(header),
    }
}

impl<'a> Reader<'a> {
    fn fault(&mut self, at: usize, order: u8, fault: BodyFault) {
        if self.fault.as_ref().is_none_or(|(place, kind, _)| (at, order) < (*place, *kind)) {
            self.fault = Some((at, order, fault));
        }
    }

    fn missing(&mut self, at: usize, name: &'static str) {
        self.fault(at, MISSING_FIELD, BodyFault::MissingField(at, name));
    }

    /// Hands on the fields of a body; whether it is whole.
    fn fields(&mut self, start: usize, end: usize, mut take: impl FnMut(&mut Self, Field)) -> bool {
        for field in (Fields { data: self.data, at: start, end }) {
            match field {
                Ok(field) => take(self, field),
                Err((at, kind)) => {
                    self.fault(at, WIRE, BodyFault::Wire(at, kind));
                    return false;
                }
            }
        }
        true
    }

    fn text(&mut self, field: &Field) -> Option<&'a str> {
        let Value::Bytes(start, end) = field.value else { return None };
        let data = self.data;
        match std::str::from_utf8(&data[start..end]) {
            Ok(text) => Some(text),
            Err(_) => {
                self.fault(field.at, NOT_TEXT, BodyFault::NotText(field.at));
                Some("")
            }
        }
    }

    /// The header in all its pieces, and the faults that need the whole feed.
    fn header(&mut self) -> Header {
        let (mut header, mut pieces, mut is_whole) = (Header::default(), 0, true);
        let length = self.data.len();
        let feed_is_whole = self.fields(0, length, |reader, field| match (field.number, field.value) {
            (1, Value::Bytes(start, end)) => {
                pieces += 1;
                is_whole &= reader.fields(start, end, |reader, field| match (field.number, field.value) {
                    (1, _) => header.has_version |= reader.text(&field).is_some(),
                    (2, Value::Varint(value)) => header.incrementality = value as i32,
                    (3, Value::Varint(value)) => header.timestamp = Some(value),
                    _ => {}
                });
            }
            (2, Value::Bytes(start, end)) if (end - start) as u64 > MOST_ENTITY => {
                reader.fault(field.at, ENTITY_TOO_LONG, BodyFault::EntityTooLong(field.at));
            }
            _ => {}
        });
        if pieces == 0 && feed_is_whole {
            self.missing(length, "header");
        } else if pieces > 0 && is_whole && !header.has_version {
            self.missing(length, "gtfs_realtime_version");
        }
        if !feed_is_whole {
            self.long_entity_cut_off();
        }
        header
    }

    /// The last entity's stated length counts though its bytes aren't there.
    fn long_entity_cut_off(&mut self) {
        let Some((at, WIRE, _)) = self.fault else { return };
        let mut fields = Fields { data: self.data, at, end: self.data.len() };
        let is_entity = fields.varint() == Ok(2 * 8 + 2);
        if is_entity && fields.varint().is_ok_and(|length| length > MOST_ENTITY) {
            self.fault(at, ENTITY_TOO_LONG, BodyFault::EntityTooLong(at));
        }
    }

    fn entity(&mut self, entity: &mut Entity<'a>, at: usize, start: usize, end: usize) {
        let mut update = std::mem::take(&mut entity.update);
        update.stops.clear();
        *entity = Entity { update: TripUpdate { stops: update.stops, ..TripUpdate::default() }, ..Entity::default() };
        let mut first_piece = None;
        let mut update_is_whole = true;
        let is_whole = self.fields(start, end, |reader, field| match (field.number, field.value) {
            (1, _) => entity.has_id |= reader.text(&field).is_some(),
            (2, Value::Varint(value)) => entity.is_deleted = value != 0,
            (3, Value::Bytes(start, end)) => {
                first_piece.get_or_insert(field.at);
                update_is_whole &= reader.trip_update(&mut entity.update, start, end);
            }
            (5, Value::Bytes(start, end)) => reader.alert(start, end),
            _ => {}
        });
        entity.has_update = first_piece.is_some();
        if is_whole && !entity.has_id {
            self.missing(at, "id");
        }
        if let Some(at) = first_piece.filter(|_| update_is_whole && !entity.update.has_trip) {
            self.missing(at, "trip");
        }
    }

    fn trip_update(&mut self, update: &mut TripUpdate<'a>, start: usize, end: usize) -> bool {
        self.fields(start, end, |reader, field| match (field.number, field.value) {
            (1, Value::Bytes(start, end)) => {
                update.has_trip = true;
                reader.trip(&mut update.trip, start, end);
            }
            (2, Value::Bytes(start, end)) => {
                let stop = reader.stop_update(start, end);
                update.stops.push(stop);
            }
            (4, Value::Varint(value)) => update.timestamp = Some(value),
            _ => {}
        })
    }

    fn trip(&mut self, trip: &mut Trip<'a>, start: usize, end: usize) {
        self.fields(start, end, |reader, field| match (field.number, field.value) {
            (1, Value::Bytes(..)) => trip.trip_id = reader.text(&field),
            (3, Value::Bytes(..)) => trip.start_date = reader.text(&field),
            (4, Value::Varint(value)) => trip.relation = value as i32,
            (5, _) => {
                reader.text(&field);
            }
            _ => {}
        });
    }

    fn stop_update(&mut self, start: usize, end: usize) -> StopUpdate<'a> {
        let mut update = StopUpdate::default();
        self.fields(start, end, |reader, field| match (field.number, field.value) {
            (1, Value::Varint(value)) => update.sequence = Some(value as u32),
            (2, Value::Bytes(start, end)) => {
                reader.event(update.arrival.get_or_insert_with(Event::default), start, end)
            }
            (3, Value::Bytes(start, end)) => {
                reader.event(update.departure.get_or_insert_with(Event::default), start, end)
            }
            (4, Value::Bytes(..)) => update.stop_id = reader.text(&field),
            (5, Value::Varint(value)) => update.relation = value as i32,
            (6, Value::Bytes(start, end)) => {
                reader.fields(start, end, |reader, field| {
                    if let (1, Value::Bytes(..)) = (field.number, field.value) {
                        update.assigned = reader.text(&field);
                    }
                });
            }
            _ => {}
        });
        update
    }

    fn event(&mut self, event: &mut Event, start: usize, end: usize) {
        self.fields(start, end, |_, field| match (field.number, field.value) {
            (1, Value::Varint(value)) => event.delay = Some(value as i32),
            (2, Value::Varint(value)) => event.time = Some(value as i64),
            _ => {}
        });
    }

    /// Nothing of an alert is kept, but its faults count.
    fn alert(&mut self, start: usize, end: usize) {
        self.fields(start, end, |reader, field| match (field.number, field.value) {
            (1, Value::Bytes(start, end)) => {
                reader.fields(start, end, |_, _| {});
            }
            (5, Value::Bytes(start, end)) => {
                reader.fields(start, end, |reader, field| match (field.number, field.value) {
                    (1 | 2 | 5, _) => {
                        reader.text(&field);
                    }
                    (4, Value::Bytes(start, end)) => reader.trip(&mut Trip::default(), start, end),
                    _ => {}
                });
            }
            (10 | 11, Value::Bytes(start, end)) => {
                reader.fields(start, end, |reader, field| {
                    if let (1, Value::Bytes(start, end)) = (field.number, field.value) {
                        reader.translation(field.at, start, end);
                    }
                });
            }
            _ => {}
        });
    }

    fn translation(&mut self, at: usize, start: usize, end: usize) {
        let mut has_text = false;
        let is_whole = self.fields(start, end, |reader, field| match field.number {
            1 => has_text |= reader.text(&field).is_some(),
            2 => {
                reader.text(&field);
            }
            _ => {}
        });
        if is_whole && !has_text {
            self.missing(at, "text");
        }
    }
}
