//! Time zones: POSIX rules (the TZ variable) and TZif files (RFC 9636).

use crate::time::{date_of, day_number, days_of_month, is_leap, DAY_SECONDS};

const NANOS: i128 = 1_000_000_000;

/// The rule or the file is no zone.
#[derive(Debug)]
pub struct Refused;

pub struct Zone {
    first: i64,
    rows: Vec<Row>,
    rule: Option<Rule>,
}

/// A transition of a TZif file.
struct Row {
    second: i64,
    before: i64,
    after: LocalType,
}

#[derive(Clone)]
struct LocalType {
    offset: i64,
    is_dst: bool,
    name: Vec<u8>,
}

struct Rule {
    name: String,
    offset: i64,
    summer: Option<Summer>,
}

/// Daylight saving time, with its two moments of the year.
struct Summer {
    name: String,
    offset: i64,
    start: Change,
    end: Change,
}

struct Change {
    day: ChangeDay,
    second: i64,
}

enum ChangeDay {
    /// 1 to 365, without 29 February
    Julian(u32),
    /// 0 to 365
    OfYear(u32),
    Weekday {
        month: u32,
        week: u32,
        weekday: u32,
    },
}

impl Zone {
    pub fn utc() -> Zone {
        Zone { first: 0, rows: Vec::new(), rule: None }
    }

    pub fn from_rule(text: &str) -> Result<Zone, Refused> {
        let rule = RuleText(text).rule()?;
        Ok(Zone { first: 0, rows: Vec::new(), rule: Some(rule) })
    }

    /// How many seconds the clock is ahead of UTC at an instant.
    pub fn offset_at(&self, second: i64) -> i64 {
        let passed = self.rows.partition_point(|row| row.second <= second);
        match (&self.rule, passed) {
            (Some(rule), _) if passed == self.rows.len() => rule.offset_at(second),
            (_, 0) => self.first,
            _ => self.rows[passed - 1].after.offset,
        }
    }

    /// The offset by which a time of the clock becomes an instant; in a gap or a fold the one before it.
    pub fn offset_of_clock(&self, clock: i64) -> i64 {
        let begun = self.rows.partition_point(|row| row.clock_start() <= clock);
        if let Some(row) = self.rows[..begun].last().filter(|row| clock < row.clock_end()) {
            return row.before;
        }
        match (&self.rule, begun) {
            (Some(rule), _) if begun == self.rows.len() => rule.offset_of_clock(clock),
            (_, 0) => self.first,
            _ => self.rows[begun - 1].after.offset,
        }
    }
}

impl Row {
    fn clock_start(&self) -> i64 {
        self.second + self.before.min(self.after.offset)
    }

    fn clock_end(&self) -> i64 {
        self.second + self.before.max(self.after.offset)
    }
}

// Rules.

fn in_window((start, end): (i128, i128), at: i128) -> bool {
    if start <= end {
        start <= at && at < end
    } else {
        !(end <= at && at < start)
    }
}

fn first_nano(year: i64) -> i128 {
    i128::from(day_number(year, 1, 1) * DAY_SECONDS) * NANOS
}

fn last_nano(year: i64) -> i128 {
    first_nano(year + 1) - 1
}

fn year_of(second: i64) -> i64 {
    date_of(second.div_euclid(DAY_SECONDS)).0
}

impl Change {
    /// Nanoseconds of the change in a year, on a clock that is `ahead` seconds behind the rule's; kept in the year.
    fn of_year(&self, year: i64, ahead: i64) -> i128 {
        let Some(day) = self.day.of_year(year) else { return last_nano(year) };
        let at = i128::from(day * DAY_SECONDS + self.second - ahead) * NANOS;
        at.clamp(first_nano(year), last_nano(year))
    }
}

impl ChangeDay {
    fn of_year(&self, year: i64) -> Option<i64> {
        let first = day_number(year, 1, 1);
        match *self {
            ChangeDay::Julian(day) => Some(first + i64::from(day) - 1 + i64::from(is_leap(year) && day >= 60)),
            ChangeDay::OfYear(day) => (day < 365 + u32::from(is_leap(year))).then(|| first + i64::from(day)),
            ChangeDay::Weekday { month, week, weekday } => {
                let start = day_number(year, month, 1);
                let sunday_number = |day: i64| (day + 4).rem_euclid(7);
                let first = start + (i64::from(weekday) - sunday_number(start)).rem_euclid(7);
                let mut day = first + 7 * (i64::from(week) - 1);
                while day >= start + i64::from(days_of_month(year, month)) {
                    day -= 7;
                }
                Some(day)
            }
        }
    }
}

impl Rule {
    fn offset_at(&self, second: i64) -> i64 {
        match &self.summer {
            Some(summer) if self.is_summer(summer, second) => summer.offset,
            _ => self.offset,
        }
    }

    /// Summer time lasts all year where it begins with the year and its end, on the standard clock, leaves it.
    fn is_summer(&self, summer: &Summer, second: i64) -> bool {
        let year = year_of(second);
        let start = summer.start.of_year(year, self.offset);
        let mut end = summer.end.of_year(year, summer.offset);
        let shown = end + i128::from(self.offset) * NANOS;
        if start == first_nano(year) && !(first_nano(year)..=last_nano(year)).contains(&shown) {
            end = last_nano(year);
        }
        in_window((start, end), i128::from(second) * NANOS)
    }

    fn offset_of_clock(&self, clock: i64) -> i64 {
        let Some(summer) = self.summer.as_ref().filter(|summer| summer.offset != self.offset) else {
            return self.offset;
        };
        let year = year_of(clock);
        let (start, end) = (summer.start.of_year(year, 0), summer.end.of_year(year, 0));
        let shift = i128::from(summer.offset - self.offset) * NANOS;
        let clock = i128::from(clock) * NANOS;
        let inside = in_window((start, end), clock);
        let in_summer = if shift > 0 {
            let in_gap = start <= clock && clock < start + shift;
            inside && !in_gap
        } else {
            let in_fold = start + shift <= clock && clock < start;
            let in_gap = end <= clock && clock < end - shift;
            inside || in_gap && !in_fold
        };
        if in_summer {
            summer.offset
        } else {
            self.offset
        }
    }
}

/// Reads a rule from the front.
struct RuleText<'a>(&'a str);

impl<'a> RuleText<'a> {
    fn rule(mut self) -> Result<Rule, Refused> {
        let mut rule = Rule { name: self.name()?, offset: self.offset()?, summer: None };
        if self.0.starts_with(|c: char| c.is_ascii_alphabetic() || c == '<') {
            let name = self.name()?;
            let offset = if self.0.starts_with(',') { rule.offset + 3600 } else { self.offset()? };
            self.expect(',')?;
            let start = self.change()?;
            self.expect(',')?;
            rule.summer = Some(Summer { name, offset, start, end: self.change()? });
        }
        if self.0.is_empty() {
            Ok(rule)
        } else {
            Err(Refused)
        }
    }

    fn take_if(&mut self, c: char) -> bool {
        match self.0.strip_prefix(c) {
            Some(rest) => {
                self.0 = rest;
                true
            }
            None => false,
        }
    }

    fn expect(&mut self, c: char) -> Result<(), Refused> {
        if self.take_if(c) {
            Ok(())
        } else {
            Err(Refused)
        }
    }

    fn take_while(&mut self, most: usize, good: impl Fn(u8) -> bool) -> &'a str {
        let count = self.0.bytes().take(most).take_while(|&byte| good(byte)).count();
        let (front, rest) = self.0.split_at(count);
        self.0 = rest;
        front
    }

    fn number(&mut self, most_digits: usize) -> Result<u32, Refused> {
        self.take_while(most_digits, |byte| byte.is_ascii_digit()).parse().map_err(|_| Refused)
    }

    fn name(&mut self) -> Result<String, Refused> {
        let name = if self.take_if('<') {
            let name = self.take_while(usize::MAX, |byte| byte.is_ascii_alphanumeric() || byte == b'+' || byte == b'-');
            self.expect('>')?;
            name
        } else {
            self.take_while(usize::MAX, |byte| byte.is_ascii_alphabetic())
        };
        if (3..=15).contains(&name.len()) {
            Ok(name.to_owned())
        } else {
            Err(Refused)
        }
    }

    /// `[+-]h[:mm[:ss]]` in seconds, as its sign says.
    fn time(&mut self, most_digits: usize, most_hours: u32) -> Result<i64, Refused> {
        let minus = self.take_if('-');
        if !minus {
            self.take_if('+');
        }
        let hours = self.number(most_digits)?;
        let minutes = self.sixty()?;
        let seconds = if minutes.is_some() { self.sixty()? } else { None };
        if hours > most_hours {
            return Err(Refused);
        }
        let total = i64::from(hours * 3600 + minutes.unwrap_or(0) * 60 + seconds.unwrap_or(0));
        Ok(if minus { -total } else { total })
    }

    /// A colon and two digits, where a colon stands.
    fn sixty(&mut self) -> Result<Option<u32>, Refused> {
        if !self.take_if(':') {
            return Ok(None);
        }
        let digits = self.take_while(2, |byte| byte.is_ascii_digit());
        match digits.parse() {
            Ok(value) if digits.len() == 2 && value < 60 => Ok(Some(value)),
            _ => Err(Refused),
        }
    }

    /// A rule counts to the west.
    fn offset(&mut self) -> Result<i64, Refused> {
        Ok(-self.time(2, 24)?)
    }

    fn change(&mut self) -> Result<Change, Refused> {
        let day = if self.take_if('M') {
            let month = self.number(2)?;
            self.expect('.')?;
            let week = self.number(1)?;
            self.expect('.')?;
            let weekday = self.number(1)?;
            if !(1..=12).contains(&month) || !(1..=5).contains(&week) || weekday > 6 {
                return Err(Refused);
            }
            ChangeDay::Weekday { month, week, weekday }
        } else if self.take_if('J') {
            let day = self.number(3)?;
            if !(1..=365).contains(&day) {
                return Err(Refused);
            }
            ChangeDay::Julian(day)
        } else {
            let day = self.number(3)?;
            if day > 365 {
                return Err(Refused);
            }
            ChangeDay::OfYear(day)
        };
        let second = if self.take_if('/') { self.time(3, 167)? } else { 7200 };
        Ok(Change { day, second })
    }
}

// TZif files.

const FIRST_SECOND: i64 = -377_705_023_201;
const LAST_SECOND: i64 = 253_402_207_200;
const MOST_OFFSET: i64 = 93_599;

fn need(good: bool) -> Result<(), Refused> {
    if good {
        Ok(())
    } else {
        Err(Refused)
    }
}

struct FileReader<'a>(&'a [u8]);

impl<'a> FileReader<'a> {
    fn take(&mut self, count: usize) -> Result<&'a [u8], Refused> {
        need(count <= self.0.len())?;
        let (front, rest) = self.0.split_at(count);
        self.0 = rest;
        Ok(front)
    }

    fn count(&mut self) -> Result<usize, Refused> {
        Ok(u32::from_be_bytes(self.take(4)?.try_into().map_err(|_| Refused)?) as usize)
    }

    /// A header and its data block, whose times have `size` bytes each.
    fn block(&mut self, size: usize) -> Result<Block<'a>, Refused> {
        need(self.take(4)? == b"TZif")?;
        let version = self.take(16)?[0];
        let (ut, std, leap) = (self.count()?, self.count()?, self.count()?);
        let (times, types, chars) = (self.count()?, self.count()?, self.count()?);
        need((1..=256).contains(&types) && chars > 0 && (ut == 0 || ut == types) && (std == 0 || std == types))?;
        let times_bytes = self.take(times * size)?;
        let indexes = self.take(times)?;
        let types = self.take(types * 6)?;
        let chars = self.take(chars)?;
        self.take(leap * (size + 4))?;
        Ok(Block { version, size, times: times_bytes, indexes, types, chars, std: self.take(std)?, ut: self.take(ut)? })
    }
}

struct Block<'a> {
    version: u8,
    size: usize,
    times: &'a [u8],
    indexes: &'a [u8],
    types: &'a [u8],
    chars: &'a [u8],
    std: &'a [u8],
    ut: &'a [u8],
}

impl Block<'_> {
    fn local_type(&self, entry: &[u8]) -> Result<LocalType, Refused> {
        let offset = i64::from(i32::from_be_bytes([entry[0], entry[1], entry[2], entry[3]]));
        need(offset.abs() <= MOST_OFFSET)?;
        let chars = self.chars.get(usize::from(entry[5])..).ok_or(Refused)?;
        let end = chars.iter().position(|&byte| byte == 0).ok_or(Refused)?;
        need(end <= 15 && std::str::from_utf8(&chars[..end]).is_ok())?;
        Ok(LocalType { offset, is_dst: entry[4] == 1, name: chars[..end].to_vec() })
    }

    fn second(&self, entry: &[u8]) -> i64 {
        let second = match *entry {
            [a, b, c, d] => i64::from(i32::from_be_bytes([a, b, c, d])),
            _ => i64::from_be_bytes(entry.try_into().unwrap()),
        };
        second.clamp(FIRST_SECOND, LAST_SECOND)
    }

    fn table(&self) -> Result<(i64, Vec<Row>), Refused> {
        let types = self.types.chunks(6).map(|entry| self.local_type(entry)).collect::<Result<Vec<_>, _>>()?;
        let mut rows = Vec::with_capacity(self.indexes.len());
        let mut before = types[0].offset;
        for (entry, &index) in self.times.chunks(self.size).zip(self.indexes) {
            let after = types.get(usize::from(index)).ok_or(Refused)?.clone();
            let offset = after.offset;
            rows.push(Row { second: self.second(entry), before, after });
            before = offset;
        }
        for pair in rows.windows(2) {
            need(pair[0].second <= pair[1].second && pair[0].clock_end() <= pair[1].clock_start())?;
        }
        need(match (self.std, self.ut) {
            (std, []) => std.iter().all(|&flag| flag <= 1),
            ([], ut) => ut.iter().all(|&flag| flag == 0),
            (std, ut) => std.iter().zip(ut).all(|(&std, &ut)| std <= 1 && ut <= std),
        })?;
        Ok((types[0].offset, rows))
    }
}

impl Zone {
    /// Of a file of a later version the second block counts, and the rule after it.
    pub fn from_file(data: &[u8]) -> Result<Zone, Refused> {
        let mut reader = FileReader(data);
        let block = reader.block(4)?;
        if block.version == 0 {
            let (first, rows) = block.table()?;
            return Ok(Zone { first, rows, rule: None });
        }
        let (first, rows) = reader.block(8)?.table()?;
        let rule = footer(reader.0)?;
        if let (Some(rule), Some(last)) = (&rule, rows.last()) {
            let summer = rule.summer.as_ref().filter(|summer| rule.is_summer(summer, last.second));
            let (offset, name) = summer.map_or((rule.offset, &rule.name), |summer| (summer.offset, &summer.name));
            need(offset == last.after.offset && summer.is_some() == last.after.is_dst)?;
            need(name.as_bytes() == last.after.name)?;
        }
        Ok(Zone { first, rows, rule })
    }
}

/// The rule between two newlines, if one stands there.
fn footer(data: &[u8]) -> Result<Option<Rule>, Refused> {
    let text = data.strip_prefix(b"\n").ok_or(Refused)?;
    let end = text.iter().take(1024).position(|&byte| byte == b'\n').ok_or(Refused)?;
    match std::str::from_utf8(&text[..end]) {
        Ok("") => Ok(None),
        Ok(rule) => RuleText(rule).rule().map(Some),
        Err(_) => Err(Refused),
    }
}
