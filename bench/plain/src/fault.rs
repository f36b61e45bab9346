//! What is refused, and what is set aside.

use std::fmt::{self, Display, Formatter};

/// What ends a run: its status and its text.
#[derive(Debug)]
pub enum Exit {
    BadWord(usize),
    Refused(String),
    Missing(String),
    Failed,
}

impl Exit {
    pub fn status(&self) -> u8 {
        match self {
            Exit::BadWord(_) => 2,
            Exit::Refused(_) => 65,
            Exit::Missing(_) => 66,
            Exit::Failed => 74,
        }
    }
}

impl Display for Exit {
    fn fmt(&self, f: &mut Formatter) -> fmt::Result {
        match self {
            Exit::BadWord(at) => write!(f, "gateway: bad word {at}"),
            Exit::Refused(text) => write!(f, "gateway: {text}"),
            Exit::Missing(path) => write!(f, "gateway: Missing {path}"),
            Exit::Failed => write!(f, "gateway: failed"),
        }
    }
}

impl From<std::io::Error> for Exit {
    fn from(_: std::io::Error) -> Exit {
        Exit::Failed
    }
}

/// Why a whole delivery or feed is refused.
#[derive(Debug, Clone)]
pub enum BodyFault {
    NotJson,
    NotDelivery(&'static str),
    Wire(usize, &'static str),
    MissingField(usize, &'static str),
    NotText(usize),
    EntityTooLong(usize),
    Differential,
    TooManyCalls(usize),
}

impl Display for BodyFault {
    fn fmt(&self, f: &mut Formatter) -> fmt::Result {
        match self {
            BodyFault::NotJson => write!(f, "NotJson"),
            BodyFault::NotDelivery(member) => write!(f, "NotDelivery {member}"),
            BodyFault::Wire(at, kind) => write!(f, "Wire {at} {kind}"),
            BodyFault::MissingField(at, name) => write!(f, "MissingField {at} {name}"),
            BodyFault::NotText(at) => write!(f, "NotText {at}"),
            BodyFault::EntityTooLong(at) => write!(f, "EntityTooLong {at}"),
            BodyFault::Differential => write!(f, "Differential"),
            BodyFault::TooManyCalls(count) => write!(f, "TooManyCalls {count}"),
        }
    }
}

/// Why an item is set aside.
#[derive(Debug, Clone)]
pub enum Fault {
    BadField(&'static str),
    AddedJourney,
    UnknownJourney,
    OutOfWindow,
    NotRunning,
    UnknownStop(usize),
    OutOfOrder(usize),
    DelayRange(usize, i128),
    Full,
    UnknownRef(&'static str),
    NoAffects,
    EntityTooLong(usize),
    NoDate,
    StopMismatch(usize),
    NoTime(usize),
    OtherRelation(i32),
    OtherPlace(usize),
    PlacesTooLong(usize),
}

impl Display for Fault {
    fn fmt(&self, f: &mut Formatter) -> fmt::Result {
        match self {
            Fault::BadField(member) => write!(f, "BadField {member}"),
            Fault::AddedJourney => write!(f, "AddedJourney"),
            Fault::UnknownJourney => write!(f, "UnknownJourney"),
            Fault::OutOfWindow => write!(f, "OutOfWindow"),
            Fault::NotRunning => write!(f, "NotRunning"),
            Fault::UnknownStop(at) => write!(f, "UnknownStop {at}"),
            Fault::OutOfOrder(at) => write!(f, "OutOfOrder {at}"),
            Fault::DelayRange(at, seconds) => write!(f, "DelayRange {at} {seconds}"),
            Fault::Full => write!(f, "Full"),
            Fault::UnknownRef(member) => write!(f, "UnknownRef {member}"),
            Fault::NoAffects => write!(f, "NoAffects"),
            Fault::EntityTooLong(bytes) => write!(f, "EntityTooLong {bytes}"),
            Fault::NoDate => write!(f, "NoDate"),
            Fault::StopMismatch(at) => write!(f, "StopMismatch {at}"),
            Fault::NoTime(at) => write!(f, "NoTime {at}"),
            Fault::OtherRelation(number) => write!(f, "OtherRelation {number}"),
            Fault::OtherPlace(at) => write!(f, "OtherPlace {at}"),
            Fault::PlacesTooLong(bytes) => write!(f, "PlacesTooLong {bytes}"),
        }
    }
}

#[derive(Debug, Default)]
pub struct Report {
    pub taken: u64,
    pub passed: u64,
    pub aside: Vec<(usize, Fault)>,
}

impl Report {
    pub fn add(&mut self, index: usize, verdict: Result<u64, Fault>) {
        match verdict {
            Ok(passed) => {
                self.taken += 1;
                self.passed += passed;
            }
            Err(fault) => self.aside.push((index, fault)),
        }
    }

    /// `taken T passed P aside N`
    pub fn totals(&self) -> String {
        format!("taken {} passed {} aside {}", self.taken, self.passed, self.aside.len())
    }

    /// The lines for one file.
    pub fn lines(&self, file: &str) -> String {
        let mut text = String::new();
        for (index, fault) in &self.aside {
            text += &format!("{file} aside {index} {fault}\n");
        }
        text + &format!("{file} {}\n", self.totals())
    }

    /// The answer of a server.
    pub fn json(&self) -> String {
        let aside: Vec<String> =
            self.aside.iter().map(|(index, fault)| format!(r#"{{"fault":"{fault}","index":{index}}}"#)).collect();
        format!(r#"{{"aside":[{}],"passed":{},"taken":{}}}"#, aside.join(","), self.passed, self.taken)
    }
}
