//! The words of a command.

use crate::time::{read_utc, Day};

const MOST_DAYS: u32 = 32;

pub enum ZoneWord {
    Rule(String),
    File(String),
}

pub struct Scope {
    pub gtfs: String,
    pub zone: ZoneWord,
    pub first: Day,
    pub days: u32,
}

#[derive(Clone, Copy, PartialEq, Eq)]
pub enum Kind {
    Estimated,
    Situations,
}

pub enum Work {
    ToGtfsrt { at: i64, files: Vec<(Kind, String)> },
    ToSiri { at: i64, feed: String },
    Show { feed: String },
    Serve { keep: u32, listen: String, connections: u32 },
}

/// So many words, from the front, are right.
pub struct BadWord(pub usize);

pub fn last_day() -> Day {
    Day::from_date(9997, 12, 31).unwrap()
}

fn first_day() -> Day {
    Day::from_date(1971, 1, 1).unwrap()
}

struct Words<'a> {
    words: &'a [String],
    place: usize,
}

impl<'a> Words<'a> {
    fn take<T>(&mut self, read: impl FnOnce(&'a str) -> Option<T>) -> Result<T, BadWord> {
        let value = self.words.get(self.place).and_then(|word| read(word)).ok_or(BadWord(self.place))?;
        self.place += 1;
        Ok(value)
    }

    fn flag(&mut self, name: &str) -> Result<(), BadWord> {
        self.take(|word| (word == name).then_some(()))
    }

    fn text(&mut self) -> Result<String, BadWord> {
        self.take(|word| (!word.is_empty()).then(|| word.to_owned()))
    }

    fn number(&mut self, from: u32, to: u32) -> Result<u32, BadWord> {
        self.take(|word| crate::time::number(word.as_bytes()).filter(|number| (from..=to).contains(number)))
    }

    fn scope(&mut self) -> Result<Scope, BadWord> {
        self.flag("--gtfs")?;
        let gtfs = self.text()?;
        let is_rule = self.take(|word| match word {
            "--zone-rule" => Some(true),
            "--zone-file" => Some(false),
            _ => None,
        })?;
        let zone = if is_rule { ZoneWord::Rule(self.text()?) } else { ZoneWord::File(self.text()?) };
        self.flag("--from")?;
        let first =
            self.take(|word| Day::read_dashed(word.as_bytes()).filter(|day| (first_day()..=last_day()).contains(day)))?;
        self.flag("--days")?;
        let most = MOST_DAYS.min((last_day().0 - first.0) as u32 + 1);
        let days = self.number(1, most)?;
        Ok(Scope { gtfs, zone, first, days })
    }

    fn at(&mut self) -> Result<i64, BadWord> {
        self.flag("--at")?;
        self.take(read_utc)
    }

    fn feed(&mut self) -> Result<String, BadWord> {
        self.flag("--feed")?;
        self.text()
    }
}

/// A word that isn't UTF-8 comes as an empty one.
pub fn read_words(words: &[String]) -> Result<(Scope, Work), BadWord> {
    let mut reader = Words { words, place: 0 };
    let command =
        reader.take(|word| ["to-gtfsrt", "to-siri", "show", "serve"].into_iter().find(|&command| command == word))?;
    let scope = reader.scope()?;
    let work = match command {
        "to-gtfsrt" => {
            let at = reader.at()?;
            let mut files = Vec::new();
            while reader.place < words.len() {
                let kind = reader.take(|word| match word {
                    "--et" => Some(Kind::Estimated),
                    "--sx" => Some(Kind::Situations),
                    _ => None,
                })?;
                files.push((kind, reader.text()?));
            }
            Work::ToGtfsrt { at, files }
        }
        "to-siri" => Work::ToSiri { at: reader.at()?, feed: reader.feed()? },
        "show" => Work::Show { feed: reader.feed()? },
        _ => {
            reader.flag("--keep")?;
            let keep = reader.number(0, scope.days - 1)?;
            reader.flag("--listen")?;
            let listen = reader.text()?;
            reader.flag("--connections")?;
            Work::Serve { keep, listen, connections: reader.number(1, u32::MAX)? }
        }
    };
    if reader.place < words.len() {
        return Err(BadWord(reader.place));
    }
    Ok((scope, work))
}
