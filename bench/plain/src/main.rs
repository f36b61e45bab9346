//! A gateway between SIRI 2.0 and GTFS Realtime 2.0 in plain Rust, to measure the proved one beside it.

mod estimated;
mod fault;
mod feed;
mod gateway;
mod gtfs;
mod json;
mod propagate;
mod server;
mod shown;
mod siri;
mod situations;
mod time;
mod words;
mod written;
mod zone;

use fault::{BodyFault, Exit};
use gateway::{Gateway, Rolling};
use siri::{Context, Window};
use std::fs::File;
use std::io::{self, BufWriter, ErrorKind, Read, Write};
use std::os::fd::AsFd;
use std::process::ExitCode;
use words::{BadWord, Kind, Scope, Work, ZoneWord};
use zone::Zone;

const MOST_ZONE: usize = 1_048_576;

fn main() -> ExitCode {
    let words: Vec<String> = std::env::args_os().skip(1).map(|word| word.into_string().unwrap_or_default()).collect();
    match run(&words) {
        Ok(()) => ExitCode::SUCCESS,
        Err(exit) => {
            let _ = writeln!(io::stderr(), "{exit}");
            ExitCode::from(exit.status())
        }
    }
}

fn run(words: &[String]) -> Result<(), Exit> {
    let (scope, work) = words::read_words(words).map_err(|BadWord(at)| Exit::BadWord(at))?;
    let context = read_context(&scope)?;
    match work {
        Work::ToGtfsrt { at, files } => to_gtfsrt(context, at, &files),
        Work::ToSiri { at, feed } => to_siri(&context, at, &feed),
        Work::Show { feed } => show(&context, &feed),
        Work::Serve { keep, listen, connections } => {
            let rolling = Rolling { keep, days: scope.days };
            server::serve(&mut Gateway::new(context, Some(rolling)), &listen, connections)
        }
    }
}

fn read_context(scope: &Scope) -> Result<Context, Exit> {
    let table = gtfs::read_folder(&scope.gtfs)?;
    let zone = match &scope.zone {
        ZoneWord::Rule(rule) => Zone::from_rule(rule),
        ZoneWord::File(path) => Zone::from_file(&read_file(path, MOST_ZONE)?),
    };
    let zone = zone.map_err(|_| Exit::Refused("zone refused".to_owned()))?;
    let window = Window::new(&zone, scope.first, scope.days);
    Ok(Context { table, zone, window })
}

fn read_file(path: &str, most: usize) -> Result<Vec<u8>, Exit> {
    let file = File::open(path).map_err(|error| match error.kind() {
        ErrorKind::NotFound | ErrorKind::NotADirectory => Exit::Missing(path.to_owned()),
        _ => Exit::Failed,
    })?;
    let length = file.metadata()?.len().min(most as u64) as usize;
    let mut bytes = Vec::with_capacity(length + 1);
    file.take(most as u64 + 1).read_to_end(&mut bytes)?;
    if bytes.len() > most {
        return Err(Exit::Refused(format!("TooLong {path}")));
    }
    Ok(bytes)
}

fn refused(path: &str, fault: BodyFault) -> Exit {
    Exit::Refused(format!("{path} {fault}"))
}

/// Standard output, which is written in large pieces.
fn output() -> io::Result<BufWriter<File>> {
    Ok(BufWriter::with_capacity(1 << 16, File::from(io::stdout().as_fd().try_clone_to_owned()?)))
}

fn to_gtfsrt(context: Context, at: i64, files: &[(Kind, String)]) -> Result<(), Exit> {
    let mut gateway = Gateway::new(context, None);
    let mut reports = String::new();
    for (kind, path) in files {
        let body = read_file(path, server::MOST_BODY)?;
        let report = match kind {
            Kind::Estimated => gateway.take_estimated(&body, at),
            Kind::Situations => gateway.take_situations(&body, at),
        };
        reports += &report.map_err(|fault| refused(path, fault))?.lines(path);
    }
    let mut out = output()?;
    gateway.write_feed(&mut out, at)?;
    out.flush()?;
    Ok(io::stderr().write_all(reports.as_bytes())?)
}

fn to_siri(context: &Context, at: i64, path: &str) -> Result<(), Exit> {
    let body = read_file(path, server::MOST_BODY)?;
    let reading = propagate::readings_of(&body, context).map_err(|fault| refused(path, fault))?;
    shown::check_calls(&reading, context).map_err(|fault| refused(path, fault))?;
    let mut out = output()?;
    shown::write_siri(&mut out, &reading, context, at)?;
    out.flush()?;
    Ok(io::stderr().write_all(reading.report.lines(path).as_bytes())?)
}

fn show(context: &Context, path: &str) -> Result<(), Exit> {
    let body = read_file(path, server::MOST_BODY)?;
    let reading = propagate::readings_of(&body, context).map_err(|fault| refused(path, fault))?;
    let mut out = output()?;
    shown::write_lines(&mut out, &reading, context)?;
    Ok(out.flush()?)
}
