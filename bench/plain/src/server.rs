//! The server: one connection after the other, one request each.

use crate::fault::{BodyFault, Exit, Report};
use crate::gateway::Gateway;
use crate::time::is_moment;
use std::io::{self, BufWriter, ErrorKind, Read, Write};
use std::net::{Shutdown, TcpListener, TcpStream};
use std::time::{Duration, SystemTime, UNIX_EPOCH};

const MOST_HEAD: usize = 16_384;
const MOST_LINES: usize = 64;
pub const MOST_BODY: usize = 16_777_216;

enum Refusal {
    Head,
    Cut,
    Length,
    NotFound,
    Method(&'static str),
    NeedLength,
    TooLarge,
    TooManyFields,
    Clock,
    Memory,
    Body(BodyFault),
}

/// Why a connection gets no answer, or a refusal.
enum End {
    Lost,
    Refused(Refusal),
}

impl From<Refusal> for End {
    fn from(refusal: Refusal) -> End {
        End::Refused(refusal)
    }
}

impl From<BodyFault> for End {
    fn from(fault: BodyFault) -> End {
        End::Refused(Refusal::Body(fault))
    }
}

#[derive(Clone, Copy)]
enum Target {
    EstimatedPost,
    EstimatedGet,
    SituationsPost,
    FeedPost,
    FeedGet,
}

struct Head {
    target: Target,
    length: usize,
    /// Where the body begins.
    end: usize,
}

pub fn serve(gateway: &mut Gateway, listen: &str, connections: u32) -> Result<(), Exit> {
    let listener = TcpListener::bind(listen)?;
    let mut body = Vec::new();
    for _ in 0..connections {
        let (stream, _) = listener.accept()?;
        // What fails on a connection ends that connection alone.
        let _ = serve_one(gateway, &stream, &mut body);
        hang_up(&stream);
    }
    Ok(())
}

fn now() -> Option<i64> {
    let passed = SystemTime::now().duration_since(UNIX_EPOCH).ok()?;
    i64::try_from(passed.as_secs()).ok().filter(|&secs| is_moment(secs))
}

fn serve_one(gateway: &mut Gateway, stream: &TcpStream, body: &mut Vec<u8>) -> io::Result<()> {
    let mut out = BufWriter::with_capacity(1 << 16, stream);
    let answer = match now() {
        None => Err(End::Refused(Refusal::Clock)),
        Some(moment) => {
            read_request(stream, body).and_then(|target| Ok((moment, answer(gateway, target, body, moment)?)))
        }
    };
    match answer {
        Err(End::Lost) => return Ok(()),
        Err(End::Refused(refusal)) => write_refusal(&mut out, &refusal)?,
        Ok((_, Answer::Report(report))) => {
            let text = report.json();
            write_head(&mut out, "200 OK", "application/json", text.len(), None)?;
            out.write_all(text.as_bytes())?;
        }
        Ok((_, Answer::Siri)) => {
            write_head(&mut out, "200 OK", "application/json", gateway.siri().len(), None)?;
            out.write_all(gateway.siri())?;
        }
        Ok((moment, Answer::Feed)) => {
            write_head(&mut out, "200 OK", "application/x-protobuf", gateway.feed_len(moment), None)?;
            gateway.write_feed(&mut out, moment)?;
        }
    }
    out.flush()
}

enum Answer {
    Report(Report),
    Siri,
    Feed,
}

fn answer(gateway: &mut Gateway, target: Target, body: &[u8], moment: i64) -> Result<Answer, End> {
    Ok(match target {
        Target::EstimatedPost => Answer::Report(gateway.take_estimated(body, moment)?),
        Target::SituationsPost => Answer::Report(gateway.take_situations(body, moment)?),
        Target::FeedPost => Answer::Report(gateway.take_feed(body, moment)?),
        Target::EstimatedGet => Answer::Siri,
        Target::FeedGet => Answer::Feed,
    })
}

/// The target of a request, and its body.
fn read_request(mut stream: &TcpStream, body: &mut Vec<u8>) -> Result<Target, End> {
    let mut head = [0; MOST_HEAD];
    let mut filled = 0;
    let request = loop {
        if let Some(request) = read_head(&head[..filled])? {
            break request;
        }
        if filled == MOST_HEAD {
            return Err(Refusal::TooManyFields.into());
        }
        match read(&mut stream, &mut head[filled..])? {
            0 => return Err(Refusal::Head.into()),
            count => filled += count,
        }
    };
    body.clear();
    body.try_reserve_exact(request.length).map_err(|_| Refusal::Memory)?;
    let rest = &head[request.end..filled];
    body.extend_from_slice(&rest[..rest.len().min(request.length)]);
    let missing = (request.length - body.len()) as u64;
    match stream.take(missing).read_to_end(body) {
        Ok(count) if count as u64 == missing => Ok(request.target),
        Ok(_) => Err(Refusal::Cut.into()),
        Err(_) => Err(End::Lost),
    }
}

fn read(stream: &mut &TcpStream, into: &mut [u8]) -> Result<usize, End> {
    loop {
        match stream.read(into) {
            Err(error) if error.kind() == ErrorKind::Interrupted => {}
            result => return result.map_err(|_| End::Lost),
        }
    }
}

/// The head, once its empty line is there.
fn read_head(bytes: &[u8]) -> Result<Option<Head>, End> {
    let is_empty = |line: &[u8]| matches!(line, b"\n" | b"\r\n");
    let mut lines = bytes.split_inclusive(|&byte| byte == b'\n').peekable();
    let mut start = 0;
    while let Some(line) = lines.next_if(|line| is_empty(line)) {
        start += line.len();
    }
    let (mut end, mut count) = (start, 0);
    for line in lines {
        end += line.len();
        if is_empty(line) {
            return if count > MOST_LINES + 1 {
                Err(Refusal::TooManyFields.into())
            } else {
                Ok(Some(parse_head(&bytes[start..end], end)?))
            };
        }
        count += 1;
    }
    Ok(None)
}

fn parse_head(bytes: &[u8], end: usize) -> Result<Head, Refusal> {
    let mut headers = [httparse::EMPTY_HEADER; MOST_LINES];
    let mut request = httparse::Request::new(&mut headers);
    match request.parse(bytes) {
        Ok(httparse::Status::Complete(_)) => {}
        _ => return Err(Refusal::Head),
    }
    let (method, path) = (request.method.ok_or(Refusal::Head)?, request.path.ok_or(Refusal::Head)?);
    let path = path.split('?').next().unwrap_or(path);
    let target = match (path, method) {
        ("/siri/et", "POST") => Target::EstimatedPost,
        ("/siri/et", "GET") => Target::EstimatedGet,
        ("/siri/sx", "POST") => Target::SituationsPost,
        ("/gtfs-rt", "POST") => Target::FeedPost,
        ("/gtfs-rt", "GET") => Target::FeedGet,
        ("/siri/sx", _) => return Err(Refusal::Method("POST")),
        ("/siri/et" | "/gtfs-rt", _) => return Err(Refusal::Method("GET, POST")),
        _ => return Err(Refusal::NotFound),
    };
    let length = if method == "POST" { content_length(request.headers)? } else { 0 };
    Ok(Head { target, length, end })
}

fn content_length(headers: &[httparse::Header]) -> Result<usize, Refusal> {
    let named = |name: &'static str| headers.iter().filter(move |header| header.name.eq_ignore_ascii_case(name));
    let mut lengths = named("Content-Length").map(|header| trim(header.value));
    let (Some(first), None) = (lengths.next(), named("Transfer-Encoding").next()) else {
        return Err(Refusal::NeedLength);
    };
    let is_number = !first.is_empty() && first.iter().all(u8::is_ascii_digit);
    if !is_number || lengths.any(|other| other != first) {
        return Err(Refusal::Length);
    }
    let digits = std::str::from_utf8(first).map_err(|_| Refusal::Length)?;
    match digits.parse() {
        Ok(length) if length <= MOST_BODY => Ok(length),
        _ => Err(Refusal::TooLarge),
    }
}

fn trim(mut value: &[u8]) -> &[u8] {
    while let [b' ' | b'\t', rest @ ..] | [rest @ .., b' ' | b'\t'] = value {
        value = rest;
    }
    value
}

fn write_head(out: &mut impl Write, status: &str, kind: &str, length: usize, allow: Option<&str>) -> io::Result<()> {
    write!(out, "HTTP/1.1 {status}\r\nContent-Type: {kind}\r\nContent-Length: {length}\r\n")?;
    if let Some(allow) = allow {
        write!(out, "Allow: {allow}\r\n")?;
    }
    out.write_all(b"Connection: close\r\n\r\n")
}

fn write_refusal(out: &mut impl Write, refusal: &Refusal) -> io::Result<()> {
    let (status, fault, allow) = match refusal {
        Refusal::Head => ("400 Bad Request", "Head".to_owned(), None),
        Refusal::Cut => ("400 Bad Request", "Cut".to_owned(), None),
        Refusal::Length => ("400 Bad Request", "Length".to_owned(), None),
        Refusal::Body(fault) => ("400 Bad Request", fault.to_string(), None),
        Refusal::NotFound => ("404 Not Found", "NotFound".to_owned(), None),
        Refusal::Method(allow) => ("405 Method Not Allowed", "Method".to_owned(), Some(*allow)),
        Refusal::NeedLength => ("411 Length Required", "NeedLength".to_owned(), None),
        Refusal::TooLarge => ("413 Content Too Large", "TooLarge".to_owned(), None),
        Refusal::TooManyFields => ("431 Request Header Fields Too Large", "TooManyFields".to_owned(), None),
        Refusal::Clock => ("500 Internal Server Error", "Clock".to_owned(), None),
        Refusal::Memory => ("503 Service Unavailable", "Memory".to_owned(), None),
    };
    let text = format!("H{} {fault}\n", &status[..3]);
    write_head(out, status, "text/plain; charset=utf-8", text.len(), allow)?;
    out.write_all(text.as_bytes())
}

/// Lets the peer read the answer: what it still sends is taken for a moment, so that no reset overtakes the answer.
fn hang_up(mut stream: &TcpStream) {
    let _ = stream.shutdown(Shutdown::Write);
    let _ = stream.set_read_timeout(Some(Duration::from_millis(100)));
    let mut rest = [0; 1 << 16];
    let mut left = 2 * MOST_BODY;
    while let Ok(count @ 1..) = stream.read(&mut rest) {
        left = left.saturating_sub(count);
        if left == 0 {
            break;
        }
    }
}
