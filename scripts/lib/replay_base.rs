//! `desk replay` as one would write it without proofs: with hash maps, and with Rust's own library alone.
//!
//!     replay_base DOMAIN < lines > replies
//!
//! It reads documents of the verbs open, clear, note, sign_on, assign, status and release, and gives the reply line of
//! the desk to each (docs/DOCUMENTS.md). It keeps the log, the board, and the last reply of each client. Of a document
//! that asks for no command it gives the number of the refusal alone; scripts/bench/beside-rust makes no such line.

use std::collections::HashMap;
use std::io::{BufRead, Write};

/// The entries that the log of a replay has at most.
const PLACES: usize = 65536;

/// The words of a unit's status, by their numbers.
const STATUSES: [&str; 7] =
    ["available", "dispatched", "en_route", "on_scene", "transporting", "at_facility", "out_of_service"];
const AVAILABLE: u8 = 0;
const DISPATCHED: u8 = 1;
const AT_FACILITY: u8 = 5;
const OUT_OF_SERVICE: u8 = 6;

// What the desk reads of a value it reads too, though no command needs it.
#[allow(dead_code)]
enum Value {
    Null,
    Bool(bool),
    Whole(u64),
    Other,
    Text(String),
    List(Vec<Value>),
    Object(Members),
}

type Members = HashMap<String, Value>;

/// Reads JSON; nothing where a line is none.
struct Reader<'a> {
    bytes: &'a [u8],
    at: usize,
}

impl Reader<'_> {
    fn next(&mut self) -> Option<u8> {
        while matches!(self.bytes.get(self.at), Some(b' ' | b'\t' | b'\r' | b'\n')) {
            self.at += 1;
        }
        self.bytes.get(self.at).copied()
    }

    fn takes(&mut self, byte: u8) -> bool {
        let is_next = self.next() == Some(byte);
        self.at += is_next as usize;
        is_next
    }

    fn word(&mut self, word: &str, value: Value) -> Option<Value> {
        let is_there = self.bytes[self.at..].starts_with(word.as_bytes());
        self.at += word.len();
        is_there.then_some(value)
    }

    fn value(&mut self) -> Option<Value> {
        match self.next()? {
            b'{' => self.object().map(Value::Object),
            b'[' => self.list().map(Value::List),
            b'"' => self.text().map(Value::Text),
            b't' => self.word("true", Value::Bool(true)),
            b'f' => self.word("false", Value::Bool(false)),
            b'n' => self.word("null", Value::Null),
            _ => self.number(),
        }
    }

    fn object(&mut self) -> Option<Members> {
        let mut members = HashMap::new();
        self.at += 1;
        if self.takes(b'}') {
            return Some(members);
        }
        loop {
            self.next()?;
            let name = self.text()?;
            if !self.takes(b':') {
                return None;
            }
            members.insert(name, self.value()?);
            if self.takes(b'}') {
                return Some(members);
            }
            if !self.takes(b',') {
                return None;
            }
        }
    }

    fn list(&mut self) -> Option<Vec<Value>> {
        let mut values = Vec::new();
        self.at += 1;
        if self.takes(b']') {
            return Some(values);
        }
        loop {
            values.push(self.value()?);
            if self.takes(b']') {
                return Some(values);
            }
            if !self.takes(b',') {
                return None;
            }
        }
    }

    fn number(&mut self) -> Option<Value> {
        let start = self.at;
        while matches!(self.bytes.get(self.at), Some(b'0'..=b'9' | b'-' | b'+' | b'.' | b'e' | b'E')) {
            self.at += 1;
        }
        let digits = std::str::from_utf8(&self.bytes[start..self.at]).ok()?;
        match digits.parse() {
            Ok(number) => Some(Value::Whole(number)),
            Err(_) => digits.parse::<f64>().ok().map(|_| Value::Other),
        }
    }

    fn text(&mut self) -> Option<String> {
        if *self.bytes.get(self.at)? != b'"' {
            return None;
        }
        self.at += 1;
        let mut text = Vec::new();
        loop {
            let start = self.at;
            while !matches!(self.bytes.get(self.at)?, b'"' | b'\\' | 0..=31) {
                self.at += 1;
            }
            text.extend_from_slice(&self.bytes[start..self.at]);
            self.at += 1;
            match self.bytes[self.at - 1] {
                b'"' => return String::from_utf8(text).ok(),
                b'\\' => {
                    let letter = self.escaped()?;
                    text.extend_from_slice(letter.encode_utf8(&mut [0; 4]).as_bytes());
                }
                _ => return None,
            }
        }
    }

    fn escaped(&mut self) -> Option<char> {
        self.at += 1;
        Some(match *self.bytes.get(self.at - 1)? {
            byte @ (b'"' | b'\\' | b'/') => byte as char,
            b'n' => '\n',
            b't' => '\t',
            b'r' => '\r',
            b'b' => '\u{8}',
            b'f' => '\u{c}',
            b'u' => {
                let mut code = self.hexadecimal()?;
                if (0xd800..0xdc00).contains(&code) && self.bytes[self.at..].starts_with(b"\\u") {
                    self.at += 2;
                    code = 0x10000 + ((code - 0xd800) << 10) + self.hexadecimal()?.checked_sub(0xdc00)?;
                }
                char::from_u32(code)?
            }
            _ => return None,
        })
    }

    fn hexadecimal(&mut self) -> Option<u32> {
        let digits = std::str::from_utf8(self.bytes.get(self.at..self.at + 4)?).ok()?;
        self.at += 4;
        u32::from_str_radix(digits, 16).ok()
    }
}

/// The seconds since 1970 of an instant like 2026-03-01T12:00:00Z, or one with an offset.
fn seconds_of(instant: &str) -> Option<i64> {
    let bytes = instant.as_bytes();
    let marks = [(4, b'-'), (7, b'-'), (10, b'T'), (13, b':'), (16, b':')];
    if bytes.len() < 20 || marks.iter().any(|&(at, mark)| bytes[at] != mark) {
        return None;
    }
    let number = |from: usize, to: usize| instant.get(from..to)?.parse::<i64>().ok();
    let (year, month, day) = (number(0, 4)?, number(5, 7)?, number(8, 10)?);
    let mut zone = &instant[19..];
    if let Some(fraction) = zone.strip_prefix('.') {
        zone = fraction.trim_start_matches(|digit: char| digit.is_ascii_digit());
    }
    let offset = if zone == "Z" {
        0
    } else {
        let sign = match zone.as_bytes().first()? {
            b'+' => 1,
            b'-' => -1,
            _ => return None,
        };
        sign * (zone.get(1..3)?.parse::<i64>().ok()? * 3600 + zone.get(4..6)?.parse::<i64>().ok()? * 60)
    };
    let of_day = number(11, 13)? * 3600 + number(14, 16)? * 60 + number(17, 19)?;
    Some(days_of(year, month, day) * 86400 + of_day - offset)
}

/// The days since 1970 of a date. Years are counted from March on, so that a leap day is the last of its year.
fn days_of(year: i64, month: i64, day: i64) -> i64 {
    let (year, month) = if month <= 2 { (year - 1, month + 9) } else { (year, month - 3) };
    year * 365 + year.div_euclid(4) - year.div_euclid(100) + year.div_euclid(400) + (153 * month + 2) / 5 + day - 719469
}

/// An identifier in small letters where these count for nothing, and where its domain begins.
struct Identifier {
    text: String,
    domain_at: usize,
}

fn identifier_of(text: &str, kind: &str) -> Option<Identifier> {
    let parts: Vec<&str> = text.split(':').collect();
    let &[urn, authority, "uid", its_kind, drawn, domain] = &parts[..] else {
        return None;
    };
    let authority = authority.to_ascii_lowercase();
    if !urn.eq_ignore_ascii_case("urn") || its_kind != kind || authority != "emergency" && authority != "nena" {
        return None;
    }
    let has_only = |part: &str, more: &[u8]| part.bytes().all(|it| it.is_ascii_alphanumeric() || more.contains(&it));
    if !(1..=64).contains(&drawn.len()) || !has_only(drawn, b"-_.") {
        return None;
    }
    if domain.len() > 128 || !has_only(domain, b"-.") || domain.split('.').any(str::is_empty) {
        return None;
    }
    let mut text = format!("urn:{authority}:uid:{kind}:{drawn}:");
    let domain_at = text.len();
    text.push_str(&domain.to_ascii_lowercase());
    Some(Identifier { text, domain_at })
}

enum Command {
    Open { kind: String, site: String, incident: Option<Identifier>, call: Option<String> },
    Clear(String),
    Note(String, String),
    SignOn(String),
    Assign(String, String),
    Status(String, u8),
    Release(String),
}

struct Entry {
    session: u64,
    number: u64,
    at: i64,
    command: Command,
}

/// A text of at most so many bytes, or the number of the refusal.
fn text_of(members: &mut Members, name: &str, limit: usize) -> Result<String, u8> {
    match members.remove(name) {
        Some(Value::Text(text)) if (1..=limit).contains(&text.len()) => Ok(text),
        Some(Value::Text(_)) => Err(5),
        None | Some(Value::Null) => Err(3),
        _ => Err(4),
    }
}

fn number_of(members: &mut Members, name: &str) -> Result<u64, u8> {
    match members.remove(name) {
        Some(Value::Whole(number)) if (1..=9007199254740991).contains(&number) => Ok(number),
        Some(Value::Whole(_)) => Err(5),
        None | Some(Value::Null) => Err(3),
        _ => Err(4),
    }
}

fn incident_of(members: &mut Members) -> Result<Identifier, u8> {
    identifier_of(&text_of(members, "incident", 4096)?, "incidentid").ok_or(7)
}

fn call_of(members: &mut Members) -> Result<String, u8> {
    Ok(identifier_of(&text_of(members, "call", 4096)?, "callid").ok_or(7)?.text)
}

/// What a member that may be absent says.
fn if_there<T>(read: Result<T, u8>) -> Result<Option<T>, u8> {
    match read {
        Err(3) => Ok(None),
        read => read.map(Some),
    }
}

fn unit_of(members: &mut Members) -> Result<String, u8> {
    let name = text_of(members, "unit", 24)?;
    let is_name = name.bytes().all(|it| it.is_ascii_alphanumeric() || it == b'-' || it == b'_');
    if is_name {
        Ok(name)
    } else {
        Err(5)
    }
}

fn status_of(members: &mut Members) -> Result<u8, u8> {
    let word = text_of(members, "status", 4096)?;
    STATUSES.iter().position(|it| *it == word).map(|it| it as u8).ok_or(5)
}

fn command_of(verb: &str, members: &mut Members) -> Result<Command, u8> {
    Ok(match verb {
        "open" => Command::Open {
            kind: text_of(members, "kind", 32)?,
            site: text_of(members, "where", 128)?,
            incident: if_there(incident_of(members))?,
            call: if_there(call_of(members))?,
        },
        "clear" => Command::Clear(incident_of(members)?.text),
        "note" => Command::Note(incident_of(members)?.text, text_of(members, "text", 200)?),
        "sign_on" => Command::SignOn(unit_of(members)?),
        "assign" => Command::Assign(unit_of(members)?, incident_of(members)?.text),
        "status" => Command::Status(unit_of(members)?, status_of(members)?),
        "release" => Command::Release(unit_of(members)?),
        _ => return Err(6),
    })
}

fn entry_of(line: &[u8]) -> Result<Entry, u8> {
    let mut reader = Reader { bytes: line, at: 0 };
    let mut members = match reader.value() {
        Some(Value::Object(members)) if reader.next().is_none() => members,
        _ => return Err(1),
    };
    let verb = text_of(&mut members, "do", 4096)?;
    let (session, number) = (number_of(&mut members, "session")?, number_of(&mut members, "number")?);
    let at = seconds_of(&text_of(&mut members, "at", 4096)?).ok_or(8)?;
    Ok(Entry { session, number, at, command: command_of(&verb, &mut members)? })
}

// A board keeps what a show would tell, though nothing asks for it here.
#[allow(dead_code)]
struct Incident {
    identifier: String,
    kind: String,
    site: String,
    opened: i64,
    note: String,
    is_open: bool,
    calls: Vec<String>,
    units: usize,
}

struct Unit {
    status: u8,
    committed: Option<usize>,
}

struct Board {
    domain: String,
    log: Vec<Entry>,
    incidents: Vec<Incident>,
    by_identifier: HashMap<String, usize>,
    calls: HashMap<String, usize>,
    units: HashMap<String, Unit>,
    /// The last number of each client, and its reply line.
    clients: HashMap<u64, (u64, String)>,
}

/// What was done, or the number of the refusal, and the incident that the reply names.
type Reply = Result<(&'static str, Option<usize>), (u8, Option<usize>)>;

const UNKNOWN_INCIDENT: (u8, Option<usize>) = (10, None);
const UNKNOWN_UNIT: (u8, Option<usize>) = (20, None);

impl Board {
    fn open_incident(&self, identifier: &str) -> Result<usize, (u8, Option<usize>)> {
        let incident = *self.by_identifier.get(identifier).ok_or(UNKNOWN_INCIDENT)?;
        if self.incidents[incident].is_open {
            Ok(incident)
        } else {
            Err((11, None))
        }
    }

    fn open(&mut self, place: usize, entry: &Entry) -> Reply {
        let Command::Open { kind, site, incident, call } = &entry.command else { unreachable!() };
        let identifier = match incident {
            Some(it) if it.text[it.domain_at..] == self.domain => return Err((14, None)),
            Some(it) if self.by_identifier.contains_key(&it.text) => return Err((13, None)),
            Some(it) => it.text.clone(),
            None => format!("urn:emergency:uid:incidentid:{place:012}:{}", self.domain),
        };
        let opened = self.incidents.len();
        if let Some(call) = call {
            if self.calls.contains_key(call) {
                return Err((16, None));
            }
            self.calls.insert(call.clone(), opened);
        }
        self.by_identifier.insert(identifier.clone(), opened);
        self.incidents.push(Incident {
            identifier,
            kind: kind.clone(),
            site: site.clone(),
            opened: entry.at,
            note: String::new(),
            is_open: true,
            calls: call.iter().cloned().collect(),
            units: 0,
        });
        Ok(("opened", Some(opened)))
    }

    fn clear(&mut self, identifier: &str) -> Reply {
        let incident = self.open_incident(identifier)?;
        if self.incidents[incident].units > 0 {
            return Err((26, None));
        }
        self.incidents[incident].is_open = false;
        Ok(("cleared", None))
    }

    fn note(&mut self, identifier: &str, text: &str) -> Reply {
        let incident = *self.by_identifier.get(identifier).ok_or(UNKNOWN_INCIDENT)?;
        self.incidents[incident].note = text.to_string();
        Ok(("noted", None))
    }

    fn sign_on(&mut self, name: &str) -> Reply {
        if self.units.contains_key(name) {
            return Err((21, None));
        }
        self.units.insert(name.to_string(), Unit { status: AVAILABLE, committed: None });
        Ok(("signed_on", None))
    }

    fn assign(&mut self, name: &str, identifier: &str) -> Reply {
        if !self.units.contains_key(name) {
            return Err(UNKNOWN_UNIT);
        }
        let incident = self.open_incident(identifier)?;
        let unit = self.units.get_mut(name).ok_or(UNKNOWN_UNIT)?;
        if unit.committed.is_some() {
            return Err((23, unit.committed));
        }
        if unit.status == OUT_OF_SERVICE {
            return Err((22, None));
        }
        *unit = Unit { status: DISPATCHED, committed: Some(incident) };
        self.incidents[incident].units += 1;
        Ok(("assigned", None))
    }

    fn set_status(&mut self, name: &str, status: u8) -> Reply {
        let unit = self.units.get_mut(name).ok_or(UNKNOWN_UNIT)?;
        if unit.committed.is_none() && (DISPATCHED..=AT_FACILITY).contains(&status) {
            return Err((24, None));
        }
        let goes_there = if unit.committed.is_some() {
            status > unit.status && status <= AT_FACILITY
        } else {
            status != unit.status
        };
        if !goes_there {
            return Err((25, None));
        }
        unit.status = status;
        Ok(("status_set", None))
    }

    fn release(&mut self, name: &str) -> Reply {
        let unit = self.units.get_mut(name).ok_or(UNKNOWN_UNIT)?;
        let incident = unit.committed.take().ok_or((24, None))?;
        unit.status = AVAILABLE;
        self.incidents[incident].units -= 1;
        Ok(("released", None))
    }

    fn execute(&mut self, place: usize, entry: &Entry) -> Reply {
        match &entry.command {
            Command::Open { .. } => self.open(place, entry),
            Command::Clear(incident) => self.clear(incident),
            Command::Note(incident, text) => self.note(incident, text),
            Command::SignOn(unit) => self.sign_on(unit),
            Command::Assign(unit, incident) => self.assign(unit, incident),
            Command::Status(unit, status) => self.set_status(unit, *status),
            Command::Release(unit) => self.release(unit),
        }
    }

    /// The reply line of a request.
    fn take(&mut self, entry: Entry) -> String {
        let (session, number) = (entry.session, entry.number);
        match self.clients.get(&session) {
            Some((latest, reply)) if number == *latest => return reply.clone(),
            Some((latest, _)) if number < *latest => {
                return format!("{{\"latest\":{latest},\"number\":{number},\"refusal\":31,\"session\":{session}}}");
            }
            _ => {}
        }
        if self.log.len() == PLACES {
            return format!("{{\"number\":{number},\"refusal\":33,\"session\":{session}}}");
        }
        let place = self.log.len() + 1;
        let reply = self.execute(place, &entry);
        let (Ok((_, incident)) | Err((_, incident))) = reply;
        let named = match incident {
            Some(it) => format!("\"incident\":\"{}\",", self.incidents[it].identifier),
            None => String::new(),
        };
        let line = match reply {
            Ok((word, _)) => {
                format!("{{{named}\"number\":{number},\"ok\":\"{word}\",\"place\":{place},\"session\":{session}}}")
            }
            Err((refusal, _)) => {
                format!("{{{named}\"number\":{number},\"place\":{place},\"refusal\":{refusal},\"session\":{session}}}")
            }
        };
        self.log.push(entry);
        self.clients.insert(session, (number, line.clone()));
        line
    }
}

fn main() -> std::io::Result<()> {
    let mut board = Board {
        domain: std::env::args().nth(1).expect("usage: replay_base DOMAIN"),
        log: Vec::new(),
        incidents: Vec::new(),
        by_identifier: HashMap::new(),
        calls: HashMap::new(),
        units: HashMap::new(),
        clients: HashMap::new(),
    };
    let mut input = std::io::stdin().lock();
    let mut output = std::io::BufWriter::with_capacity(1 << 16, std::io::stdout().lock());
    let mut line = Vec::new();
    while input.read_until(b'\n', &mut line)? > 0 {
        let reply = match entry_of(&line) {
            Ok(entry) => board.take(entry),
            Err(refusal) => format!("{{\"refusal\":{refusal}}}"),
        };
        output.write_all(reply.as_bytes())?;
        output.write_all(b"\n")?;
        line.clear();
    }
    output.flush()
}
