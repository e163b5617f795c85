//! A live meter of the demo configuration in plain Rust, without any proof: what `cosem-flow serve` is counted beside.
//!
//!     plain_meter --port N --sessions N
//!
//! It answers what one client after another asks of it over TCP (IEC 62056-4-7): associations by passwords, GETs, also of values that go in
//! blocks, and SETs, each by the bytes that `serve` answers. It ends once so many connections have ended. There are no ACTIONs, no own
//! steps of the meter and no files: so nothing is ever captured, and the profile stays empty.
use std::collections::BTreeMap;
use std::env;
use std::io::{self, ErrorKind, Read, Write};
use std::net::{TcpListener, TcpStream};
use std::sync::RwLock;
use std::sync::atomic::{AtomicUsize, Ordering};
use std::thread;
use std::time::{Duration, Instant};

const SEATS: usize = 64;
const IDLE: Duration = Duration::from_secs(180);
const PENALTY: Duration = Duration::from_millis(500);
const PIECE: usize = 65_536;
const HEADER: usize = 8;
const SERVER: u16 = 1;
const MAX_APDU: usize = 1024;

type Name = [u8; 6];
const ASSOCIATION: Name = [0, 0, 40, 0, 0, 255];

#[derive(Clone, Debug, PartialEq)]
enum Data {
    Null,
    Array(Vec<Data>),
    Structure(Vec<Data>),
    Boolean(bool),
    DoubleLong(i32),
    DoubleLongUnsigned(u32),
    OctetString(Vec<u8>),
    VisibleString(Vec<u8>),
    Integer(i8),
    Long(i16),
    Unsigned(u8),
    LongUnsigned(u16),
    Long64(i64),
    Long64Unsigned(u64),
    Enumerated(u8),
}

/// Takes so many bytes from the front.
fn take<const N: usize>(bytes: &mut &[u8]) -> Option<[u8; N]> {
    let (front, rest) = bytes.split_first_chunk::<N>()?;
    *bytes = rest;
    Some(*front)
}

fn take_length(bytes: &mut &[u8]) -> Option<usize> {
    match take::<1>(bytes)?[0] {
        short @ 0..=127 => Some(usize::from(short)),
        0x81 => take(bytes).map(|[low]| usize::from(low)),
        0x82 => take(bytes).map(|two| usize::from(u16::from_be_bytes(two))),
        0x83 => take(bytes).map(|[a, b, c]| u32::from_be_bytes([0, a, b, c]) as usize),
        0x84 => take(bytes).map(|four| u32::from_be_bytes(four) as usize),
        _ => None,
    }
}

fn take_string(bytes: &mut &[u8]) -> Option<Vec<u8>> {
    let length = take_length(bytes)?;
    let (text, rest) = bytes.split_at_checked(length)?;
    *bytes = rest;
    Some(text.to_vec())
}

fn put_length(length: usize, out: &mut Vec<u8>) {
    match length {
        0..=127 => out.push(length as u8),
        128..=255 => out.extend([0x81, length as u8]),
        256..=0xFFFF => {
            out.push(0x82);
            out.extend((length as u16).to_be_bytes());
        }
        _ => {
            out.push(0x84);
            out.extend((length as u32).to_be_bytes());
        }
    }
}

impl Data {
    fn tag(&self) -> u8 {
        match self {
            Data::Null => 0,
            Data::Array(_) => 1,
            Data::Structure(_) => 2,
            Data::Boolean(_) => 3,
            Data::DoubleLong(_) => 5,
            Data::DoubleLongUnsigned(_) => 6,
            Data::OctetString(_) => 9,
            Data::VisibleString(_) => 10,
            Data::Integer(_) => 15,
            Data::Long(_) => 16,
            Data::Unsigned(_) => 17,
            Data::LongUnsigned(_) => 18,
            Data::Long64(_) => 20,
            Data::Long64Unsigned(_) => 21,
            Data::Enumerated(_) => 22,
        }
    }

    /// Reads a value (IEC 62056-5-3, A-XDR) that is nested at most so deep.
    fn take(bytes: &mut &[u8], depth: u8) -> Option<Data> {
        Some(match take::<1>(bytes)?[0] {
            0 => Data::Null,
            1 => Data::Array(Data::take_parts(bytes, depth)?),
            2 => Data::Structure(Data::take_parts(bytes, depth)?),
            3 => Data::Boolean(take::<1>(bytes)?[0] != 0),
            5 => Data::DoubleLong(i32::from_be_bytes(take(bytes)?)),
            6 => Data::DoubleLongUnsigned(u32::from_be_bytes(take(bytes)?)),
            9 => Data::OctetString(take_string(bytes)?),
            10 => Data::VisibleString(take_string(bytes)?),
            15 => Data::Integer(i8::from_be_bytes(take(bytes)?)),
            16 => Data::Long(i16::from_be_bytes(take(bytes)?)),
            17 => Data::Unsigned(u8::from_be_bytes(take(bytes)?)),
            18 => Data::LongUnsigned(u16::from_be_bytes(take(bytes)?)),
            20 => Data::Long64(i64::from_be_bytes(take(bytes)?)),
            21 => Data::Long64Unsigned(u64::from_be_bytes(take(bytes)?)),
            22 => Data::Enumerated(u8::from_be_bytes(take(bytes)?)),
            _ => return None,
        })
    }

    fn take_parts(bytes: &mut &[u8], depth: u8) -> Option<Vec<Data>> {
        let depth = depth.checked_sub(1)?;
        (0..take_length(bytes)?).map(|_| Data::take(bytes, depth)).collect()
    }

    /// The value that the bytes are to their end.
    fn read(mut bytes: &[u8]) -> Option<Data> {
        Data::take(&mut bytes, 16).filter(|_| bytes.is_empty())
    }

    fn write(&self, out: &mut Vec<u8>) {
        out.push(self.tag());
        match self {
            Data::Null => {}
            Data::Array(parts) | Data::Structure(parts) => {
                put_length(parts.len(), out);
                parts.iter().for_each(|part| part.write(out));
            }
            Data::Boolean(is) => out.push(u8::from(*is)),
            Data::DoubleLong(number) => out.extend(number.to_be_bytes()),
            Data::DoubleLongUnsigned(number) => out.extend(number.to_be_bytes()),
            Data::OctetString(text) | Data::VisibleString(text) => {
                put_length(text.len(), out);
                out.extend_from_slice(text);
            }
            Data::Integer(number) => out.extend(number.to_be_bytes()),
            Data::Long(number) => out.extend(number.to_be_bytes()),
            Data::Unsigned(number) | Data::Enumerated(number) => out.push(*number),
            Data::LongUnsigned(number) => out.extend(number.to_be_bytes()),
            Data::Long64(number) => out.extend(number.to_be_bytes()),
            Data::Long64Unsigned(number) => out.extend(number.to_be_bytes()),
        }
    }

    fn parts(&self) -> &[Data] {
        match self {
            Data::Array(parts) | Data::Structure(parts) => parts,
            _ => &[],
        }
    }

    fn depth(&self) -> usize {
        match self {
            Data::Array(parts) | Data::Structure(parts) => 1 + parts.iter().map(Data::depth).max().unwrap_or(0),
            _ => 0,
        }
    }
}

/// Data-Access-Result of IEC 62056-5-3.
#[derive(Clone, Copy, PartialEq)]
enum Code {
    Success = 0,
    ReadWriteDenied = 3,
    ObjectUndefined = 4,
    ObjectClassInconsistent = 9,
    TypeUnmatched = 12,
    ScopeOfAccessViolated = 13,
    OtherReason = 250,
}

/// What may be put into an attribute.
enum Rule {
    /// A value of the kind that stands there.
    SameKind,
    /// So many values of a kind.
    Thresholds(usize, u8),
    /// One time and date of a schedule that runs once.
    ExecutionTime,
}

struct Attribute {
    value: Data,
    rule: Rule,
}

/// What a client may read, write and call of an object.
#[derive(Clone, Copy)]
struct Rights {
    get: &'static [u8],
    set: &'static [u8],
    act: &'static [u8],
}

struct Object {
    class: u16,
    attributes: Vec<Attribute>,
    methods: u8,
    /// By the places of the clients. Who has none doesn't see the object.
    rights: [Option<Rights>; 4],
}

struct Client {
    sap: u16,
    password: Option<&'static [u8]>,
}

const CLIENTS: [Client; 4] = [
    Client { sap: 16, password: None },
    Client { sap: 32, password: Some(b"12345678") },
    Client { sap: 48, password: Some(b"87654321") },
    Client { sap: 1, password: Some(b"00000000") },
];

struct Descriptor {
    class: u16,
    name: Name,
    index: u8,
}

struct Meter {
    objects: BTreeMap<Name, Object>,
    /// The current association as each client sees it.
    associations: Vec<Object>,
}

impl Rule {
    fn judge(&self, held: &Data, value: &Data) -> Result<(), Code> {
        if value.tag() != held.tag() {
            return Err(Code::TypeUnmatched);
        }
        let parts = value.parts();
        let fits = value.depth() <= 14
            && match self {
                Rule::SameKind => true,
                Rule::Thresholds(number, kind) => parts.len() == *number && parts.iter().all(|part| part.tag() == *kind),
                Rule::ExecutionTime => parts.len() == 1 && is_execution_time(&parts[0]),
            };
        if fits { Ok(()) } else { Err(Code::OtherReason) }
    }
}

fn is_execution_time(value: &Data) -> bool {
    let any_or = |most: u8, byte: u8| byte <= most || byte == 255;
    let Data::Structure(parts) = value else {
        return false;
    };
    let [Data::OctetString(time), Data::OctetString(date)] = parts.as_slice() else {
        return false;
    };
    let is_time = matches!(time.as_slice(), [hour, minute, second, 0 | 255] if any_or(23, *hour) && any_or(59, *minute) && any_or(59, *second));
    let is_date = matches!(date.as_slice(), [_, _, 1..=12 | 255, 1..=31 | 253..=255, 1..=7 | 255]);
    is_time && is_date
}

impl Object {
    /// The rights of a client on what it asks for, if it sees the object, by this class and with such an attribute.
    fn rights_of(&self, client: usize, asked: &Descriptor) -> Result<Rights, Code> {
        let rights = self.rights[client].ok_or(Code::ObjectUndefined)?;
        if self.class != asked.class {
            return Err(Code::ObjectClassInconsistent);
        }
        if !(1..=self.attributes.len()).contains(&usize::from(asked.index)) {
            return Err(Code::ObjectUndefined);
        }
        Ok(rights)
    }
}

impl Meter {
    fn get(&self, client: usize, asked: &Descriptor, selection: &Option<(u8, Option<Data>)>) -> Result<&Data, Code> {
        let found = if asked.name == ASSOCIATION { self.associations.get(client) } else { self.objects.get(&asked.name) };
        let object = found.ok_or(Code::ObjectUndefined)?;
        let rights = object.rights_of(client, asked)?;
        if asked.index != 1 && !rights.get.contains(&asked.index) {
            return Err(Code::ReadWriteDenied);
        }
        // (each selection of entries is all of a profile that stays empty)
        match selection {
            Some((selector, _)) if (object.class, asked.index, *selector) != (7, 2, 2) => return Err(Code::ScopeOfAccessViolated),
            Some((_, parameter)) if !parameter.as_ref().is_some_and(is_entry_descriptor) => return Err(Code::TypeUnmatched),
            _ => {}
        }
        Ok(&object.attributes[usize::from(asked.index) - 1].value)
    }

    fn set(&mut self, client: usize, asked: &Descriptor, is_selected: bool, value: Option<Data>) -> Result<(), Code> {
        let found = if asked.name == ASSOCIATION { self.associations.get_mut(client) } else { self.objects.get_mut(&asked.name) };
        let object = found.ok_or(Code::ObjectUndefined)?;
        let rights = object.rights_of(client, asked)?;
        if !rights.set.contains(&asked.index) {
            return Err(Code::ReadWriteDenied);
        }
        if is_selected {
            return Err(Code::ScopeOfAccessViolated);
        }
        let value = value.ok_or(Code::TypeUnmatched)?;
        let attribute = &mut object.attributes[usize::from(asked.index) - 1];
        attribute.rule.judge(&attribute.value, &value)?;
        attribute.value = value;
        Ok(())
    }
}

fn is_entry_descriptor(value: &Data) -> bool {
    use Data::{DoubleLongUnsigned as Entry, LongUnsigned as Column};
    matches!(value, Data::Structure(parts) if matches!(parts.as_slice(), [Entry(_), Entry(_), Column(_), Column(_)]))
}

/// The demo: its objects at the start, and what each client may do with them.
mod demo {
    use super::{ASSOCIATION, Attribute, CLIENTS, Data, Meter, Name, Object, Rights, Rule};

    const ENERGY: Name = [1, 0, 1, 8, 0, 255];
    const ALARM: Name = [0, 0, 96, 11, 0, 255];
    const SCRIPTS: Name = [0, 0, 10, 0, 100, 255];
    const MONITOR: Name = [0, 0, 16, 1, 0, 255];
    const PROFILE: Name = [1, 0, 99, 1, 0, 255];
    const SCHEDULE: Name = [0, 0, 15, 0, 0, 255];

    const fn rights(get: &'static [u8], set: &'static [u8], act: &'static [u8]) -> Option<Rights> {
        Some(Rights { get, set, act })
    }

    fn name(name: Name) -> Data {
        Data::OctetString(name.to_vec())
    }

    fn cell(class: u16, of: Name, index: i8) -> [Data; 3] {
        [Data::LongUnsigned(class), name(of), Data::Integer(index)]
    }

    fn script(number: u16) -> Data {
        Data::Structure(vec![name(SCRIPTS), Data::LongUnsigned(number)])
    }

    /// A script of one action.
    fn action(id: u16, service: u8, on: [Data; 3], value: Data) -> Data {
        let parts = [Data::Enumerated(service)].into_iter().chain(on).chain([value]).collect();
        Data::Structure(vec![Data::LongUnsigned(id), Data::Array(vec![Data::Structure(parts)])])
    }

    fn captured(of: [Data; 3]) -> Data {
        Data::Structure(of.into_iter().chain([Data::LongUnsigned(0)]).collect())
    }

    fn object(class: u16, of: Name, methods: u8, rights: [Option<Rights>; 4], values: Vec<(Data, Rule)>) -> (Name, Object) {
        let all = [(name(of), Rule::SameKind)].into_iter().chain(values);
        let attributes = all.map(|(value, rule)| Attribute { value, rule }).collect();
        (of, Object { class, attributes, methods, rights })
    }

    fn objects() -> Vec<(Name, Object)> {
        let fixed = |value| (value, Rule::SameKind);
        let number = Data::DoubleLongUnsigned;
        let alarm = |value| (Data::Unsigned(value), cell(1, ALARM, 2));
        let ((on, target), (off, same_target)) = (alarm(1), alarm(0));
        let scripts = vec![action(1, 1, target, on), action(2, 1, same_target, off), action(3, 2, cell(7, PROFILE, 2), Data::Null)];
        let captures = Data::Array(vec![captured(cell(3, ENERGY, 2)), captured(cell(1, ALARM, 2))]);
        let time = vec![Data::OctetString(vec![0, 0, 0, 255]), Data::OctetString(vec![255, 255, 255, 254, 255])];
        vec![
            object(
                3,
                ENERGY,
                1,
                [rights(&[], &[], &[]), rights(&[2, 3], &[], &[]), None, rights(&[2, 3], &[], &[1])],
                vec![fixed(number(123_456)), fixed(Data::Structure(vec![Data::Integer(0), Data::Enumerated(30)]))],
            ),
            object(1, ALARM, 0, [None, rights(&[2], &[], &[]), None, rights(&[2], &[2], &[])], vec![fixed(Data::Unsigned(0))]),
            object(9, SCRIPTS, 1, [None, None, None, rights(&[2], &[], &[1])], vec![fixed(Data::Array(scripts))]),
            object(
                21,
                MONITOR,
                0,
                [None, None, None, rights(&[2, 3, 4], &[2], &[])],
                vec![
                    (Data::Array(vec![number(100)]), Rule::Thresholds(1, number(0).tag())),
                    fixed(Data::Structure(cell(3, ENERGY, 2).to_vec())),
                    fixed(Data::Array(vec![Data::Structure(vec![script(1), script(2)])])),
                ],
            ),
            object(
                7,
                PROFILE,
                2,
                [None, rights(&[2, 3, 4, 7, 8], &[], &[]), rights(&[4], &[4], &[]), rights(&[2, 3, 4, 7, 8], &[], &[1, 2])],
                vec![
                    fixed(Data::Array(Vec::new())),
                    fixed(captures),
                    fixed(number(900)),
                    fixed(Data::Enumerated(1)),
                    fixed(Data::Null),
                    fixed(number(0)),
                    fixed(number(2)),
                ],
            ),
            object(
                22,
                SCHEDULE,
                0,
                [None, None, rights(&[2, 3, 4], &[4], &[]), rights(&[2, 3, 4], &[], &[])],
                vec![fixed(script(3)), fixed(Data::Enumerated(1)), (Data::Array(vec![Data::Structure(time)]), Rule::ExecutionTime)],
            ),
        ]
    }

    /// What a client sees of an object in the object_list of its association.
    fn listed(of: Name, object: &Object, client: usize) -> Option<Data> {
        let rights = object.rights[client]?;
        let attributes = (1..=object.attributes.len() as u8).map(|index| {
            let reads = index == 1 || rights.get.contains(&index);
            let selectors = if (object.class, index, reads) == (7, 2, true) { Data::Array(vec![Data::Integer(2)]) } else { Data::Null };
            let mode = u8::from(reads) + 2 * u8::from(rights.set.contains(&index));
            Data::Structure(vec![Data::Integer(index as i8), Data::Enumerated(mode), selectors])
        });
        let methods = (1..=object.methods).map(|index| Data::Structure(vec![Data::Integer(index as i8), Data::Boolean(rights.act.contains(&index))]));
        let access = Data::Structure(vec![Data::Array(attributes.collect()), Data::Array(methods.collect())]);
        let version = u8::from(object.class == 7);
        Some(Data::Structure(vec![Data::LongUnsigned(object.class), Data::Unsigned(version), name(of), access]))
    }

    /// The current association of the client at this place.
    fn association(objects: &[(Name, Object)], client: usize) -> Object {
        let octets = |bytes: [u8; 7]| Data::OctetString(bytes.to_vec());
        let level = u8::from(CLIENTS[client].password.is_some());
        let partners = Data::Structure(vec![Data::Integer(CLIENTS[client].sap as i8), Data::LongUnsigned(super::SERVER)]);
        let context = octets([96, 133, 116, 5, 8, 1, 1]);
        let mechanism = octets([96, 133, 116, 5, 8, 2, level]);
        let values = [Data::Array(Vec::new()), partners, context, Data::Null, mechanism, Data::Null, Data::Enumerated(2)];
        let values = values.map(|value| (value, Rule::SameKind)).into();
        let (of, mut object) = object(15, ASSOCIATION, 4, [rights(&[2, 3, 4, 6, 8], &[], &[]); 4], values);
        let others = objects.iter().filter_map(|(of, it)| listed(*of, it, client));
        object.attributes[1].value = Data::Array(listed(of, &object, client).into_iter().chain(others).collect());
        object
    }

    pub fn meter() -> Meter {
        let objects = objects();
        let associations = (0..CLIENTS.len()).map(|client| association(&objects, client)).collect();
        Meter { objects: objects.into_iter().collect(), associations }
    }
}

struct Association {
    source: u16,
    client: usize,
    limit: usize,
    takes_blocks: bool,
}

/// What is left of a value that goes in blocks.
struct Transfer {
    encoding: Vec<u8>,
    sent: usize,
    number: u32,
}

/// One connection's dialogue.
struct Session<'m> {
    meter: &'m RwLock<Meter>,
    association: Option<Association>,
    transfer: Option<Transfer>,
    refusals: u32,
}

/// A field of an AARQ, by its tag, and its content.
fn take_field<'a>(bytes: &mut &'a [u8]) -> Option<(u8, &'a [u8])> {
    let [tag] = take(bytes)?;
    let length = take_length(bytes)?;
    let (content, rest) = bytes.split_at_checked(length)?;
    *bytes = rest;
    Some((tag, content))
}

fn only_field(tag: u8, mut bytes: &[u8]) -> Option<&[u8]> {
    take_field(&mut bytes).filter(|(found, _)| *found == tag && bytes.is_empty()).map(|(_, content)| content)
}

/// Whether a password is the right one, in a time that doesn't tell where it isn't.
fn is_password(given: &[u8], password: &[u8]) -> bool {
    given.len() == password.len() && given.iter().zip(password).fold(0, |all, (x, y)| all | (x ^ y)) == 0
}

/// The conformance and the most bytes of an APDU that an InitiateRequest proposes.
fn initiate_of(bytes: &[u8]) -> Option<(u32, usize)> {
    fn behind_optional(bytes: &[u8]) -> Option<&[u8]> {
        match bytes {
            [0, rest @ ..] | [1, _, rest @ ..] => Some(rest),
            _ => None,
        }
    }
    let version = behind_optional(behind_optional(bytes.strip_prefix(&[1, 0])?)?)?;
    match version.strip_prefix(&[0x06, 0x5F, 0x1F, 0x04, 0x00])? {
        &[a, b, c, high, low] => match u16::from_be_bytes([high, low]) {
            1..=15 => None,
            most => Some((u32::from_be_bytes([0, a, b, c]), usize::from(most))),
        },
        _ => None,
    }
}

const SERVICES: u32 = 0x00_101D;
const BLOCKS: u32 = 0x00_1000;

/// Judges an AARQ (IEC 62056-5-3): the association and what was agreed, or the diagnostic.
fn associate(source: u16, apdu: &[u8]) -> Result<(Association, u32), u8> {
    let mut fields = only_field(0x60, apdu).ok_or(1)?;
    let (mut context, mut mechanism, mut authentication, mut information) = (None, None, None, None);
    while !fields.is_empty() {
        let (tag, content) = take_field(&mut fields).ok_or(1)?;
        let field = match tag {
            0xA1 => &mut context,
            0x8B => &mut mechanism,
            0xAC => &mut authentication,
            0xBE => &mut information,
            _ => continue,
        };
        field.get_or_insert(content);
    }
    if context != Some(&[0x06, 0x07, 0x60, 0x85, 0x74, 0x05, 0x08, 0x01, 0x01]) {
        return Err(2);
    }
    let client = CLIENTS.iter().position(|it| it.sap == source).ok_or(1)?;
    let level = match mechanism {
        None | Some([0x60, 0x85, 0x74, 0x05, 0x08, 0x02, 0]) => 0,
        Some([0x60, 0x85, 0x74, 0x05, 0x08, 0x02, 1]) => 1,
        _ => return Err(11),
    };
    if let Some(password) = CLIENTS[client].password {
        if level == 0 {
            return Err(14);
        }
        let given = authentication.and_then(|it| only_field(0x80, it)).ok_or(13)?;
        if !is_password(given, password) {
            return Err(13);
        }
    }
    let (conformance, most) = information.and_then(|it| only_field(4, it)).and_then(initiate_of).ok_or(1)?;
    let agreed = conformance & SERVICES;
    let limit = if most == 0 { MAX_APDU } else { most.min(MAX_APDU) };
    Ok((Association { source, client, limit, takes_blocks: agreed & BLOCKS != 0 }, agreed))
}

/// A request of an associated client.
enum Request {
    Get(Descriptor, Option<(u8, Option<Data>)>),
    Next(u32),
    Set(Descriptor, bool, Option<Data>),
}

impl Request {
    /// The request that an APDU is, and its invoke byte. A value that can't be read in it is none.
    fn read(apdu: &[u8]) -> Option<(u8, Request)> {
        if let &[0xC0, 2, invoke, a, b, c, d] = apdu {
            return Some((invoke, Request::Next(u32::from_be_bytes([a, b, c, d]))));
        }
        let &[service, 1, invoke, high, low, a, b, c, d, e, f, index, flag, ref rest @ ..] = apdu else {
            return None;
        };
        let asked = Descriptor { class: u16::from_be_bytes([high, low]), name: [a, b, c, d, e, f], index };
        let request = match (service, flag, rest) {
            (0xC0, 0, []) => Request::Get(asked, None),
            (0xC0, 1, [selector, parameter @ ..]) => Request::Get(asked, Some((*selector, Data::read(parameter)))),
            (0xC1, 0, value) => Request::Set(asked, false, Data::read(value)),
            (0xC1, 1, _) => Request::Set(asked, true, None),
            _ => return None,
        };
        Some((invoke, request))
    }
}

impl Session<'_> {
    /// Puts the answer to an APDU behind what is there, and says how long it is to wait.
    fn answer(&mut self, source: u16, apdu: &[u8], out: &mut Vec<u8>) -> Duration {
        let is_aarq = apdu.first() == Some(&0x60);
        match &self.association {
            _ if is_aarq => return self.open(source, apdu, out),
            Some(association) if association.source == source => {}
            _ => {
                out.extend([0xD8, 1, 1]);
                return Duration::ZERO;
            }
        }
        if apdu.first() == Some(&0x62) {
            (self.association, self.transfer) = (None, None);
            out.extend([0x63, 0x03, 0x80, 0x01, 0x00]);
        } else if let Some((invoke, request)) = Request::read(apdu) {
            self.reply(invoke, request, out);
        } else {
            self.transfer = None;
            out.extend([0xD8, 2, 2]);
        }
        Duration::ZERO
    }

    fn open(&mut self, source: u16, apdu: &[u8], out: &mut Vec<u8>) -> Duration {
        const CONTEXT: [u8; 11] = [0xA1, 0x09, 0x06, 0x07, 0x60, 0x85, 0x74, 0x05, 0x08, 0x01, 0x01];
        (self.association, self.transfer) = (None, None);
        match associate(source, apdu) {
            Ok((association, agreed)) => {
                self.association = Some(association);
                let [_, a, b, c] = agreed.to_be_bytes();
                out.extend([0x61, 0x29]);
                out.extend(CONTEXT);
                out.extend([0xA2, 0x03, 0x02, 0x01, 0, 0xA3, 0x05, 0xA1, 0x03, 0x02, 0x01, 0]);
                out.extend([0xBE, 0x10, 0x04, 0x0E, 0x08, 0x00, 0x06, 0x5F, 0x1F, 0x04, 0x00, a, b, c, 0x04, 0x00, 0x00, 0x07]);
                Duration::ZERO
            }
            Err(diagnostic) => {
                out.extend([0x61, 0x17]);
                out.extend(CONTEXT);
                out.extend([0xA2, 0x03, 0x02, 0x01, 1, 0xA3, 0x05, 0xA1, 0x03, 0x02, 0x01, diagnostic]);
                self.refusals += 1;
                PENALTY * (1 << (self.refusals - 1).min(4))
            }
        }
    }

    fn reply(&mut self, invoke: u8, request: Request, out: &mut Vec<u8>) {
        let transfer = self.transfer.take();
        let Some(Association { client, limit, takes_blocks, .. }) = self.association else {
            return;
        };
        match request {
            Request::Get(asked, selection) => {
                let begun = out.len();
                out.extend([0xC4, 1, invoke, 0]);
                let meter = self.meter.read().expect("nobody panics with the meter");
                let code = match meter.get(client, &asked, &selection) {
                    Ok(value) => {
                        value.write(out);
                        Code::Success
                    }
                    Err(code) => code,
                };
                drop(meter);
                if code == Code::Success && out.len() - begun <= limit {
                    return;
                }
                let encoding = out.split_off(begun + 4);
                out.truncate(begun);
                match code {
                    Code::Success if takes_blocks => self.send_block(Transfer { encoding, sent: 0, number: 0 }, limit, invoke, out),
                    Code::Success => out.extend([0xC4, 1, invoke, 1, Code::OtherReason as u8]),
                    code => out.extend([0xC4, 1, invoke, 1, code as u8]),
                }
            }
            Request::Next(block) => match transfer {
                Some(transfer) if transfer.number == block => self.send_block(transfer, limit, invoke, out),
                other => {
                    out.extend([0xC4, 2, invoke, 1]);
                    out.extend(block.to_be_bytes());
                    out.extend([1, if other.is_some() { 19 } else { 16 }]);
                }
            },
            Request::Set(asked, is_selected, value) => {
                let mut meter = self.meter.write().expect("nobody panics with the meter");
                let code = meter.set(client, &asked, is_selected, value).err().unwrap_or(Code::Success);
                out.extend([0xC5, 1, invoke, code as u8]);
            }
        }
    }

    fn send_block(&mut self, mut transfer: Transfer, limit: usize, invoke: u8, out: &mut Vec<u8>) {
        let room = limit - 9;
        let most = room - if room <= 128 { 1 } else { 2 + usize::from(room > 257) };
        let left = &transfer.encoding[transfer.sent..];
        let raw = &left[..most.min(left.len())];
        transfer.number += 1;
        out.extend([0xC4, 2, invoke, u8::from(raw.len() == left.len())]);
        out.extend(transfer.number.to_be_bytes());
        out.push(0);
        put_length(raw.len(), out);
        out.extend_from_slice(raw);
        transfer.sent += raw.len();
        self.transfer = Some(transfer).filter(|it| it.sent < it.encoding.len());
    }
}

struct Frame<'a> {
    source: u16,
    apdu: &'a [u8],
}

/// The frame in front of the bytes and what stands behind it, or nothing where it isn't whole yet.
fn split_frame(bytes: &[u8]) -> io::Result<Option<(Frame<'_>, &[u8])>> {
    let Some((&[v, w, s, t, d, e, l, m], rest)) = bytes.split_first_chunk::<HEADER>() else {
        return Ok(None);
    };
    let length = usize::from(u16::from_be_bytes([l, m]));
    if [v, w] != [0, 1] || u16::from_be_bytes([d, e]) != SERVER || length > MAX_APDU {
        return Err(ErrorKind::InvalidData.into());
    }
    let source = u16::from_be_bytes([s, t]);
    Ok(rest.split_at_checked(length).map(|(apdu, behind)| (Frame { source, apdu }, behind)))
}

/// Answers a connection frame by frame, until it ends or was idle for too long.
fn converse(mut stream: &TcpStream, meter: &RwLock<Meter>) -> io::Result<()> {
    stream.set_nodelay(true)?;
    let mut session = Session { meter, association: None, transfer: None, refusals: 0 };
    let mut buffer = vec![0; PIECE + HEADER + MAX_APDU];
    let mut answer = Vec::new();
    let (mut have, mut since) = (0, Instant::now());
    loop {
        // (a part of a frame doesn't make it last)
        let left = IDLE.checked_sub(since.elapsed()).filter(|it| !it.is_zero());
        stream.set_read_timeout(Some(left.ok_or(ErrorKind::TimedOut)?))?;
        let count = stream.read(&mut buffer[have..have + PIECE])?;
        if count == 0 {
            return Ok(());
        }
        have += count;
        let mut rest = &buffer[..have];
        while let Some((frame, behind)) = split_frame(rest)? {
            answer.clear();
            answer.extend([0, 1, 0, SERVER as u8]);
            answer.extend(frame.source.to_be_bytes());
            answer.extend([0, 0]);
            let wait = session.answer(frame.source, frame.apdu, &mut answer);
            let length = (answer.len() - HEADER) as u16;
            answer[6..HEADER].copy_from_slice(&length.to_be_bytes());
            if !wait.is_zero() {
                thread::sleep(wait);
            }
            stream.write_all(&answer)?;
            since = Instant::now();
            rest = behind;
        }
        let left = rest.len();
        buffer.copy_within(have - left..have, 0);
        have = left;
    }
}

/// The number that stands behind a word of the command line.
fn number_behind(word: &str) -> Option<u16> {
    env::args().skip_while(|it| it != word).nth(1)?.parse().ok()
}

fn main() -> io::Result<()> {
    let (Some(port), Some(sessions)) = (number_behind("--port"), number_behind("--sessions")) else {
        return Err(io::Error::new(ErrorKind::InvalidInput, "--port N --sessions N"));
    };
    let listener = TcpListener::bind(("127.0.0.1", port))?;
    eprintln!("plain: connections are taken at {}", listener.local_addr()?);
    let meter = RwLock::new(demo::meter());
    let seated = AtomicUsize::new(0);
    thread::scope(|scope| {
        for stream in listener.incoming().take(usize::from(sessions)) {
            let Ok(stream) = stream else { continue };
            // Who finds no seat is sent away.
            if seated.fetch_add(1, Ordering::Relaxed) >= SEATS {
                seated.fetch_sub(1, Ordering::Relaxed);
                continue;
            }
            let (meter, seated) = (&meter, &seated);
            scope.spawn(move || {
                // (what ends a connection is no fault of the others)
                let _ended = converse(&stream, meter);
                seated.fetch_sub(1, Ordering::Relaxed);
            });
        }
    });
    Ok(())
}
