//! Reading a packet whose fixed part is good (01 'Malformed').

use super::*;
use crate::rule::Rule;

/// What is left of the packet to read.
struct Rest<'a>(&'a [u8]);

impl<'a> Rest<'a> {
    fn take(&mut self, length: usize) -> Result<&'a [u8], Rule> {
        if length > self.0.len() {
            return Err(Rule::MalformedOutside);
        }
        let (part, rest) = self.0.split_at(length);
        self.0 = rest;
        Ok(part)
    }
    fn octet(&mut self) -> Result<u8, Rule> {
        Ok(self.take(1)?[0])
    }
    fn two(&mut self) -> Result<u16, Rule> {
        let part = self.take(2)?;
        Ok(u16::from_be_bytes([part[0], part[1]]))
    }
    fn four(&mut self) -> Result<[u8; 4], Rule> {
        let part = self.take(4)?;
        Ok([part[0], part[1], part[2], part[3]])
    }
}

/// Reads a packet whose fixed part is good; else the clause of 'Malformed'.
pub fn read(packet: &[u8]) -> Result<Message, Rule> {
    let kind = packet[1];
    let mut rest = Rest(&packet[MIN_PACKET..]);
    let mut ca_number = CaNumber(0);
    let (mut interval, mut factor) = (0, 0);
    if kind == CA {
        ca_number = CaNumber(u32::from_be_bytes(rest.four()?));
    } else if kind == HELLO {
        interval = rest.two()?;
        factor = rest.two()?;
        rest.take(4)?; // unused, Family ID
    }
    let common = read_common(&mut rest, kind)?;
    let body = match kind {
        CA => Body::Ca(Ca {
            number: ca_number,
            flags: read_flags(common.flags),
            records: read_records(&mut rest, common.count, false)?,
        }),
        CSU_REQUEST => Body::CsuRequest(read_records(&mut rest, common.count, true)?),
        CSU_REPLY => Body::CsuReply(read_records(&mut rest, common.count, false)?),
        CSUS => Body::Csus(read_records(&mut rest, common.count, false)?),
        _ => Body::Hello(read_hello(&mut rest, interval, factor, common.count)?),
    };
    if !rest.0.is_empty() {
        return Err(Rule::MalformedLeftOver);
    }
    let Common { protocol, group, sender, receiver, .. } = common;
    Ok(Message { protocol, group, sender, receiver, body })
}

struct Common {
    protocol: u16,
    group: u16,
    flags: u16,
    count: u16,
    sender: Id,
    receiver: Option<Id>,
}

fn read_common(rest: &mut Rest, kind: u8) -> Result<Common, Rule> {
    let protocol = rest.two()?;
    let group = rest.two()?;
    rest.two()?; // unused
    let flags = rest.two()?;
    let sender_length = rest.octet()?;
    let receiver_length = rest.octet()?;
    let count = rest.two()?;
    if sender_length != 4 {
        return Err(Rule::MalformedSenderLength);
    }
    // Receiver length 0 is right in Hello only.
    if receiver_length != 4 && !(receiver_length == 0 && kind == HELLO) {
        return Err(Rule::MalformedReceiverLength);
    }
    let sender = rest.four()?;
    let receiver = if receiver_length == 0 { None } else { Some(rest.four()?) };
    Ok(Common { protocol, group, flags, count, sender, receiver })
}

fn read_flags(flags: u16) -> Flags {
    Flags { m: flags & 0x8000 != 0, i: flags & 0x4000 != 0, o: flags & 0x2000 != 0 }
}

fn read_records(rest: &mut Rest, count: u16, update: bool) -> Result<Vec<Record>, Rule> {
    if usize::from(count) > MAX_RECORDS {
        return Err(Rule::MalformedCount);
    }
    (0..count).map(|_| read_record(rest, update)).collect()
}

fn read_record(rest: &mut Rest, update: bool) -> Result<Record, Rule> {
    let hops = rest.two()?;
    let length = usize::from(rest.two()?);
    let key_length = usize::from(rest.octet()?);
    let originator_length = rest.octet()?;
    let null = rest.two()? & 0x8000 != 0;
    let number = CsaNumber(i32::from_be_bytes(rest.four()?));
    if hops == 0 {
        return Err(Rule::MalformedHopCount);
    }
    if number == CsaNumber::RESERVED {
        return Err(Rule::MalformedReserved);
    }
    if null && !update {
        return Err(Rule::MalformedNullElsewhere);
    }
    if originator_length != 4 {
        return Err(Rule::MalformedOriginatorLength);
    }
    let payload_length = try_lengths(length, key_length, update)?;
    if payload_length > 0 && null {
        return Err(Rule::MalformedNullPayload);
    }
    if payload_length > 0 && number == CsaNumber::PURGED {
        return Err(Rule::MalformedPurgedPayload);
    }
    let key = Key::new(rest.take(key_length)?).ok_or(Rule::MalformedKeyLength)?;
    let originator = rest.four()?;
    let payload = rest.take(payload_length)?;
    let payload = Payload::new(payload).ok_or(Rule::MalformedPayloadLength)?;
    Ok(Record { hops, null, number, key, originator, payload })
}

/// The payload's length: a summary is 16 plus the key length, an update
/// record that and the payload.
fn try_lengths(record: usize, key: usize, update: bool) -> Result<usize, Rule> {
    if !(1..=16).contains(&key) {
        return Err(Rule::MalformedKeyLength);
    }
    let Some(payload) = record.checked_sub(16 + key) else {
        return Err(Rule::MalformedRecordLength);
    };
    if payload > 0 && !update {
        return Err(Rule::MalformedRecordLength);
    }
    if payload > 32 {
        return Err(Rule::MalformedPayloadLength);
    }
    Ok(payload)
}

fn read_hello(rest: &mut Rest, interval: u16, factor: u16, count: u16) -> Result<Hello, Rule> {
    if interval == 0 {
        return Err(Rule::MalformedInterval);
    }
    if factor == 0 {
        return Err(Rule::MalformedFactor);
    }
    if usize::from(count) > MAX_ADDITIONAL {
        return Err(Rule::MalformedCount);
    }
    let mut additional = Vec::new();
    for _ in 0..count {
        if rest.octet()? != 4 {
            return Err(Rule::MalformedAdditionalLength);
        }
        additional.push(rest.four()?);
    }
    Ok(Hello { interval, factor, additional })
}
