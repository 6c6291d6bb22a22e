//! SNMPv2c messages in plain Rust, with std alone: the baseline that our times are compared with, and a second opinion.
//! Written as one would without proofs: an owned message, sizes first, one allocation for what is written.

pub enum Value {
    Integer(i32),
    Octets(Vec<u8>),
    Null,
    Name(Vec<u32>),
    IpAddress([u8; 4]),
    Counter32(u32),
    Gauge32(u32),
    TimeTicks(u32),
    Opaque(Vec<u8>),
    Counter64(u64),
    Exception(u8),
}

pub struct Binding {
    pub name: Vec<u32>,
    pub value: Value,
}

pub struct Message {
    pub community: Vec<u8>,
    pub tag: u8,
    pub numbers: [i32; 3],
    pub bindings: Vec<Binding>,
}

struct Reader<'a>(&'a [u8]);

impl<'a> Reader<'a> {
    fn octet(&mut self) -> Option<u8> {
        let (first, rest) = self.0.split_first()?;
        self.0 = rest;
        Some(*first)
    }

    fn contents(&mut self) -> Option<&'a [u8]> {
        let first = self.octet()?;
        let len = match first {
            0..=0x7f => first as usize,
            0x81..=0x84 => {
                let mut len = 0usize;
                for _ in 0..first - 0x80 {
                    len = len << 8 | self.octet()? as usize;
                }
                len
            }
            _ => return None,
        };
        if len > self.0.len() {
            return None;
        }
        let (contents, rest) = self.0.split_at(len);
        self.0 = rest;
        Some(contents)
    }

    fn element(&mut self, tag: u8) -> Option<&'a [u8]> {
        (self.octet()? == tag).then_some(())?;
        self.contents()
    }
}

fn number(contents: &[u8]) -> Option<i128> {
    if contents.is_empty() || contents.len() > 9 {
        return None;
    }
    let mut number = if contents[0] < 0x80 { 0i128 } else { -1 };
    for octet in contents {
        number = number << 8 | *octet as i128;
    }
    Some(number)
}

fn integer(reader: &mut Reader<'_>) -> Option<i32> {
    i32::try_from(number(reader.element(0x02)?)?).ok()
}

fn name(contents: &[u8]) -> Option<Vec<u32>> {
    let mut parts = Vec::with_capacity(16);
    let mut number = 0u64;
    let mut begins = true;
    for octet in contents {
        if begins && *octet == 0x80 {
            return None;
        }
        number = number << 7 | (*octet & 0x7f) as u64;
        if number >= (1 << 32) + 80 {
            return None;
        }
        begins = *octet < 0x80;
        if begins {
            if parts.is_empty() {
                let first = (number / 40).min(2);
                parts.push(first as u32);
                parts.push(u32::try_from(number - 40 * first).ok()?);
            } else {
                parts.push(u32::try_from(number).ok()?);
            }
            number = 0;
        }
    }
    (begins && !parts.is_empty() && parts.len() <= 128).then_some(parts)
}

fn value(reader: &mut Reader<'_>) -> Option<Value> {
    let tag = reader.octet()?;
    let contents = reader.contents()?;
    match tag {
        0x02 => Some(Value::Integer(i32::try_from(number(contents)?).ok()?)),
        0x04 => Some(Value::Octets(contents.to_vec())),
        0x05 => contents.is_empty().then_some(Value::Null),
        0x06 => name(contents).map(Value::Name),
        0x40 => Some(Value::IpAddress(contents.try_into().ok()?)),
        0x41 => Some(Value::Counter32(u32::try_from(number(contents)?).ok()?)),
        0x42 => Some(Value::Gauge32(u32::try_from(number(contents)?).ok()?)),
        0x43 => Some(Value::TimeTicks(u32::try_from(number(contents)?).ok()?)),
        0x44 => Some(Value::Opaque(contents.to_vec())),
        0x46 => Some(Value::Counter64(u64::try_from(number(contents)?).ok()?)),
        0x80..=0x82 => contents.is_empty().then_some(Value::Exception(tag)),
        _ => None,
    }
}

pub fn read(octets: &[u8]) -> Option<Message> {
    let mut outer = Reader(Reader(octets).element(0x30)?);
    if integer(&mut outer)? != 1 {
        return None;
    }
    let community = outer.element(0x04)?.to_vec();
    let tag = outer.octet()?;
    if !(0xa0..=0xa8).contains(&tag) || tag == 0xa4 {
        return None;
    }
    let mut pdu = Reader(outer.contents()?);
    let numbers = [integer(&mut pdu)?, integer(&mut pdu)?, integer(&mut pdu)?];
    let mut list = Reader(pdu.element(0x30)?);
    let mut bindings = Vec::new();
    while !list.0.is_empty() {
        let mut binding = Reader(list.element(0x30)?);
        let name = name(binding.element(0x06)?)?;
        let value = value(&mut binding)?;
        binding.0.is_empty().then_some(())?;
        bindings.push(Binding { name, value });
    }
    (pdu.0.is_empty() && outer.0.is_empty()).then_some(Message { community, tag, numbers, bindings })
}

fn length_size(len: usize) -> usize {
    match len {
        0..=0x7f => 1,
        0x80..=0xff => 2,
        0x100..=0xffff => 3,
        0x1_0000..=0xff_ffff => 4,
        _ => 5,
    }
}

fn element_size(len: usize) -> usize {
    1 + length_size(len) + len
}

fn header(out: &mut Vec<u8>, tag: u8, len: usize) {
    out.push(tag);
    let octets = length_size(len) - 1;
    if octets == 0 {
        out.push(len as u8);
    } else {
        out.push(0x80 + octets as u8);
        out.extend_from_slice(&(len as u32).to_be_bytes()[4 - octets..]);
    }
}

fn number_size(number: i128) -> usize {
    let magnitude = if number < 0 { !number } else { number };
    (128 - magnitude.leading_zeros() as usize) / 8 + 1
}

fn put_number(out: &mut Vec<u8>, tag: u8, number: i128) {
    let len = number_size(number);
    header(out, tag, len);
    out.extend_from_slice(&number.to_be_bytes()[16 - len..]);
}

fn base128_size(number: u64) -> usize {
    (64 - (number | 1).leading_zeros() as usize).div_ceil(7)
}

fn encoded(name: &[u32]) -> impl Iterator<Item = u64> + '_ {
    std::iter::once(40 * name[0] as u64 + name[1] as u64).chain(name[2..].iter().map(|part| *part as u64))
}

fn name_size(name: &[u32]) -> usize {
    encoded(name).map(base128_size).sum()
}

fn put_name(out: &mut Vec<u8>, name: &[u32]) {
    header(out, 0x06, name_size(name));
    for number in encoded(name) {
        for place in (0..base128_size(number)).rev() {
            let digit = (number >> (7 * place) & 0x7f) as u8;
            out.push(if place > 0 { 0x80 | digit } else { digit });
        }
    }
}

fn value_size(value: &Value) -> usize {
    element_size(match value {
        Value::Integer(number) => number_size(*number as i128),
        Value::Octets(octets) | Value::Opaque(octets) => octets.len(),
        Value::Null | Value::Exception(_) => 0,
        Value::Name(name) => name_size(name),
        Value::IpAddress(_) => 4,
        Value::Counter32(number) | Value::Gauge32(number) | Value::TimeTicks(number) => number_size(*number as i128),
        Value::Counter64(number) => number_size(*number as i128),
    })
}

fn put_value(out: &mut Vec<u8>, value: &Value) {
    match value {
        Value::Integer(number) => put_number(out, 0x02, *number as i128),
        Value::Octets(octets) => put_octets(out, 0x04, octets),
        Value::Null => header(out, 0x05, 0),
        Value::Name(name) => put_name(out, name),
        Value::IpAddress(address) => put_octets(out, 0x40, address),
        Value::Counter32(number) => put_number(out, 0x41, *number as i128),
        Value::Gauge32(number) => put_number(out, 0x42, *number as i128),
        Value::TimeTicks(number) => put_number(out, 0x43, *number as i128),
        Value::Opaque(octets) => put_octets(out, 0x44, octets),
        Value::Counter64(number) => put_number(out, 0x46, *number as i128),
        Value::Exception(tag) => header(out, *tag, 0),
    }
}

fn put_octets(out: &mut Vec<u8>, tag: u8, octets: &[u8]) {
    header(out, tag, octets.len());
    out.extend_from_slice(octets);
}

fn binding_size(binding: &Binding) -> usize {
    element_size(name_size(&binding.name)) + value_size(&binding.value)
}

pub fn write(message: &Message) -> Vec<u8> {
    let list: usize = message.bindings.iter().map(|binding| element_size(binding_size(binding))).sum();
    let numbers: usize = message.numbers.iter().map(|number| 2 + number_size(*number as i128)).sum();
    let pdu = numbers + element_size(list);
    let whole = 3 + element_size(message.community.len()) + element_size(pdu);
    let mut out = Vec::with_capacity(element_size(whole));
    header(&mut out, 0x30, whole);
    put_number(&mut out, 0x02, 1);
    put_octets(&mut out, 0x04, &message.community);
    header(&mut out, message.tag, pdu);
    for number in message.numbers {
        put_number(&mut out, 0x02, number as i128);
    }
    header(&mut out, 0x30, list);
    for binding in &message.bindings {
        header(&mut out, 0x30, binding_size(binding));
        put_name(&mut out, &binding.name);
        put_value(&mut out, &binding.value);
    }
    out
}
