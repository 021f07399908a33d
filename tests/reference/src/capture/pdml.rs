//! Reads PDML, the XML in which `tshark -T pdml` shows what it has found in each packet.
//!
//! Only what is looked at is read: the names of protocols and fields, and the fields' numbers. XML's
//! escapes stay as they stand: no name or number that is compared has a character that needs one.

use super::fields;

#[derive(Debug, Default, PartialEq, Eq)]
pub struct Packet<'a> {
    pub protocols: Vec<&'a str>,
    /// In the order shown, without regard to which stands inside which.
    pub fields: Vec<Shown<'a>>,
}

#[derive(Debug, PartialEq, Eq)]
pub struct Shown<'a> {
    /// The name for filters; empty with a line that is a text alone.
    pub name: &'a str,
    /// The name for readers.
    pub label: &'a str,
    pub number: Option<u64>,
}

/// The packets in order; the first has the frame number 1. Text that is cut off is an error.
pub fn packets(text: &str) -> Result<Vec<Packet<'_>>, String> {
    let mut packets: Vec<Packet> = Vec::new();
    let mut rest = text;
    loop {
        let tag;
        (tag, rest) = next_tag(rest)?;
        match (tag.name, packets.last_mut()) {
            ("/pdml", _) => return Ok(packets),
            ("packet", _) => packets.push(Packet::default()),
            ("proto", Some(packet)) => packet.protocols.push(tag.attribute("name")),
            ("field", Some(packet)) => packet.fields.push(shown(&tag)),
            _ => {}
        }
    }
}

struct Tag<'a> {
    /// With the slash before it, where the tag is an end.
    name: &'a str,
    attributes: Vec<(&'a str, &'a str)>,
}

impl<'a> Tag<'a> {
    /// Empty where it isn't there.
    fn attribute(&self, name: &str) -> &'a str {
        self.attributes
            .iter()
            .find(|attribute| attribute.0 == name)
            .map_or("", |attribute| attribute.1)
    }
}

/// The next tag, and the text behind it. Text between tags is passed over.
fn next_tag(text: &str) -> Result<(Tag<'_>, &str), String> {
    const CUT_OFF: &str = "it ends before </pdml>";
    let (_, mut rest) = text.split_once('<').ok_or(CUT_OFF)?;
    // What the file says of itself has another syntax.
    for (first, last) in [("!--", "-->"), ("?", "?>"), ("!", ">")] {
        if let Some(inside) = rest.strip_prefix(first) {
            let (_, behind) = inside.split_once(last).ok_or(CUT_OFF)?;
            return next_tag(behind);
        }
    }
    let name;
    (name, rest) = split_at_any(rest, &[' ', '\t', '\r', '\n', '>']).ok_or(CUT_OFF)?;
    let mut attributes = Vec::new();
    loop {
        rest = rest.trim_start_matches(|c: char| c.is_whitespace() || c == '/');
        if let Some(behind) = rest.strip_prefix('>') {
            let name = name.strip_suffix('/').unwrap_or(name);
            return Ok((Tag { name, attributes }, behind));
        }
        let attribute;
        (attribute, rest) = next_attribute(rest).ok_or(CUT_OFF)?;
        attributes.push(attribute);
    }
}

/// Name and value, and the text behind them. A value may contain what would end the tag.
fn next_attribute(text: &str) -> Option<((&str, &str), &str)> {
    let (name, rest) = text.split_once('=')?;
    let rest = rest.trim_start();
    let quote = rest.chars().next().filter(|c| matches!(c, '"' | '\''))?;
    let (value, behind) = rest[1..].split_once(quote)?;
    Some(((name.trim(), value), behind))
}

fn split_at_any<'a>(text: &'a str, ends: &[char]) -> Option<(&'a str, &'a str)> {
    Some(text.split_at(text.find(ends)?))
}

fn shown<'a>(tag: &Tag<'a>) -> Shown<'a> {
    Shown {
        name: tag.attribute("name"),
        label: label(tag.attribute("showname")),
        number: number(tag),
    }
}

/// What a reader sees is `Name: value`, and of a part of a byte `.... .000 = Name: value`.
fn label(shown_name: &str) -> &str {
    let is_bits = |text: &str| text.chars().all(|c| matches!(c, '.' | '0' | '1' | ' '));
    let named = match shown_name.split_once(" = ") {
        Some((bits, named)) if is_bits(bits) => named,
        _ => shown_name,
    };
    named.split(':').next().unwrap_or(named).trim()
}

/// As it is shown; where that is no number, as its bytes are.
fn number(tag: &Tag) -> Option<u64> {
    fields::number(tag.attribute("show"))
        .or_else(|| u64::from_str_radix(tag.attribute("value"), 16).ok())
}
