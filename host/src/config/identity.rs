//! Identities (RFC 7296, section 3.5).

use super::fault::ConfigFault;
use super::table::{Table, Value};
use std::net::IpAddr;

/// Who an end is.
#[derive(Clone, Debug, PartialEq, Eq)]
pub enum Identity {
    /// A name (ID_FQDN).
    Fqdn(String),
    /// An address (ID_IPV4_ADDR, ID_IPV6_ADDR).
    Address(IpAddr),
    /// An address of mail (ID_RFC822_ADDR).
    Email(String),
    /// Octets that mean something to both ends (ID_KEY_ID).
    KeyId(Vec<u8>),
}

impl Identity {
    /// The type, as its number stands in a payload.
    pub fn kind(&self) -> u8 {
        match self {
            Identity::Address(IpAddr::V4(_)) => 1,
            Identity::Fqdn(_) => 2,
            Identity::Email(_) => 3,
            Identity::Address(IpAddr::V6(_)) => 5,
            Identity::KeyId(_) => 11,
        }
    }

    /// The octets, as they stand in a payload.
    pub fn octets(&self) -> Vec<u8> {
        match self {
            Identity::Fqdn(text) | Identity::Email(text) => text.as_bytes().to_vec(),
            Identity::Address(IpAddr::V4(address)) => address.octets().to_vec(),
            Identity::Address(IpAddr::V6(address)) => address.octets().to_vec(),
            Identity::KeyId(octets) => octets.clone(),
        }
    }
}

const TABLE: &str = "a table as { type = \"fqdn\", value = \"left.example\" }";
const TYPES: &str = "\"fqdn\", \"address\", \"email\" (or \"rfc822\") or \"key-id\"";

pub(super) fn read_identity(value: &Value<'_>) -> Result<Identity, ConfigFault> {
    let mut table: Table<'_> = value.table(TABLE)?;
    let kind = table.required("type", TYPES)?;
    let content = table.required("value", "the identity's value")?;
    table.finish("type, value")?;
    match kind.text(TYPES)? {
        "fqdn" => read_name(&content, "a name of 1 to 256 letters, digits, -, . and _")
            .map(Identity::Fqdn),
        "email" | "rfc822" => read_email(&content),
        "address" => read_address(&content),
        "key-id" => read_key_id(&content),
        _ => Err(kind.fault(TYPES)),
    }
}

fn read_name(value: &Value<'_>, expected: &str) -> Result<String, ConfigFault> {
    let text = value.text(expected)?;
    let fits = |octet: u8| octet.is_ascii_alphanumeric() || b"-._".contains(&octet);
    if (1..=256).contains(&text.len()) && text.bytes().all(fits) {
        Ok(text.to_string())
    } else {
        Err(value.fault(expected))
    }
}

fn read_email(value: &Value<'_>) -> Result<Identity, ConfigFault> {
    let expected = "an address of mail as \"gate@left.example\", of 256 octets at most";
    let text = value.text(expected)?;
    let whole = text
        .split_once('@')
        .is_some_and(|(user, host)| !user.is_empty() && !host.is_empty() && !host.contains('@'));
    let plain = text.bytes().all(|octet| octet.is_ascii_graphic());
    if whole && plain && text.len() <= 256 {
        Ok(Identity::Email(text.to_string()))
    } else {
        Err(value.fault(expected))
    }
}

fn read_address(value: &Value<'_>) -> Result<Identity, ConfigFault> {
    let expected = "an address as \"192.0.2.1\" or \"2001:db8::1\"";
    let address = value.text(expected)?.parse();
    address
        .map(Identity::Address)
        .map_err(|_| value.fault(expected))
}

/// The octets of a key id: text, or behind `hex:` pairs of digits.
fn read_key_id(value: &Value<'_>) -> Result<Identity, ConfigFault> {
    let expected = "1 to 256 octets: text, or \"hex:\" and two digits for each";
    let text = value.text(expected)?;
    let octets = match text.strip_prefix("hex:") {
        Some(digits) => octets_of_digits(digits),
        None => Some(text.as_bytes().to_vec()),
    };
    octets
        .filter(|octets| (1..=256).contains(&octets.len()))
        .map(Identity::KeyId)
        .ok_or_else(|| value.fault(expected))
}

fn octets_of_digits(digits: &str) -> Option<Vec<u8>> {
    let digits: Option<Vec<u8>> = digits
        .chars()
        .map(|digit| {
            digit
                .to_digit(16)
                .and_then(|digit| u8::try_from(digit).ok())
        })
        .collect();
    let digits = digits?;
    let pairs = digits.chunks_exact(2);
    let whole = pairs.remainder().is_empty();
    whole.then(|| pairs.map(|pair| pair[0] << 4 | pair[1]).collect())
}
