//! The timers and limits of a peer's care.

use super::fault::ConfigFault;
use super::table::{Table, Value};
use super::tree::Node;
use crate::peer::{Limits, Timers};

const KEYS: &str = "first_backoff, longest_backoff, child_age, association_age, silence, doubt, overlap, child_octets";

/// The longest time that may be told, in seconds: ten years.
const LONGEST: f64 = 315_360_000.0;

pub(super) fn read_timers(value: &Value<'_>) -> Result<(Timers, Limits), ConfigFault> {
    let mut table = value.table("a table [peers.timers]")?;
    let mut timers = Timers::DEFAULT;
    let mut limits = Limits::DEFAULT;
    set(&mut table, "first_backoff", 1.0, &mut timers.first_backoff)?;
    let longest = table.optional("longest_backoff");
    if let Some(value) = &longest {
        timers.longest_backoff = read_seconds(value, 1.0)?;
        if timers.longest_backoff < timers.first_backoff {
            return Err(value.fault("no less than first_backoff"));
        }
    } else {
        timers.longest_backoff = timers.longest_backoff.max(timers.first_backoff);
    }
    set(&mut table, "silence", 1.0, &mut timers.silence)?;
    set(&mut table, "doubt", 1.0, &mut timers.doubt)?;
    set(&mut table, "overlap", 1.0, &mut timers.overlap)?;
    let child_age = table.optional("child_age");
    if let Some(value) = &child_age {
        timers.child_age = read_seconds(value, 60.0)?;
    }
    if let Some(value) = table.optional("association_age") {
        timers.association_age = read_seconds(&value, 60.0)?;
        if timers.association_age < timers.child_age && child_age.is_some() {
            return Err(value.fault("no less than child_age"));
        }
    }
    if let Some(value) = table.optional("child_octets") {
        let octets = value.whole(1_000_000..=i64::MAX)?;
        limits.octets = u64::try_from(octets).unwrap_or(u64::MAX);
    }
    table.finish(KEYS)?;
    Ok((timers, limits))
}

fn set(table: &mut Table<'_>, key: &str, least: f64, timer: &mut u64) -> Result<(), ConfigFault> {
    if let Some(value) = table.optional(key) {
        *timer = read_seconds(&value, least)?;
    }
    Ok(())
}

/// Seconds, also with a fraction, as milliseconds.
fn read_seconds(value: &Value<'_>, least: f64) -> Result<u64, ConfigFault> {
    let seconds = match value.node {
        Node::Whole(number) => number as f64,
        Node::Fraction(number) => number,
        _ => f64::NAN,
    };
    if (least..=LONGEST).contains(&seconds) {
        // In range, so that no part but the fraction is cut.
        Ok((seconds * 1_000.0).round() as u64)
    } else {
        Err(value.fault(format!("seconds, from {least} to {LONGEST}")))
    }
}
