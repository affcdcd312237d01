//! Secrets, each in a file that its owner alone can read.

use super::fault::ConfigFault;
use super::open_at_once;
use super::table::Value;
use std::fmt;
use std::fs::File;
use std::io::{self, Read};
use std::os::unix::fs::MetadataExt;
use std::path::{Path, PathBuf};
use zeroize::Zeroizing;

/// The most octets that a secret may have.
const MOST_OCTETS: usize = 1_024;

/// A shared secret. Its octets are wiped when it is dropped, and shown nowhere.
#[derive(Clone, PartialEq, Eq)]
pub struct Secret(Zeroizing<Vec<u8>>);

impl Secret {
    /// The secret's octets.
    pub fn octets(&self) -> &[u8] {
        &self.0
    }
}

impl fmt::Debug for Secret {
    fn fmt(&self, formatter: &mut fmt::Formatter<'_>) -> fmt::Result {
        formatter.write_str("Secret(..)")
    }
}

/// Why a file holds no secret.
enum SecretFault {
    Unread(io::Error),
    NoFile,
    Open(u32),
    Foreign(u32),
    Empty,
    Long,
}

/// Reads the secret in the file that a value names. A relative path begins at the
/// configuration's folder.
pub(super) fn read_secret(value: &Value<'_>, folder: &Path) -> Result<Secret, ConfigFault> {
    let expected = "the path of a file with the secret";
    let path = folder.join(PathBuf::from(value.text(expected)?));
    secret_in(&path).map_err(|fault| {
        let name = path.display();
        let (expected, found) = match fault {
            SecretFault::Unread(error) => (expected.to_string(), format!("{name}: {error}")),
            SecretFault::NoFile => ("a plain file".to_string(), format!("{name}, which is none")),
            SecretFault::Open(mode) => (
                "a file that its owner alone can read (mode 600)".to_string(),
                format!("{name} with mode {mode:03o}"),
            ),
            SecretFault::Foreign(owner) => (
                "a file of the user who runs this".to_string(),
                format!("{name} of user {owner}"),
            ),
            SecretFault::Empty => (
                "a secret of 1 to 1024 octets".to_string(),
                format!("{name} with none"),
            ),
            SecretFault::Long => (
                "a secret of 1 to 1024 octets".to_string(),
                format!("{name} with more"),
            ),
        };
        value.fault_found(expected, found)
    })
}

/// The file is judged when it is open, so that no other one can take its place
/// between the two.
fn secret_in(path: &Path) -> Result<Secret, SecretFault> {
    let file = open_at_once(path).map_err(SecretFault::Unread)?;
    let about = file.metadata().map_err(SecretFault::Unread)?;
    if !about.is_file() {
        return Err(SecretFault::NoFile);
    }
    if about.mode() & 0o077 != 0 {
        return Err(SecretFault::Open(about.mode() & 0o777));
    }
    // Asked of the kernel: what `/proc` tells depends on how it is mounted.
    if nix::unistd::geteuid().as_raw() != about.uid() {
        return Err(SecretFault::Foreign(about.uid()));
    }
    octets_of(file)
}

/// The secret without the line end behind it. The room is taken at once, so that
/// no copy is left where it grew.
fn octets_of(file: File) -> Result<Secret, SecretFault> {
    let most = MOST_OCTETS + 2;
    let mut octets = Zeroizing::new(Vec::with_capacity(most + 1));
    let mut limited = file.take(most as u64);
    // `read_to_end` may take more room than there is, so it isn't used.
    let mut buffer = Zeroizing::new([0u8; MOST_OCTETS + 2]);
    loop {
        let read = limited
            .read(buffer.as_mut_slice())
            .map_err(SecretFault::Unread)?;
        if read == 0 {
            break;
        }
        octets.extend(buffer.iter().take(read));
    }
    if octets.last() == Some(&b'\n') {
        octets.pop();
        if octets.last() == Some(&b'\r') {
            octets.pop();
        }
    }
    match octets.len() {
        0 => Err(SecretFault::Empty),
        1..=MOST_OCTETS => Ok(Secret(octets)),
        _ => Err(SecretFault::Long),
    }
}
