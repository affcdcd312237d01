//! The socket by which the status is asked for.

use super::calls;
use std::fs::{self, DirBuilder};
use std::io::{self, Read, Write};
use std::net::Shutdown;
use std::os::unix::fs::{DirBuilderExt, FileTypeExt};
use std::os::unix::io::{AsRawFd, RawFd};
use std::os::unix::net::{UnixListener, UnixStream};
use std::path::{Path, PathBuf};
use std::time::Duration;

use nix::sys::stat::{umask, Mode};

/// How long the command `status` waits for the daemon.
const PATIENCE: Duration = Duration::from_secs(5);

/// How long the queue of an answer is at least, in octets: not less than Linux makes it.
const LEAST_QUEUE: i32 = 256 << 10;

/// The socket, which goes with this value.
#[derive(Debug)]
pub(super) struct Control {
    listener: UnixListener,
    path: PathBuf,
}

impl Control {
    /// Makes the socket, for its owner alone (mode 600), and the folder around it if
    /// there is none. A socket to which nobody listens any more is replaced.
    pub(super) fn open(path: &Path) -> io::Result<Control> {
        if let Some(folder) = path.parent() {
            if !folder.as_os_str().is_empty() && !folder.exists() {
                DirBuilder::new().mode(0o700).create(folder)?;
            }
        }
        if UnixStream::connect(path).is_ok() {
            return Err(io::Error::new(
                io::ErrorKind::AddrInUse,
                "another daemon listens there",
            ));
        }
        remove_socket(path)?;
        // So that the socket never has another mode, not even for a moment.
        let before = umask(Mode::from_bits_truncate(0o177));
        let listener = UnixListener::bind(path);
        umask(before);
        let listener = listener?;
        listener.set_nonblocking(true)?;
        Ok(Control {
            listener,
            path: path.to_path_buf(),
        })
    }

    /// Answers all that ask. Who doesn't take the answer at once gets no more of it, so
    /// that nobody keeps the loop waiting.
    pub(super) fn answer(&self, json: &str) {
        while let Ok((mut stream, _)) = self.listener.accept() {
            if stream.set_nonblocking(true).is_ok() {
                // So that all of it is taken at once. Half is the kernel's for its records.
                let length = i32::try_from(json.len()).unwrap_or(i32::MAX);
                calls::widen_out(&stream, length.saturating_mul(2).max(LEAST_QUEUE));
                let _ = stream.write_all(json.as_bytes());
            }
        }
    }
}

impl AsRawFd for Control {
    fn as_raw_fd(&self) -> RawFd {
        self.listener.as_raw_fd()
    }
}

impl Drop for Control {
    fn drop(&mut self) {
        let _ = remove_socket(&self.path);
    }
}

/// Removes a socket, if there is one. What is something else stays: the path came from the
/// command line, and may be one by mistake.
fn remove_socket(path: &Path) -> io::Result<()> {
    match fs::symlink_metadata(path) {
        Ok(about) if about.file_type().is_socket() => fs::remove_file(path),
        Ok(_) => Err(io::Error::new(
            io::ErrorKind::AlreadyExists,
            "something else than a socket is there, and stays",
        )),
        Err(error) if error.kind() == io::ErrorKind::NotFound => Ok(()),
        Err(error) => Err(error),
    }
}

/// Asks the daemon that listens at this socket for its status, as JSON.
pub fn ask_status(path: &Path) -> io::Result<String> {
    let mut stream = UnixStream::connect(path)?;
    stream.set_read_timeout(Some(PATIENCE))?;
    stream.shutdown(Shutdown::Write)?;
    let mut json = String::new();
    stream.read_to_string(&mut json)?;
    // The answer is a line: without its end some of it is missing.
    if !json.ends_with('\n') {
        return Err(io::Error::new(
            io::ErrorKind::UnexpectedEof,
            "the daemon's answer is cut",
        ));
    }
    Ok(json)
}

#[cfg(test)]
mod tests {
    use super::{ask_status, Control};
    use std::fs;
    use std::io::{self, Read, Write};
    use std::os::unix::net::{UnixDatagram, UnixListener, UnixStream};
    use std::path::PathBuf;
    use std::thread;

    fn path(name: &str) -> PathBuf {
        std::env::temp_dir().join(format!("sukperind-{name}-{}", std::process::id()))
    }

    #[test]
    fn what_is_no_socket_stays() {
        let file = path("control-file");
        fs::write(&file, "something dear").unwrap();
        let error = Control::open(&file).unwrap_err();
        assert_eq!(error.kind(), io::ErrorKind::AlreadyExists);
        assert!(error.to_string().contains("else than a socket"), "{error}");
        assert_eq!(fs::read_to_string(&file).unwrap(), "something dear");
        // A link to a socket is none either.
        let link = path("control-link");
        let _ = fs::remove_file(&link);
        std::os::unix::fs::symlink(&file, &link).unwrap();
        let error = Control::open(&link).unwrap_err();
        assert_eq!(error.kind(), io::ErrorKind::AlreadyExists);
        fs::remove_file(&link).unwrap();
        fs::remove_file(&file).unwrap();
        // A socket to which nobody listens is replaced, and goes at the end. It is one of
        // datagrams: another test's child may hold a listener for a moment.
        drop(UnixDatagram::bind(&file).unwrap());
        drop(Control::open(&file).unwrap());
        assert!(!file.exists());
    }

    #[test]
    fn a_long_status_goes_whole() {
        let socket = path("control-long");
        let control = Control::open(&socket).unwrap();
        // More than a socket takes by itself, and no more than anybody may ask for.
        let json = "x".repeat(260_000) + "\n";
        let mut stream = UnixStream::connect(&socket).unwrap();
        control.answer(&json);
        // Only now does anybody read: what the socket didn't take at once is lost.
        let mut answer = String::new();
        stream.read_to_string(&mut answer).unwrap();
        assert_eq!(answer.len(), json.len());
        assert!(answer == json);
    }

    #[test]
    fn a_cut_status_is_a_fault() {
        let socket = path("control-cut");
        for answer in ["", "{\"version\":\"0"] {
            let listener = UnixListener::bind(&socket).unwrap();
            let teller = thread::spawn(move || {
                let (mut stream, _) = listener.accept().unwrap();
                stream.write_all(answer.as_bytes()).unwrap();
            });
            let error = ask_status(&socket).unwrap_err();
            assert_eq!(error.kind(), io::ErrorKind::UnexpectedEof);
            teller.join().unwrap();
            fs::remove_file(&socket).unwrap();
        }
    }
}
