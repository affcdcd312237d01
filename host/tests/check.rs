//! The command `sukperind check CONFIG`.

use std::fs;
use std::io::Write;
use std::os::unix::fs::PermissionsExt;
use std::os::unix::net::UnixListener;
use std::path::{Path, PathBuf};
use std::process::{Command, Output, Stdio};

fn check(file: &Path) -> Output {
    let mut command = Command::new(env!("CARGO_BIN_EXE_sukperind"));
    command.arg("check").arg(file).output().unwrap()
}

/// A new folder with a secret beside the configurations to come.
fn folder_with_secret(name: &str) -> PathBuf {
    let folder = std::env::temp_dir().join(format!("sukperind-{name}-{}", std::process::id()));
    fs::create_dir_all(&folder).unwrap();
    let secret = folder.join("link.secret");
    fs::write(&secret, "some secret").unwrap();
    fs::set_permissions(&secret, fs::Permissions::from_mode(0o600)).unwrap();
    folder
}

#[test]
fn the_examples_are_good_and_a_fault_is_told() {
    let folder = folder_with_secret("examples");
    for name in ["left.toml", "right.toml"] {
        let text = Path::new(env!("CARGO_MANIFEST_DIR")).join("etc").join(name);
        fs::copy(text, folder.join(name)).unwrap();
        let output = check(&folder.join(name));
        assert!(output.status.success(), "{output:?}");
    }
    let secret = folder.join("link.secret");
    fs::set_permissions(&secret, fs::Permissions::from_mode(0o644)).unwrap();
    let output = check(&folder.join("left.toml"));
    assert_eq!(output.status.code(), Some(1));
    let message = String::from_utf8(output.stderr).unwrap();
    assert!(
        message.contains("left.toml:17: peers[0].secret_file: expected"),
        "{message}"
    );
    fs::remove_dir_all(&folder).unwrap();
}

/// The configuration that docs/OPERATING.md prints, for who copies it from there.
#[test]
fn the_pages_configuration_is_good() {
    let folder = folder_with_secret("page");
    let page = Path::new(env!("CARGO_MANIFEST_DIR")).join("../docs/OPERATING.md");
    let page = fs::read_to_string(page).unwrap();
    let (_, rest) = page.split_once("```toml\n").unwrap();
    let (text, _) = rest.split_once("```").unwrap();
    let file = folder.join("page.toml");
    fs::write(&file, text).unwrap();
    let output = check(&file);
    assert!(output.status.success(), "{output:?}");
    fs::remove_dir_all(&folder).unwrap();
}

#[test]
fn a_bad_command_line_has_status_2() {
    let mut command = Command::new(env!("CARGO_BIN_EXE_sukperind"));
    assert_eq!(command.output().unwrap().status.code(), Some(2));
}

/// As `sukperind status | head -n 1` does it.
#[test]
fn who_reads_no_more_of_the_status_has_enough() {
    let folder = folder_with_secret("status");
    let socket = folder.join("control");
    let listener = UnixListener::bind(&socket).unwrap();
    let mut command = Command::new(env!("CARGO_BIN_EXE_sukperind"));
    let command = command.args(["status", "--json", "--socket"]).arg(&socket);
    let pipes = command.stdout(Stdio::piped()).stderr(Stdio::piped());
    let mut child = pipes.spawn().unwrap();
    let (mut stream, _) = listener.accept().unwrap();
    drop(child.stdout.take());
    // More than a pipe takes.
    stream.write_all(&[b'x'; 100_000]).unwrap();
    stream.write_all(b"\n").unwrap();
    drop(stream);
    let output = child.wait_with_output().unwrap();
    assert!(output.status.success(), "{output:?}");
    assert!(output.stderr.is_empty(), "{output:?}");
    fs::remove_dir_all(&folder).unwrap();
}
