//! The programs of the repository, run on bytes.
use std::fs::{self, File};
use std::io::{Seek, SeekFrom, Write};
use std::path::{Path, PathBuf};
use std::process::{Command, Output, Stdio};

/// A program that reads a sheet stops after so many bytes.
pub const STOP: usize = 16_384;

/// The folder of the repository.
pub fn root() -> &'static Path {
    Path::new(env!("CARGO_MANIFEST_DIR")).parent().unwrap()
}

/// A program, which `.ci/run` builds.
pub fn program(name: &str) -> PathBuf {
    let path = root().join("target/bin").join(name);
    assert!(path.exists(), "there is no {}: `.ci/run` builds it", path.display());
    path
}

/// A file without a name that has these bytes and is at its beginning.
pub fn file(bytes: &[u8]) -> File {
    let name = format!("maps-tests-{}-{:?}", std::process::id(), std::thread::current().id());
    let path = std::env::temp_dir().join(name);
    let mut file = File::options().read(true).write(true).create_new(true).open(&path).expect("a file");
    fs::remove_file(&path).expect("the file has no name any more");
    file.write_all(bytes).unwrap();
    file.seek(SeekFrom::Start(0)).unwrap();
    file
}

/// What a program prints where standard input is a file with this sheet. It ends well, reads all of the file up to where it stops, and says nothing on
/// standard error.
pub fn printed(name: &str, sheet: &[u8]) -> String {
    let mut file = file(sheet);
    let output = Command::new(program(name)).stdin(file.try_clone().unwrap()).output().expect("the program runs");
    assert!(output.status.success() && output.stderr.is_empty(), "{output:?}");
    assert_eq!(file.stream_position().unwrap(), sheet.len().min(STOP) as u64, "bytes read of {}", sheet.len());
    String::from_utf8(output.stdout).expect("text")
}

/// What a program writes where these bytes come through a pipe, piece by piece.
pub fn in_pieces(command: &mut Command, bytes: &[u8], piece: usize) -> Output {
    let mut child = command.stdin(Stdio::piped()).stdout(Stdio::piped()).stderr(Stdio::piped()).spawn().expect("the program runs");
    let mut pipe = child.stdin.take().unwrap();
    for part in bytes.chunks(piece) {
        pipe.write_all(part).unwrap();
        pipe.flush().unwrap();
        std::thread::sleep(std::time::Duration::from_micros(50));
    }
    drop(pipe);
    let output = child.wait_with_output().unwrap();
    assert!(output.status.success() && output.stderr.is_empty(), "in pieces of {piece}: {output:?}");
    output
}

/// Holds what a program prints for a sheet to these lines.
pub fn compare_lines(name: &str, sheet: &[u8], expected: &str) {
    let found = printed(name, sheet);
    if found != expected {
        let (mut found, mut expected) = (found.split_inclusive('\n'), expected.split_inclusive('\n'));
        let differ = std::iter::repeat_with(|| (found.next(), expected.next())).find(|(a, b)| a != b).unwrap();
        panic!("{:?} and not {:?}, for {sheet:?}", differ.0, differ.1);
    }
}
