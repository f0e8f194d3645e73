//! The product's programs. All that the product is made of is x86-64 code, so all is run as processes,
//! in the way that a script knows for this machine.

use std::env;
use std::fs;
use std::io::{self, Write};
use std::path::{Path, PathBuf};
use std::process::{self, Child, Command, Output, Stdio};
use std::sync::atomic::{AtomicU64, Ordering};
use std::sync::{mpsc, LazyLock};
use std::thread;
use std::time::Duration;

/// How long a program may take that has nothing to read.
const PATIENCE: Duration = Duration::from_secs(20);

/// A path below the repository's root.
pub fn below_root(path: &str) -> PathBuf {
    Path::new(env!("CARGO_MANIFEST_DIR")).join("../..").join(path)
}

/// The programs that read a chain file.
pub const NIGHTCHANCE: &str = "nightchance";
pub const NIGHTSTEPS: &str = "nightsteps";
pub const REORDER: &str = "reorder";
/// The program that reads a damaged one too.
pub const SALVAGE: &str = "salvage";
/// The program that is given a number of steps too.
pub const NIGHTWITHIN: &str = "nightwithin";
/// The program that may be given a state too.
pub const NIGHTNEAR: &str = "nightnear";
/// The program that is given a table in its working folder too.
pub const CHECKSHARES: &str = "checkshares";
/// The program that is given a limit too.
pub const NIGHTLIMIT: &str = "nightlimit";
/// The program that is given a plan.
pub const PLANCOPIES: &str = "plancopies";
/// Those that are given its weights, and one of them a limit too.
pub const PLANTABLE: &str = "plantable";
pub const FEWESTCOPIES: &str = "fewestcopies";
/// The programs of a chain's text.
pub const SHOWCHAIN: &str = "showchain";
pub const MAKECHAIN: &str = "makechain";

/// Where a program is.
pub fn program(name: &str) -> PathBuf {
    below_root("target/bin").join(name)
}

/// The words before a program that run x86-64 code here. The script is asked once: it costs a third
/// of a report.
static WAY: LazyLock<Vec<String>> = LazyLock::new(|| {
    let mut script = Command::new(below_root("tests/x86-64"));
    let output = script.arg("how").stderr(Stdio::inherit()).output();
    let output = output.expect("the script that knows how x86-64 programs are run starts");
    assert!(output.status.success(), "tests/x86-64 how ended with {}", output.status);
    let words = String::from_utf8(output.stdout).expect("the words are UTF-8");
    words.lines().map(str::to_string).collect()
});

/// Starts a program with words.
pub fn start(program: &Path, words: &[String]) -> Child {
    start_in(Path::new("."), program, words, Stdio::inherit())
}

/// The same in a working folder, and with a place for what it complains of.
fn start_in(folder: &Path, program: &Path, words: &[String], complaints: Stdio) -> Child {
    let mut command = match WAY.split_first() {
        None => Command::new(program),
        Some((runner, words)) => {
            let mut command = Command::new(runner);
            command.args(words).arg(program);
            command
        }
    };
    command.args(words).current_dir(folder);
    command.stdin(Stdio::piped()).stdout(Stdio::piped()).stderr(complaints);
    command.spawn().unwrap_or_else(|error| panic!("{command:?} does not start: {error}"))
}

/// What a program writes to standard output and to standard error for these words and this file.
pub fn both(name: &str, words: &[String], file: &[u8]) -> io::Result<(Vec<u8>, Vec<u8>)> {
    let mut child = start_in(Path::new("."), &program(name), words, Stdio::piped());
    // A program that does not read shows in what it writes; that the pipe broke is no more news.
    let _ = child.stdin.take().expect("it is piped").write_all(file);
    let output = ended(child)?;
    Ok((output.stdout, output.stderr))
}

/// The same while its standard input stays open and nothing comes: one that waits for it is told that
/// nothing will, in the end, and shows as a failure.
pub fn unread(name: &str, words: &[String]) -> io::Result<(Vec<u8>, Vec<u8>)> {
    let mut child = start_in(Path::new("."), &program(name), words, Stdio::piped());
    let input = child.stdin.take().expect("it is piped");
    let (ends, end) = mpsc::channel();
    let holder = thread::spawn(move || {
        let ended = end.recv_timeout(PATIENCE).is_ok();
        drop(input);
        ended
    });
    let output = ended(child);
    // Where the holder has gone, it says itself that it waited too long.
    let _ = ends.send(());
    if !holder.join().expect("it only waits") {
        return Err(io::Error::other("it waits for standard input"));
    }
    output.map(|output| (output.stdout, output.stderr))
}

/// Whether a program that takes so many words told people how it is used, as it does where there are
/// more or fewer, and of nothing else.
pub fn reminded(name: &str, wanted: usize, words: &[String], told: &[u8]) -> bool {
    if words.len() == wanted {
        told.is_empty()
    } else {
        told.starts_with(format!("usage: {name} ").as_bytes())
    }
}

/// What `checkshares` prints for this file, in a working folder of its own with this table or none.
pub fn checked(file: &[u8], shares: Option<&[u8]>) -> io::Result<Vec<u8>> {
    static FOLDERS: AtomicU64 = AtomicU64::new(0);
    let place = FOLDERS.fetch_add(1, Ordering::Relaxed);
    let folder = env::temp_dir().join(format!("second-{}-{place}", process::id()));
    fs::create_dir(&folder)?;
    if let Some(shares) = shares {
        fs::write(folder.join("shares"), shares)?;
    }
    let printed = printed_by(start_in(&folder, &program(CHECKSHARES), &[], Stdio::inherit()), file);
    fs::remove_dir_all(&folder)?;
    printed
}

/// What a program prints for this file on its standard input.
pub fn printed(name: &str, file: &[u8]) -> io::Result<Vec<u8>> {
    printed_by(start(&program(name), &[]), file)
}

/// What a program that was started prints for this file on its standard input.
fn printed_by(mut child: Child, file: &[u8]) -> io::Result<Vec<u8>> {
    // A program that stops reading early shows in its report; that the pipe broke is no more news.
    let _ = child.stdin.take().expect("it is piped").write_all(file);
    Ok(ended(child)?.stdout)
}

/// All that a program writes until it ends.
fn ended(child: Child) -> io::Result<Output> {
    let output = child.wait_with_output()?;
    if !output.status.success() {
        return Err(io::Error::other(format!("it ended with {}", output.status)));
    }
    Ok(output)
}

/// What a program printed as text, or why it printed nothing.
pub fn text(printed: io::Result<Vec<u8>>) -> String {
    match printed {
        Ok(bytes) => String::from_utf8_lossy(&bytes).into_owned(),
        Err(error) => format!("nothing: {error}"),
    }
}
