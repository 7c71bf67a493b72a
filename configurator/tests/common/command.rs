//! The command as a process, and folders to write in.

use std::ffi::OsStr;
use std::fs;
use std::io::{Read, Write};
use std::net::Shutdown;
use std::os::unix::fs::MetadataExt;
use std::os::unix::io::OwnedFd;
use std::os::unix::net::UnixStream;
use std::os::unix::process::CommandExt;
use std::path::{Path, PathBuf};
use std::process::{Child, ChildStdin, ChildStdout, Command, ExitStatus, Output, Stdio};

/// The program, from the project's root.
pub fn program() -> Command {
    program_at(Path::new(env!("CARGO_BIN_EXE_spardimple")))
}

/// A copy of the program, from the project's root. Where cargo runs tests under an emulator, so does
/// this, and so does the command with the desk program.
pub fn program_at(program: &Path) -> Command {
    let mut command = match emulator() {
        Some(emulator) => {
            let mut command = Command::new(emulator);
            command.arg(program);
            command
        }
        None => Command::new(program),
    };
    command.current_dir(root(""));
    command.env("SPARDIMPLE_DESK", desk());
    command.env("SPARDIMPLE_EMULATOR", emulator().unwrap_or_default());
    command
}

/// The program as a shell takes it.
pub fn typed() -> String {
    let program = env!("CARGO_BIN_EXE_spardimple");
    format!("{} '{program}'", emulator().unwrap_or_default())
}

/// What runs programs here, on a machine that is not x86-64.
pub fn emulator() -> Option<String> {
    std::env::var("CARGO_TARGET_X86_64_UNKNOWN_LINUX_GNU_RUNNER").ok()
}

/// The program, run by somebody whom permissions bind: root is made nobody. None where nobody cannot
/// run it.
pub fn bound() -> Option<Command> {
    let root = fs::metadata(folder("owner")).unwrap().uid() == 0;
    let bind = |mut program: Command| {
        if root {
            program.uid(65_534).gid(65_534);
        }
        program
    };
    let runs = bind(program()).arg("--version").output();
    runs.map_or(false, |runs| runs.status.success())
        .then(|| bind(program()))
}

/// Where the desk program is, if it is built.
pub fn desk() -> PathBuf {
    root("target/bin/desk")
}

/// Runs the command.
pub fn spardimple<S: AsRef<OsStr>>(words: &[S]) -> Output {
    program().args(words).output().expect("the command runs")
}

/// Runs the command with bytes on standard input. It may end before it has read them all.
pub fn spardimple_fed<S: AsRef<OsStr>>(words: &[S], bytes: &[u8]) -> Output {
    let mut child = program()
        .args(words)
        .stdin(Stdio::piped())
        .stdout(Stdio::piped())
        .stderr(Stdio::piped())
        .spawn()
        .expect("the command runs");
    let mut input = child.stdin.take().unwrap();
    let _ = input.write_all(bytes);
    drop(input);
    child.wait_with_output().expect("the command ends")
}

/// What the command prints on a terminal, which Debian's `script` makes. A word in `no_color` asks for
/// no colours.
pub fn on_a_terminal(words: &str, no_color: &str) -> String {
    let runner = std::env::var("CARGO_TARGET_X86_64_UNKNOWN_LINUX_GNU_RUNNER").unwrap_or_default();
    let command = format!("{runner} '{}' {words}", env!("CARGO_BIN_EXE_spardimple"));
    let shown = Command::new("script")
        .args(["-qec", &command, "/dev/null"])
        .current_dir(root(""))
        .env("NO_COLOR", no_color)
        .output()
        .expect("script runs; it is a part of Debian's bsdutils");
    text(&shown.stdout)
}

/// A stream whose reader is gone. It is shut down and not only dropped: a process that another test
/// starts at that moment may still hold a copy of the reader's end.
pub fn closed() -> Stdio {
    let (reader, writer) = UnixStream::pair().unwrap();
    reader.shutdown(Shutdown::Both).unwrap();
    Stdio::from(OwnedFd::from(writer))
}

/// The command on a terminal, which `script` makes.
pub struct Terminal {
    script: Child,
    keys: ChildStdin,
    screen: ChildStdout,
    shown: String,
}

impl Terminal {
    /// Runs the command there, by a shell from the project's root. None where there is no `script`.
    pub fn start(words: &str, term: &str) -> Option<Terminal> {
        if !Path::new("/usr/bin/script").exists() {
            println!("no terminal can be made here: left out");
            return None;
        }
        let program = env!("CARGO_BIN_EXE_spardimple");
        let command = format!("{} '{program}' {words}", emulator().unwrap_or_default());
        let mut script = Command::new("timeout")
            .args(["120", "/usr/bin/script", "-qec", &command, "/dev/null"])
            .current_dir(root(""))
            .env("SPARDIMPLE_DESK", desk())
            .env("SPARDIMPLE_EMULATOR", emulator().unwrap_or_default())
            .env("TERM", term)
            .stdin(Stdio::piped())
            .stdout(Stdio::piped())
            .spawn()
            .expect("a terminal can be made");
        Some(Terminal {
            keys: script.stdin.take().unwrap(),
            screen: script.stdout.take().unwrap(),
            script,
            shown: String::new(),
        })
    }

    /// Types keys.
    pub fn types(&mut self, keys: &str) {
        self.keys.write_all(keys.as_bytes()).unwrap();
    }

    /// What is shown up to these words, and from there on forgotten.
    pub fn shows(&mut self, words: &str) -> String {
        loop {
            if let Some(at) = self.shown.find(words) {
                let rest = self.shown.split_off(at + words.len());
                return std::mem::replace(&mut self.shown, rest);
            }
            let mut some = [0; 4_096];
            let read = self.screen.read(&mut some).unwrap();
            assert!(read > 0, "{words} is not shown: {}", self.shown);
            self.shown.push_str(&String::from_utf8_lossy(&some[..read]));
        }
    }

    /// How the command ends, and what is shown until then.
    pub fn ends(mut self) -> (String, ExitStatus) {
        let mut rest = Vec::new();
        self.screen.read_to_end(&mut rest).unwrap();
        self.shown.push_str(&String::from_utf8_lossy(&rest));
        (self.shown, self.script.wait().unwrap())
    }
}

/// Runs `batch` on a folder, with an output folder.
pub fn batch(sheets: &Path, out: &Path) -> Output {
    let words = [
        "batch".as_ref(),
        sheets.as_os_str(),
        "-o".as_ref(),
        out.as_os_str(),
    ];
    spardimple(&words)
}

/// Standard output or standard error, as text.
pub fn text(bytes: &[u8]) -> String {
    String::from_utf8(bytes.to_vec()).expect("the command prints text")
}

/// Where a file of the project is.
pub fn root(path: &str) -> PathBuf {
    Path::new(concat!(env!("CARGO_MANIFEST_DIR"), "/..")).join(path)
}

/// A file of the project, as text.
pub fn file(path: &str) -> String {
    fs::read_to_string(root(path)).expect("the file is there")
}

/// A folder of that name to write in, empty at first.
pub fn folder(name: &str) -> PathBuf {
    let folder = Path::new(env!("CARGO_TARGET_TMPDIR")).join(name);
    let _ = fs::remove_dir_all(&folder);
    fs::create_dir_all(&folder).expect("the folder can be made");
    folder
}

/// The names of a folder's files, in order.
pub fn names(folder: &Path) -> Vec<String> {
    let mut names: Vec<String> = fs::read_dir(folder)
        .expect("the folder is there")
        .map(|entry| entry.unwrap().file_name().to_string_lossy().into_owned())
        .collect();
    names.sort();
    names
}
