//! A desk at a keyboard: lines are edited as they are typed, on a terminal that the test holds the other end of.
#![cfg(target_os = "linux")]
mod command;

use command::{depot, file};
use std::ffi::{c_char, c_int, CStr};
use std::fs::{File, OpenOptions};
use std::io::{Read, Write};
use std::os::fd::{AsRawFd, FromRawFd};
use std::process::{Child, Command, Stdio};
use std::sync::mpsc::{self, Receiver};
use std::thread;
use std::time::Duration;

extern "C" {
    fn posix_openpt(flags: c_int) -> c_int;
    fn grantpt(file: c_int) -> c_int;
    fn unlockpt(file: c_int) -> c_int;
    fn ptsname_r(file: c_int, name: *mut c_char, length: usize) -> c_int;
    fn tcgetattr(file: c_int, settings: *mut [u32; 15]) -> c_int;
}

const READ_AND_WRITE: c_int = 2;
const NO_CONTROL: c_int = 0o400;
const PROMPT: &str = "desk> ";
/// How long the desk may take to show something.
const PATIENCE: Duration = Duration::from_secs(30);

/// A desk, and the end of its terminal at which a person would sit.
struct Seat {
    keyboard: File,
    terminal: File,
    desk: Child,
    screen: Receiver<Vec<u8>>,
    seen: String,
}

impl Seat {
    fn new(kind: &str) -> Seat {
        let mut name: [c_char; 64] = [0; 64];
        // SAFETY: the file is this one's own, and the name is lent for the call.
        let (keyboard, name) = unsafe {
            let file = posix_openpt(READ_AND_WRITE | NO_CONTROL);
            assert!(
                file >= 0 && grantpt(file) == 0 && unlockpt(file) == 0 && ptsname_r(file, name.as_mut_ptr(), name.len()) == 0
            );
            (File::from_raw_fd(file), CStr::from_ptr(name.as_ptr()).to_str().unwrap().to_string())
        };
        let terminal = OpenOptions::new().read(true).write(true).open(name).expect("the terminal opens");
        let end = || Stdio::from(terminal.try_clone().expect("an end of the terminal"));
        let desk = Command::new(env!("CARGO_BIN_EXE_depot"))
            .arg("desk")
            .env("TERM", kind)
            .stdin(end())
            .stdout(end())
            .stderr(end())
            .spawn()
            .expect("the desk starts");
        let mut output = keyboard.try_clone().expect("the other end");
        let (send, screen) = mpsc::channel();
        thread::spawn(move || {
            let mut bytes = [0; 4096];
            while let Ok(length) = output.read(&mut bytes) {
                if send.send(bytes[..length].to_vec()).is_err() {
                    return;
                }
            }
        });
        let mut seat = Seat { keyboard, terminal, desk, screen, seen: String::new() };
        seat.until(PROMPT);
        seat
    }

    /// Types keys and reads on until this has been shown; what was shown since.
    fn types(&mut self, keys: &[u8], shown: &str) -> String {
        self.seen.clear();
        self.keyboard.write_all(keys).expect("keys are typed");
        self.until(shown)
    }

    fn until(&mut self, shown: &str) -> String {
        while !self.seen.contains(shown) {
            let Ok(bytes) = self.screen.recv_timeout(PATIENCE) else {
                self.desk.kill().ok();
                panic!("'{shown}' is not shown; shown is: {}", self.seen.escape_debug());
            };
            self.seen += &String::from_utf8_lossy(&bytes);
        }
        self.seen.clone()
    }

    /// How the terminal treats keys, as the flags of its settings.
    fn settings(&self) -> u32 {
        let mut settings = [0; 15];
        // SAFETY: the settings are lent for the call.
        assert_eq!(unsafe { tcgetattr(self.terminal.as_raw_fd(), &mut settings) }, 0);
        settings[3]
    }

    fn ends(mut self) -> i32 {
        self.desk.wait().expect("the desk ends").code().expect("an exit status")
    }
}

#[test]
fn lines_are_edited() {
    let mut seat = Seat::new("xterm");
    seat.types(b"opn 10 yard=4/10 shop=3/10", "shop=3/10");
    // home, two to the right, the sign that is missing, end
    assert!(seat.types(b"\x1b[H\x1b[C\x1b[Ce\x1b[F\r", "\r\nopened\r\n").contains("open 10 yard=4/10 shop=3/10"));
    seat.until("| ceiling\r\n\rdesk> ");
    seat.types(b"claim yard 9\x7f5\r", "granted: claims 5 kW; yard now holds 5");
    // up brings the line back; an earlier one with two ups
    seat.types(b"\x1b[A\x7f1\r", "granted: claims 1 kW; yard now holds 6");
    seat.types(b"\x1b[A\x1b[A\x1b[B\x1b[B\x1b[Alook shop\x1b[1~\x0blook yard\n", "yard may claim");
    // a key that has no meaning leaves no bytes on the line
    assert!(seat.types(b"\x1b[15~look\x1b[200~ sho\xc3\xbc\x7fp\r", "shop may claim").contains("desk> look shop"));
    assert!(!seat.seen.contains("\x1b[15") && !seat.seen.contains("200~"), "{}", seat.seen);
    seat.types(b"claim yard 99\x03", "^C\r\n");
    seat.types(b"\x03", "'quit' or Ctrl-D ends the desk, and it is kept nowhere else; 'save FILE' keeps it\r\n");
    let kept = file("typed.desk-bytes", b"");
    seat.types(format!("save {kept}\r").as_bytes(), "saved to ");
    seat.types(b"show\r", "holds 6, assured 4");
    // two lines at once, as they are pasted
    let pasted = seat.types(b"back yard 1\nback yard 5\n", "yard now holds 0");
    assert!(pasted.contains("done: hands back 1 kW; yard now holds 5"), "{pasted}");
    assert_eq!(seat.settings() & 0o13, 0, "keys come one by one");
    seat.until("holds 0\r\n\rdesk> ");
    seat.types(b"\x04", "\n");
    assert_eq!(seat.desk.wait().expect("the desk ends").code(), Some(0));
    assert_eq!(seat.settings() & 0o13, 0o13, "the terminal is as it was");
}

/// A terminal that cannot move its cursor gets whole lines, as before.
#[test]
fn plain_terminals() {
    let mut seat = Seat::new("dumb");
    assert_eq!(seat.settings() & 0o13, 0o13);
    seat.types(b"open 10 4/10 3/10\n", "opened");
    let shown = seat.types(b"look 0\x1b[A\n", "without keys such as the arrows");
    assert!(shown.contains("found 'look 0\\u{1b}[A'"), "{shown}");
    seat.types(b"quit\n", "quit");
    assert_eq!(seat.ends(), 0);
}

/// What comes through a pipe is taken as it is.
#[test]
fn pipes_are_not_edited() {
    let ran = depot(&["desk"], b"open 10 4/10 3/10\nlook 0\x7f\nlook 0\x03\nlook 0\n");
    assert_eq!(ran.status, 2);
    assert!(ran.text().contains("found 'look 0\\u{7f}'") && ran.text().contains("found 'look 0\\u{3}'"), "{}", ran.text());
    assert!(!ran.text().contains(PROMPT) && !ran.text().contains('\x1b'));
}
