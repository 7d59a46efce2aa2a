//! A program that is killed when it has used too much processor time.
use crate::clock;
use std::io::{self, Read, Write};
use std::process::{Command, Stdio};
use std::sync::mpsc;
use std::thread;
use std::time::Duration;

/// What the program writes when it is given this input; none where it is killed at the cut-off.
pub fn output(command: &mut Command, input: &str, cutoff: Duration) -> io::Result<Option<String>> {
    let mut child = command.stdin(Stdio::piped()).stdout(Stdio::piped()).spawn()?;
    let mut given = child.stdin.take().expect("a piped input");
    // a program that ends without reading says so by what it writes
    given.write_all(input.as_bytes()).ok();
    drop(given);
    let mut output = child.stdout.take().expect("a piped output");
    let (send, receive) = mpsc::channel();
    let reader = thread::spawn(move || {
        let mut said = String::new();
        output.read_to_string(&mut said).map(|_| send.send(said))
    });
    let mut said = receive.recv_timeout(cutoff);
    while said.is_err() {
        let left = clock::of_process(child.id()).map_or(Duration::ZERO, |used| cutoff.saturating_sub(used));
        if left.is_zero() {
            child.kill()?;
            break;
        }
        said = receive.recv_timeout(left);
    }
    child.wait()?;
    reader.join().expect("the reader ends").ok();
    Ok(said.ok())
}
