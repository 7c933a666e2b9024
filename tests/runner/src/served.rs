//! The product in a child process, where the archive cannot be linked: tests/served, which CHECKER_SERVED names with the words of the
//! emulator before it. One child makes all calls, in the form that ../../served/served.c describes.

use crate::product::Lent;
use std::io::{BufReader, Read, Write};
use std::os::unix::process::ExitStatusExt;
use std::process::{Child, ChildStdin, ChildStdout, Command, Stdio};
use std::sync::{Mutex, OnceLock};

/// The child and the pipes to and from it.
struct Served {
    child: Child,
    calls: ChildStdin,
    answers: BufReader<ChildStdout>,
}

/// The words that start the child; none where there is none.
fn command() -> Vec<String> {
    std::env::var("CHECKER_SERVED").unwrap_or_default().split_whitespace().map(str::to_string).collect()
}

pub fn is_here() -> bool {
    !command().is_empty()
}

/// Ends the runner without a count, as a signal would.
fn give_up(why: &str, status: i32) -> ! {
    eprintln!("the served product {why}");
    std::process::exit(status)
}

impl Served {
    fn start() -> Served {
        let words = command();
        let child = Command::new(&words[0]).args(&words[1..]).stdin(Stdio::piped()).stdout(Stdio::piped()).spawn();
        let mut child = child.unwrap_or_else(|why| give_up(&format!("cannot be started: {why}"), 126));
        let calls = child.stdin.take().expect("it is piped");
        let answers = BufReader::new(child.stdout.take().expect("it is piped"));
        Served { child, calls, answers }
    }

    /// Sends a call and takes its answer, into the same buffers.
    fn exchange(&mut self, lent: &mut Lent) -> std::io::Result<i64> {
        let (stream, room) = (&lent.stream_at, &lent.room_at);
        let numbers = [lent.stream_buffer.len(), lent.room_buffer.len(), stream.start, stream.len(), room.start, room.len()]
            .map(|n| n as u64);
        let sent = [&numbers.map(u64::to_le_bytes).concat()[..], &lent.stream_buffer, &lent.room_buffer].concat();
        self.calls.write_all(&sent)?;
        let mut number = [0; 8];
        self.answers.read_exact(&mut number)?;
        self.answers.read_exact(&mut lent.stream_buffer)?;
        self.answers.read_exact(&mut lent.room_buffer)?;
        Ok(i64::from_le_bytes(number))
    }

    /// The child gave no answer: the runner ends with the status that a shell gives for the child's end.
    fn ended(&mut self) -> ! {
        let end = self.child.wait().unwrap_or_else(|why| give_up(&format!("is lost: {why}"), 1));
        let status = end.signal().map(|signal| 128 + signal).or(end.code().filter(|&code| code != 0));
        give_up(&format!("ended ({end})"), status.unwrap_or(1))
    }
}

/// One call, made by the child.
pub fn answer(lent: &mut Lent) -> i64 {
    static SERVED: OnceLock<Mutex<Served>> = OnceLock::new();
    let mut served = SERVED.get_or_init(|| Mutex::new(Served::start())).lock().expect("one thread makes all calls");
    served.exchange(lent).unwrap_or_else(|_| served.ended())
}

/// Empty buffers, which the child lends as null pointers.
pub fn answer_nulls() -> i64 {
    answer(&mut Lent { stream_buffer: vec![], stream_at: 0..0, room_buffer: vec![], room_at: 0..0 })
}
