//! Drives a server of lines from many connections at once, and is the bare echo server that it is measured beside.
//!
//!     lines echo                           listens, says `listening 127.0.0.1:port`, and echoes lines
//!     lines lines PORT CONNECTIONS COUNT   each connection sends COUNT lines, each after the answer to the one before:
//!                                          `QUOTA`, after a HELLO
//!     lines leaves PORT CONNECTIONS COUNT  each asks for COUNT positions to depth 0 and waits for each, 250 in a session
//!
//! All but the first print the round trips (lines and answers) a second, over all connections.
use std::io::{BufRead, BufReader, Write};
use std::net::{TcpListener, TcpStream};
use std::sync::Barrier;
use std::time::Instant;
use std::{env, process, thread};

fn fail(text: String) -> ! {
    eprintln!("lines: {text}");
    process::exit(1)
}

struct Talk {
    reader: BufReader<TcpStream>,
    line: String,
    trips: u64,
}

impl Talk {
    fn open(port: u16) -> Talk {
        let stream = TcpStream::connect(("127.0.0.1", port)).unwrap_or_else(|e| fail(format!("connect: {e}")));
        stream.set_nodelay(true).unwrap();
        Talk { reader: BufReader::new(stream), line: String::new(), trips: 0 }
    }

    /// Sends a line and gives its answer.
    fn call(&mut self, line: &str) -> &str {
        self.reader.get_mut().write_all(format!("{line}\n").as_bytes()).unwrap_or_else(|e| fail(format!("{line}: {e}")));
        self.line.clear();
        self.reader.read_line(&mut self.line).unwrap_or_else(|e| fail(format!("{line}: {e}")));
        self.trips += 1;
        self.line.trim_end()
    }

    /// The same, where the answer is known.
    fn expect(&mut self, line: &str, wanted: &str) {
        let given = self.call(line);
        if given != wanted {
            fail(format!("{line}: {given}, and not {wanted}"));
        }
    }
}

/// The hello of one of so many tenants: its part of 65,536 segments and 4,194,304 nodes.
fn hello(connections: usize) -> String {
    format!("{} {}", (65536 / connections).min(4096), (4194304 / connections).min(65536))
}

fn echo() {
    let listener = TcpListener::bind("127.0.0.1:0").unwrap();
    println!("listening {}", listener.local_addr().unwrap());
    for stream in listener.incoming().flatten() {
        thread::spawn(move || {
            stream.set_nodelay(true).unwrap();
            let mut writer = stream.try_clone().unwrap();
            let mut reader = BufReader::new(stream);
            let mut line = Vec::new();
            while matches!(reader.read_until(b'\n', &mut line), Ok(1..)) {
                if writer.write_all(&line).is_err() {
                    return;
                }
                line.clear();
            }
        });
    }
}

fn lines(port: u16, connections: usize, count: usize) -> u64 {
    let mut talk = Talk::open(port);
    talk.call(&format!("HELLO {}", hello(connections)));
    let first = talk.call("QUOTA").to_string();
    for _ in 0..count {
        talk.expect("QUOTA", &first);
    }
    talk.call("BYE");
    talk.trips
}

const OPENING: &str = "---------------------------OX------XO--------------------------- X";

fn leaves(port: u16, connections: usize, count: usize) -> u64 {
    const SESSION: usize = 250;
    let hello = hello(connections);
    let mut trips = 0;
    for from in (0..count).step_by(SESSION) {
        let mut talk = Talk::open(port);
        talk.expect(&format!("HELLO {hello}"), &format!("WELCOME {hello}"));
        for job in 1..=SESSION.min(count - from) {
            talk.expect(&format!("ASK 0 {OPENING}"), &format!("JOB {job}"));
            talk.expect(&format!("WAIT {job}"), &format!("DONE {job} 0 -"));
        }
        talk.expect("BYE", "BYE");
        trips += talk.trips;
    }
    trips
}

fn drive(what: fn(u16, usize, usize) -> u64, words: &[String]) {
    let port: u16 = words[0].parse().unwrap();
    let connections: usize = words[1].parse().unwrap();
    let count: usize = words[2].parse().unwrap();
    let start = Barrier::new(connections + 1);
    let (trips, begun) = thread::scope(|scope| {
        let drive = || {
            start.wait();
            what(port, connections, count)
        };
        let threads: Vec<_> = (0..connections).map(|_| scope.spawn(drive)).collect();
        start.wait();
        let begun = Instant::now();
        let trips: u64 = threads.into_iter().map(|each| each.join().unwrap_or_else(|_| fail("a thread failed".into()))).sum();
        (trips, begun)
    });
    println!("{:.0}", trips as f64 / begun.elapsed().as_secs_f64());
}

fn main() {
    let words: Vec<String> = env::args().skip(1).collect();
    match words.iter().map(String::as_str).collect::<Vec<_>>().as_slice() {
        ["echo"] => echo(),
        ["lines", _, _, _] => drive(lines, &words[1..]),
        ["leaves", _, _, _] => drive(leaves, &words[1..]),
        _ => fail("see the head of lines.rs".into()),
    }
}
