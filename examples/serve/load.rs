//! Loads a site on loopback: several gateways that set up, update and end sessions, each with so many requests under way. It prints, for
//! each kind of request, how many a second were answered, the processor time that the site took for one, and how long one waited.
//!
//!     rustc --edition 2021 -O load.rs
//!     ./load PROGRAM TABLES GATEWAYS UNDER_WAY SESSIONS UPDATES ENDED cer|plain
//!
//! With `cer` each gateway exchanges capabilities first, so that the site pushes to all of them after each request.
use std::fs;
use std::io::{Read, Write};
use std::net::{TcpListener, TcpStream};
use std::process::{Child, Command, Stdio};
use std::sync::Barrier;
use std::thread;
use std::time::{Duration, Instant};

const GX: u32 = 16_777_238;

/// An AVP without a vendor.
fn avp(out: &mut Vec<u8>, code: u32, data: &[u8]) {
    out.extend(code.to_be_bytes());
    out.extend((0x4000_0000 | (8 + data.len() as u32)).to_be_bytes());
    out.extend(data);
    out.resize(out.len().next_multiple_of(4), 0);
}

/// A request with these AVPs.
fn request(command: u32, application: u32, id: u32, avps: &[u8]) -> Vec<u8> {
    let mut out = Vec::new();
    out.extend((0x0100_0000 | (20 + avps.len() as u32)).to_be_bytes());
    out.extend((0x8000_0000 | command).to_be_bytes());
    for word in [application, id, id] {
        out.extend(word.to_be_bytes());
    }
    out.extend(avps);
    out
}

/// Who sends.
fn origin(out: &mut Vec<u8>, gateway: usize) {
    avp(out, 264, format!("gw{gateway}.example").as_bytes());
    avp(out, 296, b"example");
}

/// A credit control request of a gateway's session.
fn credit_control(gateway: usize, session: usize, kind: u32, number: u32, id: u32) -> Vec<u8> {
    let mut avps = Vec::new();
    avp(&mut avps, 263, format!("gw{gateway}.example;1876543210;{session}").as_bytes());
    origin(&mut avps, gateway);
    avp(&mut avps, 416, &kind.to_be_bytes());
    avp(&mut avps, 415, &number.to_be_bytes());
    if kind == 1 {
        let one = (gateway << 24 | session) as u32;
        let mut subscriber = Vec::new();
        avp(&mut subscriber, 450, &1u32.to_be_bytes());
        avp(&mut subscriber, 444, format!("00101{one:010}").as_bytes());
        avp(&mut avps, 443, &subscriber);
        avp(&mut avps, 8, &(0x0a00_0000 | one).to_be_bytes());
        avp(&mut avps, 30, b"ims");
    }
    request(272, GX, id, &avps)
}

/// A gateway's connection, with what was read of it and not yet taken.
struct Gateway {
    number: usize,
    stream: TcpStream,
    held: Vec<u8>,
    piece: Vec<u8>,
}

impl Gateway {
    /// Takes each whole answer that is there, after one read at least: how many, and whether all have 2001. Requests are passed over.
    fn answers(&mut self) -> usize {
        loop {
            let count = self.stream.read(&mut self.piece).expect("a read");
            assert!(count > 0, "the site closed the connection");
            self.held.extend(&self.piece[..count]);
            let (mut at, mut answers) = (0, 0);
            while let Some(head) = self.held.get(at..at + 4) {
                let length = (u32::from_be_bytes(head.try_into().unwrap()) & 0xff_ffff) as usize;
                let Some(message) = self.held.get(at..at + length) else { break };
                if message[4] & 0x80 == 0 {
                    let granted = message.windows(4).any(|word| word == 2001u32.to_be_bytes());
                    assert!(granted, "a request was refused");
                    answers += 1;
                }
                at += length;
            }
            self.held.drain(..at);
            if answers > 0 {
                return answers;
            }
        }
    }

    /// Has so many requests answered, so many under way at once, and tells how long each waited. Requests that can go out together do.
    fn ask(&mut self, count: usize, window: usize, make: impl Fn(usize, usize) -> Vec<u8>) -> Vec<Duration> {
        let mut waited = Vec::with_capacity(count);
        let mut sent = Vec::with_capacity(count);
        let mut out = Vec::new();
        while waited.len() < count {
            while sent.len() < count && sent.len() - waited.len() < window {
                out.extend(make(self.number, sent.len()));
                sent.push(Instant::now());
            }
            self.stream.write_all(&out).expect("a write");
            out.clear();
            for _ in 0..self.answers() {
                waited.push(sent[waited.len()].elapsed());
            }
        }
        waited
    }
}

/// The processor time that a process took, in microseconds: its own, and the system's for it.
fn processor_time(id: u32) -> (f64, f64) {
    let text = fs::read_to_string(format!("/proc/{id}/stat")).expect("the process");
    let fields: Vec<&str> = text[text.rfind(')').unwrap() + 2..].split(' ').collect();
    let ticks = |at: usize| fields[at].parse::<f64>().unwrap() * 10_000.0;
    (ticks(11), ticks(12))
}

/// Each gateway has its requests answered; what came of it is printed.
fn measure<M: Fn(usize, usize) -> Vec<u8> + Sync>(name: &str, id: u32, gateways: &mut [Gateway], each: usize, window: usize, make: M) {
    let before = processor_time(id);
    let barrier = Barrier::new(gateways.len());
    let (barrier, make) = (&barrier, &make);
    let began = Instant::now();
    let mut waited: Vec<Duration> = thread::scope(|scope| {
        let workers: Vec<_> = gateways
            .iter_mut()
            .map(|gateway| {
                scope.spawn(move || {
                    barrier.wait();
                    gateway.ask(each, window, make)
                })
            })
            .collect();
        workers.into_iter().flat_map(|worker| worker.join().unwrap()).collect()
    });
    let took = began.elapsed().as_secs_f64();
    let after = processor_time(id);
    waited.sort();
    let count = waited.len();
    let at = |share: f64| waited[((count as f64 * share) as usize).min(count - 1)].as_secs_f64() * 1000.0;
    println!(
        "{name}: {:.0} a second, {:.1} + {:.1} µs, p50 {:.3} ms, p99 {:.3} ms",
        count as f64 / took,
        (after.0 - before.0) / count as f64,
        (after.1 - before.1) / count as f64,
        at(0.50),
        at(0.99)
    );
}

/// A site on loopback that accepts so many connections.
fn start(program: &str, tables: &str, connections: usize) -> (Child, u16) {
    let ports: Vec<u16> = (0..2).map(|_| TcpListener::bind("127.0.0.1:0").unwrap().local_addr().unwrap().port()).collect();
    let site = Command::new(program)
        .args(["serve", "--site", "0", "--epoch", "1", "--host", "pcrf0.example", "--realm", "example", "--address", "127.0.0.1"])
        .args(["--listen", &format!("127.0.0.1:{}", ports[0]), "--exchange", &format!("127.0.0.1:{}", ports[1])])
        .args(["--connections", &connections.to_string(), "--turns", "0", tables])
        .stdout(Stdio::piped())
        .spawn()
        .expect("the program");
    (site, ports[0])
}

/// A gateway's connection, once the site listens.
fn connect(number: usize, port: u16) -> Gateway {
    for _ in 0..600 {
        if let Ok(stream) = TcpStream::connect(("127.0.0.1", port)) {
            stream.set_nodelay(true).unwrap();
            return Gateway { number, stream, held: Vec::new(), piece: vec![0; 1 << 16] };
        }
        thread::sleep(Duration::from_millis(100));
    }
    panic!("the site does not listen")
}

fn main() {
    let words: Vec<String> = std::env::args().collect();
    let [_, program, tables, numbers @ .., way] = &words[..] else { panic!("see the head of load.rs") };
    let numbers: Vec<usize> = numbers.iter().map(|word| word.parse().expect("a number")).collect();
    let [count, window, sessions, updates, ended] = numbers[..] else { panic!("see the head of load.rs") };
    let (mut site, port) = start(program, tables, count);
    let mut gateways: Vec<Gateway> = (0..count).map(|number| connect(number, port)).collect();
    if way == "cer" {
        for gateway in &mut gateways {
            gateway.ask(1, 1, |number, _| {
                let mut avps = Vec::new();
                origin(&mut avps, number);
                avp(&mut avps, 258, &GX.to_be_bytes());
                request(257, 0, 0, &avps)
            });
        }
    }
    let own = sessions / count;
    let id = site.id();
    println!("{count} gateways, {window} under way at each, {sessions} sessions, {way}");
    measure("initial", id, &mut gateways, own, window, |gateway, i| credit_control(gateway, i, 1, 0, i as u32));
    measure("update", id, &mut gateways, updates / count, window, |gateway, i| {
        credit_control(gateway, (i * 7919) % own, 2, 1 + (i / own) as u32, i as u32)
    });
    measure("end", id, &mut gateways, (ended / count).min(own), window, |gateway, i| credit_control(gateway, i, 3, 9, i as u32));
    let memory = fs::read_to_string(format!("/proc/{id}/status")).unwrap();
    let peak = memory.lines().find(|line| line.starts_with("VmHWM")).unwrap_or_default();
    drop(gateways);
    let began = Instant::now();
    site.wait().unwrap();
    let mut printed = String::new();
    site.stdout.unwrap().read_to_string(&mut printed).unwrap();
    println!("{} after {:.1} s; {}", printed.trim(), began.elapsed().as_secs_f64(), peak.replace('\t', " "));
}
