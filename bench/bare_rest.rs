//! What it costs to send on time without a node: it sleeps until the next telegram is due, looks once behind each sleep what came, answers
//! that, and sends all that is due. It looks into no datagram. `bench/daemon.py idle` compares `trdpd daemon` with it.
//!
//!     bare_rest CYCLE LENGTH REPLY PIECES SINK PORT.. < PHASES
//!
//! It binds the ports at 127.0.0.1, and runs until it is ended. For each number on standard input a publisher sends LENGTH bytes every
//! CYCLE microseconds from the first port to the port SINK, so many microseconds behind the others' begin. Of these are four bytes a counter,
//! as in a telegram, and four behind the eighth byte the publisher's number. To each datagram that comes it replies with REPLY bytes from the
//! same port. Where PIECES is 1 no sleep is longer than a millisecond, so that no datagram waits longer; where it is 0 each lasts until the
//! next telegram is due.

use std::env;
use std::io::{self, ErrorKind};
use std::net::{Ipv4Addr, UdpSocket};
use std::os::fd::AsRawFd;
use std::thread::sleep;
use std::time::{Duration, Instant};

/// Room for a datagram, in bytes, as in the daemon.
const DATAGRAM_ROOM: usize = 65_536;
/// The longest piece of a rest.
const PIECE: Duration = Duration::from_millis(1);
/// How many ports one look at epoll tells of at most.
const EVENTS: usize = 32;
const EPOLL_CTL_ADD: i32 = 1;
const EPOLLIN: u32 = 1;
const EPOLLET: u32 = 1 << 31;
/// Where a telegram has the number of its publisher: its comId.
const NUMBER_AT: usize = 8;

/// What the system says of a port, with the port's place among the words. On x86-64 it is packed.
#[derive(Clone, Copy)]
#[cfg_attr(target_arch = "x86_64", repr(C, packed))]
#[cfg_attr(not(target_arch = "x86_64"), repr(C))]
struct Event {
    events: u32,
    data: u64,
}

extern "C" {
    fn epoll_create1(flags: i32) -> i32;
    fn epoll_ctl(epoll: i32, op: i32, fd: i32, event: *mut Event) -> i32;
    fn epoll_wait(epoll: i32, events: *mut Event, most: i32, timeout: i32) -> i32;
}

/// The ports, with the system's news of them.
struct Ports {
    sockets: Vec<UdpSocket>,
    epoll: i32,
    reply: Vec<u8>,
    room: Vec<u8>,
}

impl Ports {
    fn bind(ports: &[u64], reply: u64) -> io::Result<Ports> {
        let sockets: Vec<UdpSocket> = ports.iter().map(|port| bind(*port)).collect::<Result<_, _>>()?;
        let epoll = checked(unsafe { epoll_create1(0) })?;
        for (place, socket) in sockets.iter().enumerate() {
            let mut event = Event { events: EPOLLIN | EPOLLET, data: place as u64 };
            checked(unsafe { epoll_ctl(epoll, EPOLL_CTL_ADD, socket.as_raw_fd(), &mut event) })?;
        }
        Ok(Ports { sockets, epoll, reply: vec![0; reply as usize], room: vec![0; DATAGRAM_ROOM] })
    }

    /// Asks once at which ports something came, without waiting, and answers all that is there.
    fn look(&mut self) -> io::Result<()> {
        let mut events = [Event { events: 0, data: 0 }; EVENTS];
        let told = checked(unsafe { epoll_wait(self.epoll, events.as_mut_ptr(), EVENTS as i32, 0) })?;
        for event in &events[..told as usize] {
            self.answer(event.data as usize)?;
        }
        Ok(())
    }

    /// Answers all that is there at a port.
    fn answer(&mut self, place: usize) -> io::Result<()> {
        let socket = &self.sockets[place];
        loop {
            match socket.recv_from(&mut self.room) {
                Ok((_, from)) => drop(socket.send_to(&self.reply, from)),
                Err(error) if error.kind() == ErrorKind::WouldBlock => return Ok(()),
                Err(error) => return Err(error),
            }
        }
    }
}

fn bind(port: u64) -> io::Result<UdpSocket> {
    let socket = UdpSocket::bind((Ipv4Addr::LOCALHOST, port as u16))?;
    socket.set_nonblocking(true)?;
    Ok(socket)
}

/// What a call of the system answers, where that isn't a fault.
fn checked(answer: i32) -> io::Result<i32> {
    if answer < 0 { Err(io::Error::last_os_error()) } else { Ok(answer) }
}

fn main() -> io::Result<()> {
    let words: Vec<u64> = env::args().skip(1).map(|word| word.parse().expect("a number")).collect();
    let [cycle, length, reply, pieces, sink, ports @ ..] = &words[..] else {
        panic!("bare_rest CYCLE LENGTH REPLY PIECES SINK PORT.. < PHASES");
    };
    let said = io::read_to_string(io::stdin())?;
    // When each telegram of a cycle is due, in microseconds behind its begin, and whose it is; in order.
    let phases = said.split_whitespace().zip(0u32..).map(|(phase, number)| (phase.parse().expect("a number"), number));
    let mut phases: Vec<(u64, u32)> = phases.collect();
    phases.sort_unstable();
    let publishers = phases.len() as u64;
    let sink = (Ipv4Addr::LOCALHOST, *sink as u16);
    let longest = if *pieces == 0 { Duration::MAX } else { PIECE };
    let mut ports = Ports::bind(ports, *reply)?;
    let mut telegram = vec![0; *length as usize];
    let mut sent = 0;
    let start = Instant::now();
    loop {
        let (phase, number) = phases[(sent % publishers) as usize];
        let due = Duration::from_micros(sent / publishers * cycle + phase);
        let rest = due.saturating_sub(start.elapsed());
        if !rest.is_zero() {
            sleep(rest.min(longest));
            ports.look()?;
            continue;
        }
        telegram[..4].copy_from_slice(&((sent / publishers) as u32).to_be_bytes());
        telegram[NUMBER_AT..NUMBER_AT + 4].copy_from_slice(&number.to_be_bytes());
        // What is refused is lost, as in the daemon.
        drop(ports.sockets[0].send_to(&telegram, sink));
        sent += 1;
    }
}
