//! What a service costs without a node: turn after turn it reads the clock, takes one datagram at most at each port, and gives
//! as many datagrams of the same size as the node with which bench/serve.py compares it. It looks into none of them.
//!
//!     bare_loop TURNS REPLY SENDS LENGTH SINK PORT..
//!
//! It binds the ports at 127.0.0.1. To each datagram that comes it replies with REPLY bytes from the same port, or not at all
//! where REPLY is 0, and over all turns it sends SENDS datagrams of LENGTH bytes from the first port to the port SINK.

use std::env;
use std::hint::black_box;
use std::io::{self, ErrorKind};
use std::net::{Ipv4Addr, UdpSocket};
use std::time::Instant;

/// Room for a datagram, in bytes, as in the daemon.
const DATAGRAM_ROOM: usize = 65_536;

struct Totals {
    taken: u64,
    offered: u64,
    lost: u64,
    unread: u64,
}

fn bind(port: u64) -> io::Result<UdpSocket> {
    let socket = UdpSocket::bind((Ipv4Addr::LOCALHOST, port as u16))?;
    socket.set_nonblocking(true)?;
    Ok(socket)
}

impl Totals {
    fn count_give(&mut self, sent: io::Result<usize>, len: usize) {
        self.offered += 1;
        if !sent.is_ok_and(|sent| sent == len) {
            self.lost += 1;
        }
    }
}

fn main() -> io::Result<()> {
    let words: Vec<u64> = env::args().skip(1).map(|word| word.parse().expect("a number")).collect();
    let [turns, reply, sends, length, sink, ports @ ..] = &words[..] else {
        panic!("bare_loop TURNS REPLY SENDS LENGTH SINK PORT..");
    };
    let sockets: Vec<UdpSocket> = ports.iter().map(|port| bind(*port)).collect::<Result<_, _>>()?;
    let sink = (Ipv4Addr::LOCALHOST, *sink as u16);
    let reply = vec![0; *reply as usize];
    let telegram = vec![0; *length as usize];
    let mut room = vec![0; DATAGRAM_ROOM];
    let mut totals = Totals { taken: 0, offered: 0, lost: 0, unread: 0 };
    let mut sent = 0;
    let start = Instant::now();
    for turn in 1..=*turns {
        black_box(start.elapsed().as_micros());
        while sent * turns < turn * sends {
            totals.count_give(sockets[0].send_to(&telegram, sink), telegram.len());
            sent += 1;
        }
        for socket in &sockets {
            match socket.recv_from(&mut room) {
                Ok((_, from)) => {
                    totals.taken += 1;
                    if !reply.is_empty() {
                        totals.count_give(socket.send_to(&reply, from), reply.len());
                    }
                }
                Err(error) if error.kind() == ErrorKind::WouldBlock => {}
                Err(_) => totals.unread += 1,
            }
        }
    }
    let Totals { taken, offered, lost, unread } = totals;
    println!("taken {taken} offered {offered} lost {lost} unread {unread} memory 0");
    Ok(())
}
