//! A TCP connection between a server and its database that a test can break.

use std::io::{Read, Write};
use std::net::{Shutdown, TcpListener, TcpStream};
use std::sync::atomic::{AtomicBool, AtomicU8, AtomicUsize, Ordering::SeqCst};
use std::sync::{Arc, Mutex};
use std::thread;
use std::time::Duration;

/// The bytes that are lost when the connection breaks.
#[derive(Clone, Copy, Debug, PartialEq, Eq)]
pub enum Lost {
    Nothing = 0,
    Requests = 1,
    Replies = 2,
}

/// A listener that forwards every connection.
#[derive(Debug)]
pub struct Proxy {
    pub port: u16,
    lost: Arc<AtomicU8>,
    /// A connection hangs from the request on that contains this text.
    hangs_at: Arc<Mutex<Option<&'static str>>>,
    /// Both sides of the connections, and how many connections there have been.
    connections: Arc<Mutex<Vec<TcpStream>>>,
    count: Arc<AtomicUsize>,
}

/// What one direction of a connection does to the bytes.
#[derive(Clone, Debug)]
struct Way {
    what: Lost,
    lost: Arc<AtomicU8>,
    hangs_at: Arc<Mutex<Option<&'static str>>>,
    /// Whether the connection hangs.
    is_hanging: Arc<AtomicBool>,
    /// The pause after each part of up to 16 KiB.
    pause: Duration,
}

impl Proxy {
    /// Forwards connections to this port until the program ends.
    pub fn start(to: u16) -> Self {
        Self::start_slow(to, Duration::ZERO)
    }

    /// Does the same, but pauses after each 16 KiB of replies.
    pub fn start_slow(to: u16, pause: Duration) -> Self {
        let listener = TcpListener::bind("127.0.0.1:0").unwrap();
        let proxy = Self {
            port: listener.local_addr().unwrap().port(),
            lost: Arc::new(AtomicU8::new(Lost::Nothing as u8)),
            hangs_at: Arc::default(),
            connections: Arc::default(),
            count: Arc::default(),
        };
        let (connections, count) = (proxy.connections.clone(), proxy.count.clone());
        let requests = Way {
            what: Lost::Requests,
            lost: proxy.lost.clone(),
            hangs_at: proxy.hangs_at.clone(),
            is_hanging: Arc::default(),
            pause: Duration::ZERO,
        };
        thread::spawn(move || {
            for client in listener.incoming().flatten() {
                if let Ok(server) = TcpStream::connect(("127.0.0.1", to)) {
                    let requests = Way {
                        is_hanging: Arc::default(),
                        ..requests.clone()
                    };
                    let replies = Way {
                        what: Lost::Replies,
                        hangs_at: Arc::default(),
                        pause,
                        ..requests.clone()
                    };
                    forward(&client, &server, requests);
                    forward(&server, &client, replies);
                    connections.lock().unwrap().extend([client, server]);
                    count.fetch_add(1, SeqCst);
                }
            }
        });
        proxy
    }

    /// Drops the next bytes of this kind and then breaks the connection.
    pub fn lose(&self, what: Lost) {
        self.lost.store(what as u8, SeqCst);
    }

    /// Returns whether these bytes have been dropped.
    pub fn has_lost(&self) -> bool {
        self.lost.load(SeqCst) == Lost::Nothing as u8
    }

    /// Breaks all connections.
    pub fn cut(&self) {
        for connection in self.connections.lock().unwrap().drain(..) {
            // Either side may already be closed.
            let _ = connection.shutdown(Shutdown::Both);
        }
    }

    /// Returns how many connections there have been.
    pub fn count(&self) -> usize {
        self.count.load(SeqCst)
    }

    /// Lets each connection hang from its next request on that contains this text. Without a text, new connections no longer hang.
    pub fn hang_at(&self, text: Option<&'static str>) {
        *self.hangs_at.lock().unwrap() = text;
    }
}

/// Starts a thread that forwards the bytes that one side sends to the other.
fn forward(from: &TcpStream, to: &TcpStream, way: Way) {
    let (mut from, mut to) = (from.try_clone().unwrap(), to.try_clone().unwrap());
    thread::spawn(move || {
        let mut bytes = [0; 1 << 14];
        while let Ok(count @ 1..) = from.read(&mut bytes) {
            let text = *way.hangs_at.lock().unwrap();
            let contains = |text: &str| bytes[..count].windows(text.len()).any(|part| part == text.as_bytes());
            if text.map_or(false, contains) {
                way.is_hanging.store(true, SeqCst);
            }
            if way.is_hanging.load(SeqCst) {
                // Both sides stay connected, and hear nothing more from each other.
                thread::sleep(Duration::from_secs(3_600));
            }
            thread::sleep(way.pause);
            let is_lost = way
                .lost
                .compare_exchange(way.what as u8, Lost::Nothing as u8, SeqCst, SeqCst);
            if is_lost.is_ok() || to.write_all(&bytes[..count]).is_err() {
                break;
            }
        }
        // Either side may already be closed.
        let _ = from.shutdown(Shutdown::Both);
        let _ = to.shutdown(Shutdown::Both);
    });
}
