//! System calls that the standard library doesn't provide. All of the program's unsafe code is here.
#![allow(unsafe_code)]
#![deny(unsafe_op_in_unsafe_fn)]

use std::ffi::{CStr, OsStr};
use std::fs::{File, OpenOptions};
use std::io;
use std::mem::{self, MaybeUninit};
use std::os::unix::ffi::OsStrExt;
use std::os::unix::io::{AsRawFd, FromRawFd, RawFd};
use std::os::unix::net::{UnixDatagram, UnixListener, UnixStream};
use std::ptr;
use std::time::Duration;

/// The first descriptor that systemd passes.
const PASSED: RawFd = 3;

fn check(answer: libc::c_int) -> io::Result<libc::c_int> {
    if answer < 0 {
        Err(io::Error::last_os_error())
    } else {
        Ok(answer)
    }
}

/// How many bytes an allocation has for which glibc asks the system, and which it gives back at once when it is freed.
#[cfg(target_env = "gnu")]
const LARGE: libc::c_int = 128 << 10;

/// If the addresses that the process may use are limited (`ulimit -v`), keeps glibc from using up the limit with addresses that nothing is
/// stored at: all threads allocate from one heap, because each further one reserves 64 MiB, and what is large never stays in the heap
/// after it is freed. Call this before threads start.
#[cfg(target_env = "gnu")]
pub fn save_addresses_if_limited() {
    let mut limit = libc::rlimit {
        rlim_cur: libc::RLIM_INFINITY,
        rlim_max: libc::RLIM_INFINITY,
    };
    // SAFETY: the pointer is that of the variable, and the number is that of a limit.
    let is_known = unsafe { libc::getrlimit(libc::RLIMIT_AS, &mut limit) } == 0;
    if is_known && limit.rlim_cur != libc::RLIM_INFINITY {
        // SAFETY: the calls take numbers only, and no other thread is running.
        unsafe {
            libc::mallopt(libc::M_ARENA_MAX, 1);
            libc::mallopt(libc::M_MMAP_THRESHOLD, LARGE);
        }
    }
}

#[cfg(not(target_env = "gnu"))]
pub fn save_addresses_if_limited() {}

/// Sends as many of the bytes as the socket accepts immediately, and returns how many that is.
pub fn send_now(stream: &UnixStream, bytes: &[u8]) -> io::Result<usize> {
    let flags = libc::MSG_DONTWAIT | libc::MSG_NOSIGNAL;
    // SAFETY: the pointer and the length are those of the slice.
    let sent = unsafe { libc::send(stream.as_raw_fd(), bytes.as_ptr().cast(), bytes.len(), flags) };
    usize::try_from(sent).map_err(|_| io::Error::last_os_error())
}

/// Copies received bytes without consuming them, and returns how many bytes were copied.
pub fn look_ahead(stream: &UnixStream, bytes: &mut [u8]) -> io::Result<usize> {
    let flags = libc::MSG_DONTWAIT | libc::MSG_PEEK;
    // SAFETY: the pointer and the length are those of the slice.
    let received = unsafe { libc::recv(stream.as_raw_fd(), bytes.as_mut_ptr().cast(), bytes.len(), flags) };
    usize::try_from(received).map_err(|_| io::Error::last_os_error())
}

/// Waits until at least one of the descriptors is readable, and returns which ones are.
pub fn wait_readable<const N: usize>(descriptors: [RawFd; N], time: Option<Duration>) -> io::Result<[bool; N]> {
    wait(descriptors, libc::POLLIN, time)
}

/// Waits until the socket accepts more bytes, but no longer than `time`.
pub fn wait_writable(stream: &UnixStream, time: Duration) -> io::Result<()> {
    wait([stream.as_raw_fd()], libc::POLLOUT, Some(time)).map(drop)
}

/// Waits until the connection is closed in both directions, but no longer than `time`, and returns whether it is.
pub fn wait_closed(stream: &UnixStream, time: Duration) -> io::Result<bool> {
    // This event is reported even if no others are asked for.
    wait([stream.as_raw_fd()], 0, Some(time)).map(|[is_closed]| is_closed)
}

/// Waits until at least one of any number of descriptors is readable, and returns which ones are.
pub fn wait_any_readable(descriptors: &[RawFd], time: Option<Duration>) -> io::Result<Vec<bool>> {
    let polled = descriptors.iter().map(|fd| polled(*fd, libc::POLLIN));
    let mut polled: Vec<_> = polled.collect();
    poll(&mut polled, time)?;
    Ok(polled.iter().map(|one| one.revents != 0).collect())
}

/// Waits for any of these events on the descriptors, and returns which descriptors have one.
fn wait<const N: usize>(
    descriptors: [RawFd; N],
    events: libc::c_short,
    time: Option<Duration>,
) -> io::Result<[bool; N]> {
    let mut polled = descriptors.map(|fd| polled(fd, events));
    poll(&mut polled, time)?;
    Ok(polled.map(|one| one.revents != 0))
}

fn polled(fd: RawFd, events: libc::c_short) -> libc::pollfd {
    libc::pollfd { fd, events, revents: 0 }
}

/// Waits for any of the events. If a signal arrives first, there are none.
fn poll(polled: &mut [libc::pollfd], time: Option<Duration>) -> io::Result<()> {
    let milliseconds = time.map_or(-1, |time| {
        let rounded_up = time.as_millis() + u128::from(time.subsec_nanos() % 1_000_000 > 0);
        libc::c_int::try_from(rounded_up).unwrap_or(libc::c_int::MAX)
    });
    // SAFETY: the pointer and the length are those of the slice.
    match check(unsafe { libc::poll(polled.as_mut_ptr(), polled.len() as libc::nfds_t, milliseconds) }) {
        Err(error) if error.kind() == io::ErrorKind::Interrupted => {
            polled.iter_mut().for_each(|one| one.revents = 0);
            Ok(())
        }
        polled => polled.map(drop),
    }
}

/// Returns a descriptor that becomes readable when a signal arrives that should end the program. Threads created later don't
/// receive these signals. If SIGHUP is ignored, as it is under `nohup`, it stays ignored.
pub fn ending_signals() -> io::Result<File> {
    let mut signals = MaybeUninit::uninit();
    // SAFETY: `sigemptyset` initialises the set before the other calls use it.
    unsafe {
        check(libc::sigemptyset(signals.as_mut_ptr()))?;
        for signal in [libc::SIGTERM, libc::SIGINT] {
            check(libc::sigaddset(signals.as_mut_ptr(), signal))?;
        }
        if !is_ignored(libc::SIGHUP)? {
            check(libc::sigaddset(signals.as_mut_ptr(), libc::SIGHUP))?;
        }
        check(libc::sigprocmask(libc::SIG_BLOCK, signals.as_ptr(), ptr::null_mut()))?;
        let fd = check(libc::signalfd(-1, signals.as_ptr(), libc::SFD_CLOEXEC))?;
        Ok(File::from_raw_fd(fd))
    }
}

/// Returns whether the process ignores this signal.
fn is_ignored(signal: libc::c_int) -> io::Result<bool> {
    let mut action = MaybeUninit::<libc::sigaction>::uninit();
    // SAFETY: the call writes a `sigaction`, which is read only if the call succeeded.
    let action = unsafe {
        check(libc::sigaction(signal, ptr::null(), action.as_mut_ptr()))?;
        action.assume_init()
    };
    Ok(action.sa_sigaction == libc::SIG_IGN)
}

/// Returns how many more bytes this user can store on the disk that holds this file, or `None` if the file system doesn't say.
pub fn free_space(path: &CStr) -> io::Result<Option<u64>> {
    let mut found = MaybeUninit::<libc::statvfs>::uninit();
    // SAFETY: the path ends with a zero byte, and the call fills `found` if it succeeds.
    let found = unsafe {
        check(libc::statvfs(path.as_ptr(), found.as_mut_ptr()))?;
        found.assume_init()
    };
    let blocks = match bestore_client::socket::user() {
        0 => found.f_bfree,
        _ => found.f_bavail,
    };
    Ok((found.f_blocks > 0).then(|| blocks.saturating_mul(found.f_frsize)))
}

/// Ends the program as a signal does.
pub fn end_program() {
    // SAFETY: the call takes only numbers.
    unsafe { libc::kill(libc::getpid(), libc::SIGTERM) };
}

/// Runs `make` with this umask, so that files it creates have none of these permissions. Files that other threads create at the
/// same time don't have them either.
pub fn with_mask<T>(mask: libc::mode_t, make: impl FnOnce() -> T) -> T {
    // SAFETY: the call always succeeds.
    let before = unsafe { libc::umask(mask) };
    let made = make();
    // SAFETY: as above.
    unsafe { libc::umask(before) };
    made
}

/// A child process.
#[derive(Debug)]
pub struct Process(libc::pid_t);

/// Forks the process. Returns the child to the parent, and `None` to the child. Call this only while there is a single thread.
pub fn fork() -> io::Result<Option<Process>> {
    // SAFETY: there is no other thread, so nothing in the child is left locked or half changed.
    let number = check(unsafe { libc::fork() })?;
    Ok((number != 0).then_some(Process(number)))
}

impl Process {
    pub fn number(&self) -> libc::pid_t {
        self.0
    }

    /// Waits until the process ends, and returns its status, or `None` if a signal ended it.
    pub fn wait(&self) -> io::Result<Option<u8>> {
        let mut status = 0;
        loop {
            // SAFETY: the call writes an int, which `status` is.
            match check(unsafe { libc::waitpid(self.0, &mut status, 0) }) {
                Err(error) if error.kind() == io::ErrorKind::Interrupted => {}
                Err(error) => return Err(error),
                Ok(_) => break,
            }
        }
        Ok(libc::WIFEXITED(status).then(|| libc::WEXITSTATUS(status) as u8))
    }
}

/// Starts a new session, which doesn't end when the terminal closes, and closes standard input and output.
pub fn leave_terminal() -> io::Result<()> {
    // SAFETY: the call takes no arguments.
    check(unsafe { libc::setsid() })?;
    replace_by_nothing(libc::STDIN_FILENO)?;
    replace_by_nothing(libc::STDOUT_FILENO)
}

/// Closes standard error, unless it is a file.
pub fn leave_errors() -> io::Result<()> {
    let mut found = MaybeUninit::<libc::stat>::uninit();
    // SAFETY: the call writes a `stat`, which is read only if the call succeeded.
    let is_file = unsafe {
        libc::fstat(libc::STDERR_FILENO, found.as_mut_ptr()) == 0
            && found.assume_init().st_mode & libc::S_IFMT == libc::S_IFREG
    };
    match is_file {
        true => Ok(()),
        false => replace_by_nothing(libc::STDERR_FILENO),
    }
}

fn replace_by_nothing(descriptor: RawFd) -> io::Result<()> {
    let nothing = OpenOptions::new().read(true).write(true).open("/dev/null")?;
    // SAFETY: both arguments are plain numbers, and no part of the program owns a standard descriptor.
    check(unsafe { libc::dup2(nothing.as_raw_fd(), descriptor) }).map(drop)
}

/// Locks a file or folder, if no one else has locked it. The lock is released when `file` is closed.
pub fn try_lock(file: &File) -> io::Result<()> {
    // SAFETY: the descriptor is open.
    check(unsafe { libc::flock(file.as_raw_fd(), libc::LOCK_EX | libc::LOCK_NB) }).map(drop)
}

/// Sends a datagram to a Unix socket, given by its path or by an `@` and its abstract name. Waits no longer than `time` until the
/// socket has room for it.
pub fn send_datagram(socket: &OsStr, bytes: &[u8], time: Duration) -> io::Result<()> {
    let from = UnixDatagram::unbound()?;
    from.set_write_timeout(Some(time))?;
    if !socket.as_bytes().starts_with(b"@") {
        return from.send_to(bytes, socket).map(drop);
    }
    // SAFETY: all fields of the address may be zero.
    let mut address: libc::sockaddr_un = unsafe { mem::zeroed() };
    address.sun_family = libc::AF_UNIX as libc::sa_family_t;
    let name = &socket.as_bytes()[1..];
    if name.len() >= address.sun_path.len() {
        return Err(io::Error::new(
            io::ErrorKind::InvalidInput,
            "the name of the socket is too long",
        ));
    }
    // An abstract name begins with a zero byte, and ends where the address does.
    for (to, byte) in address.sun_path[1..].iter_mut().zip(name) {
        *to = *byte as libc::c_char;
    }
    let length = mem::size_of::<libc::sa_family_t>() + socket.len();
    let address: *const libc::sockaddr_un = &address;
    // SAFETY: the pointers and lengths are those of the slice and the address, and both outlive the call.
    let sent = unsafe {
        libc::sendto(
            from.as_raw_fd(),
            bytes.as_ptr().cast(),
            bytes.len(),
            libc::MSG_NOSIGNAL,
            address.cast(),
            length as libc::socklen_t,
        )
    };
    match sent {
        0.. => Ok(()),
        _ => Err(io::Error::last_os_error()),
    }
}

/// Returns the socket that systemd has passed to this process, if the environment says that it has. Call this only once.
pub fn passed_socket() -> io::Result<Option<UnixListener>> {
    let number = |name| std::env::var(name).ok().and_then(|text| text.parse::<u32>().ok());
    if number("LISTEN_PID") != Some(std::process::id()) {
        return Ok(None);
    }
    let wrong = |why| Err(io::Error::new(io::ErrorKind::InvalidInput, why));
    match number("LISTEN_FDS") {
        None | Some(0) => return Ok(None),
        Some(1) => {}
        Some(_) => return wrong("systemd has passed more than one socket"),
    }
    if option(PASSED, libc::SO_DOMAIN)? != libc::AF_UNIX || option(PASSED, libc::SO_ACCEPTCONN)? != 1 {
        return wrong(
            "systemd has passed something other than a listening Unix socket; its unit needs ListenStream=PATH",
        );
    }
    // SAFETY: the descriptor is open, and nothing else in the program has it.
    unsafe {
        check(libc::fcntl(PASSED, libc::F_SETFD, libc::FD_CLOEXEC))?;
        Ok(Some(UnixListener::from_raw_fd(PASSED)))
    }
}

fn option(fd: RawFd, option: libc::c_int) -> io::Result<libc::c_int> {
    let mut value: libc::c_int = 0;
    let mut length = mem::size_of::<libc::c_int>() as libc::socklen_t;
    // SAFETY: the option's value is an int, and `length` is the size of an int.
    check(unsafe {
        libc::getsockopt(
            fd,
            libc::SOL_SOCKET,
            option,
            ptr::addr_of_mut!(value).cast(),
            &mut length,
        )
    })?;
    Ok(value)
}

#[cfg(test)]
mod tests {
    use super::*;

    /// Creates a socket with an abstract name that the system chooses.
    fn abstract_socket() -> (UnixDatagram, Vec<u8>) {
        let socket = UnixDatagram::unbound().unwrap();
        // SAFETY: all fields of the address may be zero.
        let mut address: libc::sockaddr_un = unsafe { mem::zeroed() };
        address.sun_family = libc::AF_UNIX as libc::sa_family_t;
        let family = mem::size_of::<libc::sa_family_t>();
        let mut length = mem::size_of::<libc::sockaddr_un>() as libc::socklen_t;
        let pointer: *mut libc::sockaddr_un = &mut address;
        // SAFETY: the pointers point to the address, and no length exceeds its size.
        unsafe {
            check(libc::bind(
                socket.as_raw_fd(),
                pointer.cast(),
                family as libc::socklen_t,
            ))
            .unwrap();
            check(libc::getsockname(socket.as_raw_fd(), pointer.cast(), &mut length)).unwrap();
        }
        let name = &address.sun_path[1..length as usize - family];
        (socket, name.iter().map(|byte| *byte as u8).collect())
    }

    #[test]
    fn datagrams_reach_abstract_names() {
        let (socket, name) = abstract_socket();
        let at = [b"@", &name[..]].concat();
        let time = Duration::from_millis(10);
        send_datagram(OsStr::from_bytes(&at), b"hello", time).unwrap();
        let mut bytes = [0; 9];
        assert_eq!(socket.recv(&mut bytes).unwrap(), 5);
        assert_eq!(&bytes[..5], b"hello");
        send_datagram(OsStr::from_bytes(&[&at[..], &b"x"[..]].concat()), b"hello", time).unwrap_err();
        send_datagram(OsStr::new(&format!("@{}", "a".repeat(108))), b"hello", time).unwrap_err();
        // Nobody receives these datagrams, so in the end there is no room for another.
        let mut sent = std::iter::repeat_with(|| send_datagram(OsStr::from_bytes(&at), b"hello", time));
        assert!(sent.any(|sent| sent.is_err()));
    }
}
