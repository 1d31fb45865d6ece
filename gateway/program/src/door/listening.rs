//! Sockets that listen, and from where whoever comes to them may come.

use std::io;
use std::net::{IpAddr, SocketAddr, ToSocketAddrs};
use std::os::unix::io::{FromRawFd, OwnedFd, RawFd};

use hobbychair_tools::misuse::Misuse;
use tokio::net::{TcpListener, TcpSocket};

/// How many connections may wait to be accepted.
const BACKLOG: u32 = 4096;

/// A socket that listens at the first address of `host` that can be had. Brackets round an address of IPv6 are taken.
pub fn listen(host: &str, port: u16) -> io::Result<TcpListener> {
    bound(host, port)?.listen(BACKLOG)
}

/// An error where nobody could listen there now. Whoever listens there next isn't held up.
pub fn test_free(host: &str, port: u16) -> io::Result<()> {
    bound(host, port).map(drop)
}

fn bound(host: &str, port: u16) -> io::Result<TcpSocket> {
    let host = host.strip_prefix('[').and_then(|rest| rest.strip_suffix(']')).unwrap_or(host);
    let mut last = io::Error::new(io::ErrorKind::InvalidInput, "it is no address");
    for address in (host, port).to_socket_addrs()? {
        match bound_at(address) {
            Ok(socket) => return Ok(socket),
            Err(error) => last = error,
        }
    }
    Err(last)
}

fn bound_at(address: SocketAddr) -> io::Result<TcpSocket> {
    let socket = if address.is_ipv4() { TcpSocket::new_v4()? } else { TcpSocket::new_v6()? };
    // So that a gateway can begin again at once. A second one still finds the address in use.
    socket.set_reuseaddr(true)?;
    socket.bind(address)?;
    Ok(socket)
}

/// A socket that listens, and that the process which started this one shares by this number. An error where it is none.
pub fn shared(socket: RawFd) -> io::Result<TcpListener> {
    if !(is_listening(socket)?) {
        return Err(io::Error::new(io::ErrorKind::InvalidInput, format!("file {socket} doesn't listen")));
    }
    // SAFETY: the file is open, and whoever named it gave it to this process. Nothing else here knows of it.
    let listener = std::net::TcpListener::from(unsafe { OwnedFd::from_raw_fd(socket) });
    // SAFETY: the call touches no memory of this process.
    if unsafe { libc::fcntl(socket, libc::F_SETFD, libc::FD_CLOEXEC) } != 0 {
        return Err(io::Error::last_os_error());
    }
    listener.set_nonblocking(true)?;
    TcpListener::from_std(listener)
}

fn is_listening(socket: RawFd) -> io::Result<bool> {
    let (mut listens, mut size): (libc::c_int, libc::socklen_t) = (0, std::mem::size_of::<libc::c_int>() as u32);
    let (level, option) = (libc::SOL_SOCKET, libc::SO_ACCEPTCONN);
    // SAFETY: the call writes no more than `size` bytes to `listens`, and `size`.
    match unsafe { libc::getsockopt(socket, level, option, std::ptr::addr_of_mut!(listens).cast(), &mut size) } {
        0 => Ok(listens != 0),
        _ => Err(io::Error::last_os_error()),
    }
}

/// 127.0.0.0/8 and ::1, and the former as a socket of IPv6 sees it.
pub fn is_of_this_machine(address: IpAddr) -> bool {
    match address {
        IpAddr::V4(address) => address.is_loopback(),
        IpAddr::V6(address) => {
            address.is_loopback() || address.to_ipv4_mapped().is_some_and(|address| address.is_loopback())
        }
    }
}

/// Refuses the address `local` of `host` where others than this machine come to it. So nobody is served by an oversight where
/// nothing says who may come in.
pub fn test_near(host: &str, local: SocketAddr) -> Result<(), Misuse> {
    if is_of_this_machine(local.ip()) {
        return Ok(());
    }
    let why = "without --credentials only this machine is served, by an address of 127.0.0.0/8 or by ::1. \
               To serve everybody who can reach the gateway, say --open";
    Err(Misuse(format!("{host}: {why}")))
}

#[cfg(test)]
mod tests {
    use std::os::unix::io::AsRawFd;

    use tokio::net::TcpStream;

    use super::*;

    #[tokio::test]
    async fn a_socket_that_listens_can_be_shared_and_nothing_else() {
        use std::os::unix::io::IntoRawFd;
        let listener = std::net::TcpListener::bind("127.0.0.1:0").unwrap();
        let at = listener.local_addr().unwrap();
        let listener = shared(listener.into_raw_fd()).unwrap();
        let (connected, accepted) = tokio::join!(TcpStream::connect(at), listener.accept());
        assert_eq!(connected.unwrap().local_addr().unwrap(), accepted.unwrap().1);
        let bound = bound("127.0.0.1", 0).unwrap();
        let error = shared(bound.as_raw_fd()).unwrap_err();
        assert!(error.to_string().ends_with("doesn't listen"), "{error}");
        assert!(shared(0).is_err() && shared(-1).is_err());
    }

    #[tokio::test]
    async fn an_address_is_free_unless_somebody_listens_there() {
        let first = listen("127.0.0.1", 0).unwrap();
        let port = first.local_addr().unwrap().port();
        assert_eq!(test_free("127.0.0.1", port).unwrap_err().kind(), io::ErrorKind::AddrInUse);
        drop(first);
        let kept = bound("127.0.0.1", port).unwrap();
        assert!(test_free("127.0.0.1", port).is_ok() && listen("127.0.0.1", port).is_ok(), "a try holds nobody up");
        drop(kept);
    }
}
