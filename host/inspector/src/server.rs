//! The server: connections on 127.0.0.1, each a thread, each one request of bounded size and time.

use std::io::{self, ErrorKind, Read, Write};
use std::net::{Ipv4Addr, Shutdown, SocketAddr, TcpListener, TcpStream};
use std::sync::atomic::{AtomicUsize, Ordering};
use std::sync::Arc;
use std::thread;
use std::time::{Duration, Instant};

use crate::model::Model;
use crate::pages::{self, Page};
use crate::request::{self, Status};

/// The bytes that a request's first line may have.
pub const MAX_LINE: usize = 2_048;
/// The bytes that a request's lines may have together.
pub const MAX_HEAD: usize = 16_384;
/// How long a request may take to come.
pub const PATIENCE: Duration = Duration::from_secs(5);
/// How many connections are answered at a time.
const MAX_CONNECTIONS: usize = 32;
/// What is read, and not looked at, of a request that is too long, so that its sender gets to the answer.
const MAX_IGNORED: usize = 4_194_304;

/// What is said with every answer: the page takes nothing from elsewhere, and nothing elsewhere takes from it.
const POLICY: &str = "Cache-Control: no-store\r\n\
    X-Content-Type-Options: nosniff\r\n\
    Cross-Origin-Resource-Policy: same-origin\r\n\
    Content-Security-Policy: default-src 'none'; script-src 'self'; style-src 'self'; connect-src 'self'; img-src data:\r\n\
    Connection: close\r\n";

/// A server that has its address.
#[derive(Debug)]
pub struct Server {
    listener: TcpListener,
    model: Arc<Model>,
}

impl Server {
    /// A server on a port of 127.0.0.1; 0 is any free one.
    pub fn bind(model: Model, port: u16) -> io::Result<Server> {
        let listener = TcpListener::bind((Ipv4Addr::LOCALHOST, port))?;
        Ok(Server { listener, model: Arc::new(model) })
    }

    /// Where it is.
    pub fn address(&self) -> io::Result<SocketAddr> {
        self.listener.local_addr()
    }

    /// Answers requests for ever.
    pub fn run(self) {
        let open = Arc::new(AtomicUsize::new(0));
        for connection in self.listener.incoming() {
            match connection {
                Ok(stream) => self.begin(stream, &open),
                // Such as too many open files: it passes.
                Err(_) => thread::sleep(Duration::from_millis(50)),
            }
        }
    }

    /// Answers a connection in a thread of its own. One that fails to be answered is given up.
    fn begin(&self, stream: TcpStream, open: &Arc<AtomicUsize>) {
        let counted = Counted::new(open);
        let busy = counted.number > MAX_CONNECTIONS;
        let model = Arc::clone(&self.model);
        let work = move || {
            let _counted = counted;
            let _ = serve(stream, &model, busy);
        };
        let _ = thread::Builder::new().spawn(work);
    }
}

/// A connection among those that are open.
struct Counted {
    open: Arc<AtomicUsize>,
    number: usize,
}

impl Counted {
    fn new(open: &Arc<AtomicUsize>) -> Counted {
        Counted { open: Arc::clone(open), number: 1 + open.fetch_add(1, Ordering::SeqCst) }
    }
}

impl Drop for Counted {
    fn drop(&mut self) {
        self.open.fetch_sub(1, Ordering::SeqCst);
    }
}

/// Reads a request and answers it.
fn serve(mut stream: TcpStream, model: &Model, busy: bool) -> io::Result<()> {
    stream.set_write_timeout(Some(PATIENCE))?;
    let request = if busy { Err(Status::Busy) } else { read_head(&mut stream).and_then(|head| request::parse(&head)) };
    let page = request.and_then(|request| pages::answer(model, &request)).unwrap_or_else(Page::of_status);
    stream.write_all(&response(&page))?;
    stream.shutdown(Shutdown::Write)?;
    ignore_rest(&mut stream)
}

/// The bytes of an answer.
fn response(page: &Page) -> Vec<u8> {
    let allow = if page.status == Status::MethodNotAllowed { "Allow: GET\r\n" } else { "" };
    let (status, kind, length) = (page.status.line(), page.kind, page.body.len());
    let head = format!("HTTP/1.1 {status}\r\nContent-Type: {kind}\r\nContent-Length: {length}\r\n{allow}{POLICY}\r\n");
    [head.as_bytes(), &page.body].concat()
}

/// The lines of a request up to its empty one.
fn read_head(stream: &mut TcpStream) -> Result<Vec<u8>, Status> {
    let start = Instant::now();
    let mut head = Vec::new();
    loop {
        if let Some(end) = head.windows(4).position(|bytes| bytes == b"\r\n\r\n") {
            head.truncate(end);
            return check_line(&head).map(|()| head);
        }
        check_line(&head)?;
        if head.len() > MAX_HEAD {
            return Err(Status::HeadTooLong);
        }
        let left = PATIENCE.checked_sub(start.elapsed()).ok_or(Status::Timeout)?;
        head.extend(read_some(stream, left)?);
    }
}

/// Whether the first line, as far as it has come, is short enough.
fn check_line(head: &[u8]) -> Result<(), Status> {
    let line = head.iter().position(|&byte| byte == b'\n').unwrap_or(head.len());
    if line > MAX_LINE {
        Err(Status::LineTooLong)
    } else {
        Ok(())
    }
}

/// The next bytes, of which there must be some.
fn read_some(stream: &mut TcpStream, patience: Duration) -> Result<Vec<u8>, Status> {
    let wait = patience.max(Duration::from_millis(1));
    stream.set_read_timeout(Some(wait)).map_err(|_| Status::BadRequest)?;
    let mut bytes = vec![0; 1_024];
    match stream.read(&mut bytes) {
        Ok(0) => Err(Status::BadRequest),
        Ok(count) => {
            bytes.truncate(count);
            Ok(bytes)
        }
        Err(error) if error.kind() == ErrorKind::Interrupted => Ok(Vec::new()),
        Err(error) if matches!(error.kind(), ErrorKind::WouldBlock | ErrorKind::TimedOut) => Err(Status::Timeout),
        Err(_) => Err(Status::BadRequest),
    }
}

/// Reads what still comes, within limits: closing before it would take the answer away from its reader.
fn ignore_rest(stream: &mut TcpStream) -> io::Result<()> {
    stream.set_read_timeout(Some(Duration::from_secs(1)))?;
    let end = Instant::now() + PATIENCE;
    let mut ignored = 0;
    let mut bytes = [0; 16_384];
    while ignored < MAX_IGNORED && Instant::now() < end {
        match stream.read(&mut bytes)? {
            0 => break,
            count => ignored += count,
        }
    }
    Ok(())
}
