//! A running server: requests of every kind, each answered.

mod support;

use std::io::{Read, Write};
use std::net::{Shutdown, SocketAddr, TcpStream};
use std::thread;

use inspector::server::{Server, MAX_HEAD, MAX_LINE};
use support::{model, squares, Value};

/// A server of a scene, for as long as the test runs.
fn server() -> SocketAddr {
    let server = Server::bind(model(&squares().bytes()), 0).expect("a port");
    let address = server.address().expect("an address");
    assert!(address.ip().is_loopback());
    thread::spawn(move || server.run());
    address
}

/// The answer to the bytes of a request, after which nothing is sent.
fn answer(address: SocketAddr, request: &[u8]) -> Vec<u8> {
    let mut stream = TcpStream::connect(address).expect("a connection");
    stream.write_all(request).expect("a request");
    stream.shutdown(Shutdown::Write).expect("an end");
    let mut answer = Vec::new();
    stream.read_to_end(&mut answer).expect("an answer");
    answer
}

/// The status, the head's lines and the body of an answer.
fn parts(answer: &[u8]) -> (u16, String, Vec<u8>) {
    let end = answer.windows(4).position(|bytes| bytes == b"\r\n\r\n").expect("a head");
    let head = String::from_utf8(answer[..end].to_vec()).expect("a text");
    let status = head.strip_prefix("HTTP/1.1 ").and_then(|rest| rest[..3].parse().ok()).expect("a status");
    (status, head, answer[end + 4..].to_vec())
}

fn status(address: SocketAddr, request: &[u8]) -> u16 {
    parts(&answer(address, request)).0
}

fn get(address: SocketAddr, target: &str) -> (u16, String, Vec<u8>) {
    parts(&answer(address, format!("GET {target} HTTP/1.1\r\nHost: {address}\r\n\r\n").as_bytes()))
}

#[test]
fn good_requests() {
    let address = server();
    for (target, kind) in [
        ("/", "text/html"),
        ("/app.js", "text/javascript"),
        ("/style.css", "text/css"),
        ("/scene.json?scene=0", "application/json"),
        ("/edges.json?scene=0&draw=2", "application/json"),
        ("/pixel.json?scene=0&x=1&y=2&off=0,1", "application/json"),
        ("/change.json", "application/json"),
        ("/picture?scene=0", "application/octet-stream"),
    ] {
        let (status, head, body) = get(address, target);
        assert_eq!(status, 200, "{target}");
        assert!(head.contains(&format!("\r\nContent-Type: {kind}")), "{target}: {head}");
        assert!(head.contains(&format!("\r\nContent-Length: {}\r\n", body.len())), "{target}: {head}");
        if kind == "application/json" {
            Value::read(std::str::from_utf8(&body).expect("a text"));
        }
    }
    assert_eq!(get(address, "/picture?scene=0").2.len(), 4 * 8 * 6);
}

#[test]
fn the_page_takes_nothing_from_elsewhere() {
    let address = server();
    for target in ["/", "/app.js", "/style.css"] {
        let text = String::from_utf8(get(address, target).2).expect("a text");
        assert!(!text.is_empty(), "{target}");
        assert!(!text.contains("http:") && !text.contains("https:") && !text.contains("url("), "{target}");
    }
    assert!(get(address, "/").1.contains("default-src 'none'"));
}

#[test]
fn unknown_paths_and_numbers() {
    let address = server();
    for target in
        ["/x", "/index.html", "/../Cargo.toml", "/etc/passwd", "//", "/%2e%2e/", "/favicon.ico", "/scene.json/"]
    {
        assert_eq!(get(address, target).0, 404, "{target}");
    }
    for target in ["/scene.json?scene=1", "/scene.json?scene=999999999", "/edges.json?scene=0&draw=3"] {
        assert_eq!(get(address, target).0, 404, "{target}");
    }
    for target in [
        "/scene.json",
        "/scene.json?scene=",
        "/scene.json?scene=-1",
        "/scene.json?scene=x",
        "/scene.json?scene=00000000000000000000000",
        "/picture?scene=0&off=1,",
        "/picture?scene=0&off=,",
        "/picture?scene=0&off=1;2",
        "/pixel.json?scene=0&x=1",
        "/pixel.json?scene=0&x=1&y=1.5",
        "/pixel.json?scene=0&x=99999999999999999999&y=0",
        "/edges.json?scene=0&draw=%31",
    ] {
        assert_eq!(get(address, target).0, 400, "{target}");
    }
    assert_eq!(get(address, "/pixel.json?scene=0&x=999999999&y=0&off=63,64,999999999").0, 200);
}

#[test]
fn other_methods() {
    let address = server();
    for method in ["POST", "HEAD", "PUT", "DELETE", "OPTIONS"] {
        let request = format!("{method} / HTTP/1.1\r\nHost: localhost\r\nContent-Length: 4\r\n\r\nbody");
        let (status, head, _) = parts(&answer(address, request.as_bytes()));
        assert_eq!(status, 405, "{method}");
        assert!(head.contains("\r\nAllow: GET\r\n"));
    }
}

#[test]
fn asked_by_another_name() {
    let address = server();
    assert_eq!(status(address, b"GET / HTTP/1.1\r\nHost: panel.example\r\n\r\n"), 403);
    assert_eq!(status(address, b"GET / HTTP/1.1\r\nHost: localhost:1\r\n\r\n"), 200);
    assert_eq!(status(address, b"GET / HTTP/1.0\r\n\r\n"), 200);
}

#[test]
fn too_long() {
    let address = server();
    let line = |length: usize| format!("GET /{} HTTP/1.1\r\n\r\n", "a".repeat(length));
    assert_eq!(status(address, line(MAX_LINE - 20).as_bytes()), 404);
    assert_eq!(status(address, line(MAX_LINE).as_bytes()), 414);
    assert_eq!(status(address, line(1_000_000).as_bytes()), 414);
    let head = format!("GET / HTTP/1.1\r\nCookie: {}\r\n\r\n", "a".repeat(2 * MAX_HEAD));
    assert_eq!(status(address, head.as_bytes()), 431);
}

/// Every beginning of a request, and bytes that are none.
#[test]
fn half_requests_and_other_bytes() {
    let address = server();
    let whole = b"GET / HTTP/1.1\r\nHost: localhost\r\n\r\n";
    for length in 0..whole.len() {
        assert_eq!(status(address, &whole[..length]), 400, "{length} bytes");
    }
    assert_eq!(status(address, whole), 200);
    for bytes in [
        &b"\0\0\0\0\r\n\r\n"[..],
        b"\r\n\r\n",
        b"GET\r\n\r\n",
        b"\xFF\xFE /\r\n\r\n",
        b"GET  / HTTP/1.1\r\n\r\n",
        b"GET / HTTP/2\r\n\r\n",
    ] {
        assert_eq!(status(address, bytes), 400, "{bytes:?}");
    }
}

/// A request that comes in pieces is answered; one that stops coming is given up, and holds up nobody.
#[test]
fn slow_requests() {
    let address = server();
    let mut silent = TcpStream::connect(address).expect("a connection");
    silent.write_all(b"GET /").expect("a piece");
    let mut stream = TcpStream::connect(address).expect("a connection");
    for piece in [&b"GET /sty"[..], b"le.css HTTP/1.1\r", b"\n\r", b"\n"] {
        stream.write_all(piece).expect("a piece");
        thread::sleep(std::time::Duration::from_millis(20));
    }
    stream.shutdown(Shutdown::Write).expect("an end");
    let mut answered = Vec::new();
    stream.read_to_end(&mut answered).expect("an answer");
    assert_eq!(parts(&answered).0, 200);
    let mut given_up = Vec::new();
    silent.read_to_end(&mut given_up).expect("an answer");
    assert_eq!(parts(&given_up).0, 408);
}
