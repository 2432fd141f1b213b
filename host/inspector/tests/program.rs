//! The program: what it prints, and how it ends.

use std::io::{BufRead, BufReader, Read, Write};
use std::net::TcpStream;
use std::process::{Child, Command, Output, Stdio};

const PANEL: &str = concat!(env!("CARGO_MANIFEST_DIR"), "/../../scenes/panel-small.scene");

fn inspect(words: &[&str]) -> Output {
    Command::new(env!("CARGO_BIN_EXE_inspect")).args(words).output().expect("the program")
}

/// A program that runs until the test ends.
struct Running(Child);

impl Drop for Running {
    fn drop(&mut self) {
        let _ = self.0.kill();
        let _ = self.0.wait();
    }
}

#[test]
fn it_says_how_it_is_called() {
    let help = inspect(&["--help"]);
    assert_eq!(help.status.code(), Some(0));
    assert!(help.stdout.starts_with(b"usage: inspect SCENE"));
}

#[test]
fn wrong_arguments_end_with_2() {
    for words in [
        &[][..],
        &["a", "b", "c"],
        &["--port"],
        &[PANEL, "--port", "65536"],
        &[PANEL, "--port", "x"],
        &[PANEL, "--mask"],
        &[PANEL, "--what"],
        &["no-such-file.scene"],
        &[PANEL, "--mask", "no-such-file.mask"],
    ] {
        let ended = inspect(words);
        assert_eq!(ended.status.code(), Some(2), "{words:?}");
        assert!(ended.stdout.is_empty() && !ended.stderr.is_empty(), "{words:?}");
    }
}

#[test]
fn it_prints_its_address_and_answers_there() {
    let mut command = Command::new(env!("CARGO_BIN_EXE_inspect"));
    let mut running = Running(command.args([PANEL, PANEL]).stdout(Stdio::piped()).spawn().expect("the program"));
    let mut line = String::new();
    BufReader::new(running.0.stdout.take().expect("its output")).read_line(&mut line).expect("a line");
    let address = line.trim_end().strip_prefix("http://").and_then(|rest| rest.strip_suffix('/')).expect("an address");
    assert!(address.starts_with("127.0.0.1:"), "{address}");
    let mut stream = TcpStream::connect(address).expect("a connection");
    stream.write_all(b"GET /scene.json?scene=1 HTTP/1.1\r\nHost: localhost\r\n\r\n").expect("a request");
    let mut answer = String::new();
    stream.read_to_string(&mut answer).expect("an answer");
    assert!(answer.starts_with("HTTP/1.1 200 OK\r\n") && answer.contains(r#""name":"panel-small.scene""#), "{answer}");
    let port = address.rsplit(':').next().expect("a port");
    assert_eq!(inspect(&[PANEL, "--port", port]).status.code(), Some(2), "a port that is taken");
}
