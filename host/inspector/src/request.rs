//! The head of an HTTP request, taken apart; any bytes are answered.

/// What a request is answered with.
#[derive(Clone, Copy, Debug, PartialEq, Eq)]
pub enum Status {
    /// As asked.
    Ok,
    /// No request, or a number in it is none.
    BadRequest,
    /// Asked by another name than this machine's own, as a page from elsewhere would.
    Forbidden,
    /// There is no such page.
    NotFound,
    /// Something else than GET.
    MethodNotAllowed,
    /// It did not come to its end in time.
    Timeout,
    /// Its first line is too long.
    LineTooLong,
    /// Its lines are too long together.
    HeadTooLong,
    /// Too many are being answered.
    Busy,
}

impl Status {
    /// The number and the words of the status line.
    pub fn line(self) -> &'static str {
        match self {
            Status::Ok => "200 OK",
            Status::BadRequest => "400 Bad Request",
            Status::Forbidden => "403 Forbidden",
            Status::NotFound => "404 Not Found",
            Status::MethodNotAllowed => "405 Method Not Allowed",
            Status::Timeout => "408 Request Timeout",
            Status::LineTooLong => "414 URI Too Long",
            Status::HeadTooLong => "431 Request Header Fields Too Large",
            Status::Busy => "503 Service Unavailable",
        }
    }
}

/// What is asked: a path, and what follows its question mark.
#[derive(Clone, Debug, PartialEq, Eq)]
pub struct Request {
    /// From the slash on.
    pub path: String,
    fields: Vec<(String, String)>,
}

/// The request in a head, which ends with an empty line.
pub fn parse(head: &[u8]) -> Result<Request, Status> {
    let text = std::str::from_utf8(head).map_err(|_| Status::BadRequest)?;
    let mut lines = text.split("\r\n");
    let words: Vec<&str> = lines.next().unwrap_or_default().split(' ').collect();
    let (method, target) = match words[..] {
        [method, target, "HTTP/1.1" | "HTTP/1.0"] => (method, target),
        _ => return Err(Status::BadRequest),
    };
    if method.is_empty() || !method.bytes().all(|byte| byte.is_ascii_uppercase()) {
        return Err(Status::BadRequest);
    }
    if method != "GET" {
        return Err(Status::MethodNotAllowed);
    }
    if !lines.all(is_local) {
        return Err(Status::Forbidden);
    }
    Request::to(target)
}

/// Whether a header line names this machine, if it says who is asked.
fn is_local(line: &str) -> bool {
    match line.split_once(':') {
        Some((name, host)) if name.eq_ignore_ascii_case("host") => {
            let host = host.trim();
            let name = host.split_once(':').map_or(host, |(name, _)| name);
            name == "127.0.0.1" || name.eq_ignore_ascii_case("localhost")
        }
        _ => true,
    }
}

impl Request {
    /// A request of a path with fields, `/path?name=value&name=value`.
    pub fn to(target: &str) -> Result<Request, Status> {
        if !target.starts_with('/') {
            return Err(Status::BadRequest);
        }
        let (path, query) = target.split_once('?').unwrap_or((target, ""));
        let fields = query.split('&').filter(|field| !field.is_empty()).map(|field| {
            let (name, value) = field.split_once('=').unwrap_or((field, ""));
            (name.to_string(), value.to_string())
        });
        Ok(Request { path: path.to_string(), fields: fields.collect() })
    }

    /// The first field of this name.
    fn field(&self, name: &str) -> Option<&str> {
        self.fields.iter().find(|(known, _)| known == name).map(|(_, value)| value.as_str())
    }

    /// A whole number from 0 on, which must be there.
    pub fn number(&self, name: &str) -> Result<usize, Status> {
        self.field(name).and_then(number).ok_or(Status::BadRequest)
    }

    /// Whole numbers with commas between them; none if the field is empty or missing.
    pub fn numbers(&self, name: &str) -> Result<Vec<usize>, Status> {
        match self.field(name) {
            None | Some("") => Ok(Vec::new()),
            Some(list) => list.split(',').map(number).collect::<Option<_>>().ok_or(Status::BadRequest),
        }
    }
}

/// A number of at most nine digits.
fn number(text: &str) -> Option<usize> {
    let digits = (1..=9).contains(&text.len()) && text.bytes().all(|byte| byte.is_ascii_digit());
    digits.then(|| text.parse().ok())?
}

#[cfg(test)]
mod tests {
    use super::*;

    fn status(head: &str) -> Status {
        parse(head.as_bytes()).err().unwrap_or(Status::Ok)
    }

    #[test]
    fn requests_of_every_kind() {
        assert_eq!(status("GET / HTTP/1.1\r\nHost: 127.0.0.1:80\r\n\r\n"), Status::Ok);
        assert_eq!(status("GET / HTTP/1.0\r\n\r\n"), Status::Ok);
        assert_eq!(status("GET / HTTP/1.1\r\nhOsT:LocalHost\r\n\r\n"), Status::Ok);
        assert_eq!(status("GET / HTTP/1.1\r\nHost: panel.example:80\r\n\r\n"), Status::Forbidden);
        assert_eq!(status("POST / HTTP/1.1\r\n\r\n"), Status::MethodNotAllowed);
        for wrong in
            ["", "\r\n\r\n", "GET\r\n\r\n", "GET /\r\n\r\n", "GET x HTTP/1.1\r\n\r\n", "get / HTTP/1.1\r\n\r\n"]
        {
            assert_eq!(status(wrong), Status::BadRequest, "{wrong:?}");
        }
        assert_eq!(parse(b"GET /\xFF HTTP/1.1\r\n\r\n"), Err(Status::BadRequest));
    }

    #[test]
    fn numbers_and_what_is_none() {
        let request =
            Request::to("/p?x=12&off=3,0,64&e=&x=9&minus=-1&long=1234567890&list=1,,2&bare").expect("a request");
        assert_eq!(request.path, "/p");
        assert_eq!(request.number("x"), Ok(12));
        assert_eq!(request.numbers("off"), Ok(vec![3, 0, 64]));
        assert_eq!(request.numbers("e"), Ok(Vec::new()));
        assert_eq!(request.numbers("none"), Ok(Vec::new()));
        for wrong in ["none", "e", "minus", "long", "off", "bare"] {
            assert_eq!(request.number(wrong), Err(Status::BadRequest), "{wrong}");
        }
        assert_eq!(request.numbers("list"), Err(Status::BadRequest));
    }
}
