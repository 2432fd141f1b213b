//! What the tests share: vectors, scenes, and a reader of JSON.
#![allow(dead_code)]

use std::fs;
use std::path::{Path, PathBuf};

use inspector::model::Model;
use scene::{Draw, Path as ScenePath, Scene, Scissor};

/// A file of the repository.
pub fn file(name: &str) -> Vec<u8> {
    fs::read(root().join(name)).unwrap_or_else(|error| panic!("{name}: {error}"))
}

fn root() -> PathBuf {
    Path::new(env!("CARGO_MANIFEST_DIR")).join("../..")
}

/// The scenes of the edge cases: the case's line, which has its number, code, draw and offset, and the file.
pub fn edge_cases() -> Vec<(String, Vec<u8>)> {
    let text = String::from_utf8(file("tests/vectors/edges.txt")).expect("a text");
    let case = |line: &str| {
        let number = line.split_whitespace().next().expect("a number");
        (line.to_string(), file(&format!("tests/vectors/draw/edge-{number}.scene")))
    };
    text.lines().map(case).collect()
}

/// Overlapping squares: red, half transparent green over it, and blue outside its scissor but for a column.
pub fn squares() -> Scene {
    let square =
        |color, from, to| Draw { color, path: ScenePath::new().rectangle(from, from, to, to), ..Draw::default() };
    let mut scene = Scene::new(8, 6, [10, 20, 30, 255]);
    let scissors = vec![Scissor { x: 4, y: 0, width: 1, height: 6 }];
    scene.draws = vec![
        square([1.0, 0.0, 0.0, 1.0], 0, 3),
        square([0.0, 1.0, 0.0, 0.5], 2, 5),
        Draw { scissoring: true, scissors, ..square([0.0, 0.0, 1.0, 1.0], 1, 5) },
    ];
    scene
}

/// A model of one scene without a mask.
pub fn model(scene: &[u8]) -> Model {
    Model::new(vec![("a scene".to_string(), scene.to_vec())], None)
}

/// A JSON value as it is read.
#[derive(Clone, Debug, PartialEq)]
pub enum Value {
    Null,
    Bool(bool),
    Number(i64),
    Text(String),
    List(Vec<Value>),
    Object(Vec<(String, Value)>),
}

impl Value {
    /// Reads a whole text, or panics where it is not well formed.
    pub fn read(text: &str) -> Value {
        let mut reader = Reader { text: text.as_bytes(), at: 0 };
        let value = reader.value();
        assert_eq!(reader.at, text.len(), "more behind a value");
        value
    }

    /// The value of a name, which must be there.
    pub fn at(&self, name: &str) -> &Value {
        match self {
            Value::Object(fields) => {
                &fields.iter().find(|(known, _)| known == name).unwrap_or_else(|| panic!("{name}")).1
            }
            other => panic!("{name} of {other:?}"),
        }
    }

    pub fn list(&self) -> &[Value] {
        match self {
            Value::List(values) => values,
            other => panic!("no list: {other:?}"),
        }
    }

    pub fn number(&self) -> i64 {
        match self {
            Value::Number(number) => *number,
            other => panic!("no number: {other:?}"),
        }
    }

    pub fn text(&self) -> &str {
        match self {
            Value::Text(text) => text,
            other => panic!("no text: {other:?}"),
        }
    }

    pub fn numbers(&self) -> Vec<i64> {
        self.list().iter().map(Value::number).collect()
    }
}

/// Reads the JSON that has no spaces and whole numbers only.
struct Reader<'a> {
    text: &'a [u8],
    at: usize,
}

impl Reader<'_> {
    fn next(&mut self) -> u8 {
        self.at += 1;
        self.text[self.at - 1]
    }

    fn take(&mut self, word: &str) {
        assert_eq!(&self.text[self.at..self.at + word.len()], word.as_bytes(), "at {}", self.at);
        self.at += word.len();
    }

    fn value(&mut self) -> Value {
        match self.text[self.at] {
            b'n' => {
                self.take("null");
                Value::Null
            }
            b't' => {
                self.take("true");
                Value::Bool(true)
            }
            b'f' => {
                self.take("false");
                Value::Bool(false)
            }
            b'"' => Value::Text(self.string()),
            b'[' => Value::List(self.items(b']', |reader| reader.value())),
            b'{' => Value::Object(self.items(b'}', |reader| {
                let name = reader.string();
                reader.take(":");
                (name, reader.value())
            })),
            _ => self.whole_number(),
        }
    }

    /// What stands in brackets, with commas between.
    fn items<T>(&mut self, end: u8, item: impl Fn(&mut Self) -> T) -> Vec<T> {
        self.at += 1;
        let mut items = Vec::new();
        if self.text[self.at] == end {
            self.at += 1;
            return items;
        }
        loop {
            items.push(item(self));
            match self.next() {
                b',' => {}
                other => {
                    assert_eq!(other, end, "at {}", self.at);
                    return items;
                }
            }
        }
    }

    fn whole_number(&mut self) -> Value {
        let rest = &self.text[self.at..];
        let length = rest.iter().take_while(|byte| matches!(byte, b'-' | b'0'..=b'9')).count();
        let digits = std::str::from_utf8(&rest[..length]).expect("digits");
        self.at += length;
        Value::Number(digits.parse().unwrap_or_else(|_| panic!("no value at {}", self.at)))
    }

    fn string(&mut self) -> String {
        self.take("\"");
        let mut bytes = Vec::new();
        loop {
            match self.next() {
                b'"' => return String::from_utf8(bytes).expect("a text"),
                b'\\' => self.escaped(&mut bytes),
                byte => {
                    assert!(byte >= b' ', "a control character in a text");
                    bytes.push(byte);
                }
            }
        }
    }

    fn escaped(&mut self, bytes: &mut Vec<u8>) {
        match self.next() {
            byte @ (b'"' | b'\\') => bytes.push(byte),
            b'u' => {
                let digits = std::str::from_utf8(&self.text[self.at..self.at + 4]).expect("digits");
                let code = u32::from_str_radix(digits, 16).expect("hex digits");
                self.at += 4;
                bytes.extend(char::from_u32(code).expect("a character").to_string().bytes());
            }
            other => panic!("\\{other}"),
        }
    }
}
