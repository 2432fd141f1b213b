//! Numbers and letters in attribute values, as SVG divides them: by space, by a comma, or by nothing where none is
//! needed.

pub struct Scanner<'a> {
    rest: &'a str,
}

impl<'a> Scanner<'a> {
    pub fn new(text: &'a str) -> Scanner<'a> {
        Scanner { rest: text.trim_start() }
    }

    pub fn is_at_end(&self) -> bool {
        self.rest.is_empty()
    }

    /// What is not read yet.
    pub fn rest(&self) -> &'a str {
        self.rest
    }

    /// A letter if it is next; then it is taken, and space behind it.
    pub fn take(&mut self, letter: char) -> bool {
        match self.rest.strip_prefix(letter) {
            Some(rest) => {
                self.rest = rest.trim_start();
                true
            }
            None => false,
        }
    }

    /// The letter of a path's command, if one is next.
    pub fn command(&mut self) -> Option<char> {
        let letter = self.rest.chars().next().filter(char::is_ascii_alphabetic)?;
        self.take(letter);
        Some(letter)
    }

    /// The letters before an end, which is taken too.
    pub fn until(&mut self, end: char) -> Option<&'a str> {
        let (text, rest) = self.rest.split_once(end)?;
        self.rest = rest.trim_start();
        Some(text)
    }

    /// A comma between two things, and space.
    pub fn skip_comma(&mut self) {
        self.rest = self.rest.trim_start();
        self.take(',');
    }

    /// A finite number, and a comma or space behind it.
    pub fn number(&mut self) -> Option<f64> {
        let (number, rest) = self.rest.split_at(number_length(self.rest));
        let value = number.parse().ok().filter(|value: &f64| value.is_finite())?;
        self.rest = rest;
        self.skip_comma();
        Some(value)
    }

    /// All numbers that are next.
    pub fn numbers(&mut self) -> Vec<f64> {
        let mut numbers = Vec::new();
        while let Some(number) = self.number() {
            numbers.push(number);
        }
        numbers
    }
}

/// All numbers of a text, if it has nothing else.
pub fn all_numbers(text: &str) -> Option<Vec<f64>> {
    let mut scanner = Scanner::new(text);
    let numbers = scanner.numbers();
    scanner.is_at_end().then_some(numbers)
}

/// How many bytes at a text's start are a number: a sign, digits with a point among them, an exponent.
pub fn number_length(text: &str) -> usize {
    let bytes = text.as_bytes();
    let digits = |from: usize| bytes[from..].iter().take_while(|byte| byte.is_ascii_digit()).count();
    let sign = |from: usize| usize::from(matches!(bytes.get(from), Some(b'+' | b'-')));
    let start = sign(0);
    let whole = digits(start);
    let mut end = start + whole;
    let mut fraction = 0;
    if bytes.get(end) == Some(&b'.') {
        fraction = digits(end + 1);
        end += 1 + fraction;
    }
    if whole + fraction == 0 {
        return 0;
    }
    if matches!(bytes.get(end), Some(b'e' | b'E')) {
        let power = end + 1 + sign(end + 1);
        match digits(power.min(bytes.len())) {
            0 => {}
            count => end = power + count,
        }
    }
    end
}

#[cfg(test)]
mod tests {
    use super::*;

    #[test]
    fn numbers_need_no_space_between_them() {
        assert_eq!(all_numbers(" 1-2.5.5,+3e2 , 4e-1\n"), Some(vec![1.0, -2.5, 0.5, 300.0, 0.4]));
        assert_eq!(all_numbers(""), Some(vec![]));
        assert_eq!(all_numbers("1 px"), None);
        assert_eq!(all_numbers("1e999"), None);
        assert_eq!(number_length("1em"), 1);
        assert_eq!(number_length("5."), 2);
        assert_eq!([number_length("."), number_length("-"), number_length("e1"), number_length("")], [0; 4]);
    }
}
