//! Text as tokens: names and numbers, strings, and all else sign by sign. What is
//! read here has the comments of C.

/// The tokens of a text, without comments.
pub fn of(text: &str) -> Vec<String> {
    let text = without_comments(text);
    let mut tokens = Vec::new();
    let mut rest = text.as_str();
    while let Some(first) = rest.chars().next() {
        let size = match first {
            '"' => string_size(rest),
            _ if is_of_name(first) => rest.find(|c| !is_of_name(c)).unwrap_or(rest.len()),
            _ => first.len_utf8(),
        };
        if !first.is_whitespace() {
            tokens.push(rest[..size].to_string());
        }
        rest = &rest[size..];
    }
    tokens
}

fn is_of_name(c: char) -> bool {
    c.is_ascii_alphanumeric() || c == '_'
}

/// A string with its quotes, or all where it has no end.
fn string_size(text: &str) -> usize {
    let mut escaped = false;
    for (at, c) in text.char_indices().skip(1) {
        match c {
            '"' if !escaped => return at + 1,
            _ => escaped = c == '\\' && !escaped,
        }
    }
    text.len()
}

/// A space stands for each comment; a string has none.
fn without_comments(text: &str) -> String {
    let mut kept = String::new();
    let mut rest = text;
    while let Some(first) = rest.chars().next() {
        let size = if rest.starts_with("//") {
            rest.find('\n').unwrap_or(rest.len())
        } else if rest.starts_with("/*") {
            rest.find("*/").map_or(rest.len(), |at| at + 2)
        } else {
            let size = if first == '"' {
                string_size(rest)
            } else {
                first.len_utf8()
            };
            kept.push_str(&rest[..size]);
            rest = &rest[size..];
            continue;
        };
        kept.push(' ');
        rest = &rest[size..];
    }
    kept
}

/// Tokens that are read one after another.
pub struct Reader<'a> {
    tokens: &'a [String],
}

impl<'a> Reader<'a> {
    pub fn new(tokens: &'a [String]) -> Reader<'a> {
        Reader { tokens }
    }

    pub fn is_empty(&self) -> bool {
        self.tokens.is_empty()
    }

    /// The token that is so far ahead.
    pub fn ahead(&self, far: usize) -> &'a str {
        self.tokens.get(far).map_or("", String::as_str)
    }

    pub fn next(&mut self) -> &'a str {
        let first = self.ahead(0);
        self.skip(1);
        first
    }

    pub fn skip(&mut self, tokens: usize) {
        self.tokens = &self.tokens[tokens.min(self.tokens.len())..];
    }

    /// Goes past these words, where they are next.
    pub fn take(&mut self, words: &[&str]) -> bool {
        let there = (0..words.len()).all(|at| self.ahead(at) == words[at]);
        if there {
            self.skip(words.len());
        }
        there
    }

    pub fn expect(&mut self, word: &str) -> Result<(), String> {
        if self.take(&[word]) {
            return Ok(());
        }
        Err(format!("{word} is expected at {}", self.shown()))
    }

    /// A name or a number.
    pub fn name(&mut self) -> Result<String, String> {
        if self.ahead(0).starts_with(is_of_name) {
            return Ok(self.next().to_string());
        }
        Err(format!("a name is expected at {}", self.shown()))
    }

    /// What stands between a bracket, which is next, and the one that closes it.
    pub fn within(&mut self) -> Result<&'a [String], String> {
        let start = self.tokens;
        let mut depth = 0;
        for (at, token) in start.iter().enumerate() {
            match token.as_str() {
                "(" | "[" | "{" => depth += 1,
                ")" | "]" | "}" => depth -= 1,
                _ => {}
            }
            if depth == 0 {
                self.skip(at + 1);
                return Ok(&start[1.min(at)..at]);
            }
        }
        Err(format!("{} is not closed", self.shown()))
    }

    /// Nothing is left.
    pub fn end(&self) -> Result<(), String> {
        if self.is_empty() {
            return Ok(());
        }
        Err(format!("{} is not understood", self.shown()))
    }

    /// The next few tokens, for a message.
    fn shown(&self) -> String {
        let few = &self.tokens[..self.tokens.len().min(6)];
        format!("{:?}", few.join(" "))
    }
}

/// The parts between commas, of which the last may be empty; brackets are whole.
pub fn parts(tokens: &[String]) -> Vec<&[String]> {
    let (mut parts, mut depth, mut start) = (Vec::new(), 0, 0);
    for (at, token) in tokens.iter().enumerate() {
        match token.as_str() {
            "(" | "[" | "{" => depth += 1,
            ")" | "]" | "}" => depth -= 1,
            "," if depth == 0 => {
                parts.push(&tokens[start..at]);
                start = at + 1;
            }
            _ => {}
        }
    }
    if start < tokens.len() {
        parts.push(&tokens[start..]);
    }
    parts
}

#[cfg(test)]
mod tests {
    use super::*;

    fn joined(text: &str) -> String {
        of(text).join(" ")
    }

    #[test]
    fn comments_are_no_tokens() {
        assert_eq!(joined("a/* b */c // d\ne /* f"), "a c e");
        assert_eq!(
            joined("x \"// no /* comment\\\"\" y"),
            "x \"// no /* comment\\\"\" y"
        );
        assert_eq!(
            joined("&mut [u64; 4] λ ⌜N'⌝"),
            "& mut [ u64 ; 4 ] λ ⌜ N ' ⌝"
        );
    }

    #[test]
    fn brackets_are_whole() {
        let tokens = of("(a: [u64; 4], b(c, d),) rest");
        let mut reader = Reader::new(&tokens);
        let all = parts(reader.within().unwrap());
        let all: Vec<String> = all.iter().map(|part| part.join(" ")).collect();
        assert_eq!(all, ["a : [ u64 ; 4 ]", "b ( c , d )"]);
        assert_eq!(reader.ahead(0), "rest");
        assert!(Reader::new(&of("(a")).within().is_err());
    }
}
