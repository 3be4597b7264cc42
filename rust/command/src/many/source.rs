//! Lines in chunks.

use std::io::{self, BufRead, BufReader, Read};

/// The bytes after which a chunk ends: few at first, so that a short list is shared too, and then more, so that taking one costs little.
const FIRST: usize = 64;
const LARGEST: usize = 4096;

/// A line of more bytes, with its end, is no table.
pub const LONGEST_LINE: usize = 65_536;

/// Whole lines. One that is too long has lost its rest, and is still too long.
pub struct Chunk {
    /// Its place among the chunks, from 0 on.
    pub index: usize,
    /// The number of its first line, from 1 on.
    pub first_line: u64,
    pub text: Vec<u8>,
}

pub struct Source {
    input: BufReader<Box<dyn Read + Send>>,
    index: usize,
    line: u64,
}

impl Source {
    pub fn new(input: Box<dyn Read + Send>) -> Source {
        Source { input: BufReader::with_capacity(65_536, input), index: 0, line: 1 }
    }

    /// The next chunk, or nothing at the end. A chunk also ends where the next line would have to be waited for.
    pub fn next(&mut self) -> io::Result<Option<Chunk>> {
        let mut chunk = Chunk { index: self.index, first_line: self.line, text: Vec::new() };
        let enough = LARGEST.min(FIRST * (1 + self.index / 4));
        while chunk.text.len() < enough {
            let length = self.input.by_ref().take(LONGEST_LINE as u64).read_until(b'\n', &mut chunk.text)?;
            if length == LONGEST_LINE && !chunk.text.ends_with(b"\n") {
                self.input.skip_until(b'\n')?;
                chunk.text.push(b'\n');
            }
            self.line += u64::from(length > 0);
            if length == 0 || self.input.buffer().is_empty() {
                break;
            }
        }
        self.index += 1;
        Ok(Some(chunk).filter(|chunk| !chunk.text.is_empty()))
    }
}

#[cfg(test)]
mod tests {
    use super::*;

    fn chunks(text: &str) -> Vec<Chunk> {
        let mut source = Source::new(Box::new(io::Cursor::new(text.to_string())));
        std::iter::from_fn(|| source.next().unwrap()).collect()
    }

    #[test]
    fn chunks_are_whole_lines_and_all_of_them() {
        let text: String = (0..100_000).map(|number| format!("line {number}\n")).collect::<String>() + "no end";
        let chunks = chunks(&text);
        let mut line = 1;
        for (index, chunk) in chunks.iter().enumerate() {
            assert_eq!((chunk.index, chunk.first_line), (index, line));
            assert!(chunk.text.ends_with(b"\n") || index == chunks.len() - 1);
            line += chunk.text.iter().filter(|&&byte| byte == b'\n').count() as u64;
        }
        assert_eq!(chunks.iter().flat_map(|chunk| chunk.text.clone()).collect::<Vec<u8>>(), text.as_bytes());
        assert!(chunks[0].text.len() < 80 && chunks.iter().any(|chunk| chunk.text.len() > 4000));
        assert!(self::chunks("").is_empty());
    }

    #[test]
    fn of_a_long_line_the_rest_is_skipped() {
        let lines = [65_534, 65_535, 65_536, 65_537, 1_000_000, 1].map(|length| "0".repeat(length));
        let chunks = chunks(&lines.join("\n"));
        let lengths = [65_535, 65_536, 65_537, 65_537, 65_537, 1];
        assert_eq!(chunks.iter().map(|chunk| chunk.text.len()).collect::<Vec<_>>(), lengths);
        assert_eq!(chunks.iter().map(|chunk| chunk.first_line).collect::<Vec<_>>(), [1, 2, 3, 4, 5, 6]);
    }
}
