//! Lines of the lists of answers.

use crate::hex;

/// `TEXT A ENTRIES WORDS DIRECTORY` or `TEXT R NUMBER PLACE`.
#[derive(Clone, Debug, PartialEq)]
pub struct Vector {
    pub text: Vec<u8>,
    pub answer: Expected,
}

#[derive(Clone, Debug, PartialEq)]
pub enum Expected {
    Accepted { entries: usize, words: Vec<u64>, directory: Vec<u64> },
    Refused { number: u64, place: usize },
}

pub fn parse(line: &str) -> Result<Vector, String> {
    let fields: Vec<&str> = line.split(' ').collect();
    let number = |f: &str| f.parse::<usize>().map_err(|_| format!("`{f}` is no number"));
    match fields[..] {
        [text, "A", entries, words, directory] => Ok(Vector {
            text: hex::decode(text)?,
            answer: Expected::Accepted {
                entries: number(entries)?,
                words: hex::decode_words(words)?,
                directory: hex::decode_words(directory)?,
            },
        }),
        [text, "R", n, place] => Ok(Vector {
            text: hex::decode(text)?,
            answer: Expected::Refused { number: number(n)? as u64, place: number(place)? },
        }),
        _ => Err("no vector: `TEXT A ENTRIES WORDS DIRECTORY` or `TEXT R NUMBER PLACE`".to_string()),
    }
}

pub fn print(vector: &Vector) -> String {
    let text = hex::encode(&vector.text);
    match &vector.answer {
        Expected::Accepted { entries, words, directory } => {
            format!("{text} A {entries} {} {}", hex::encode_words(words), hex::encode_words(directory))
        }
        Expected::Refused { number, place } => format!("{text} R {number} {place}"),
    }
}

#[cfg(test)]
mod tests {
    use super::*;

    #[test]
    fn there_and_back() {
        for line in ["- R 5 0", "61 A 2 3c,0,1 a,3,a00000001,300000000"] {
            assert_eq!(print(&parse(line).unwrap()), line);
        }
        for bad in ["", "61", "61 A", "6 R 5 0", "61 R x 0", "61 R 5 0 ", "61 A 2 x 0"] {
            assert!(parse(bad).is_err(), "{bad}");
        }
    }
}
