//! Bytes as commented hexadecimal text: pairs of digits, blanks anywhere between digits, and `#` up to the end of its line.
//! The examples are written so, and a comparison shows the file of a difference so.

/// The bytes of a text, or what is wrong with it.
pub fn bytes(text: &str) -> Result<Vec<u8>, String> {
    let mut bytes = Vec::new();
    let mut first = None;
    for (row, line) in text.lines().enumerate() {
        let digits = line.split('#').next().unwrap_or("");
        for letter in digits.chars().filter(|letter| !letter.is_whitespace()) {
            let digit = letter.to_digit(16).ok_or_else(|| format!("line {}: {letter:?} is no hexadecimal digit", row + 1))? as u8;
            match first.take() {
                None => first = Some(digit),
                Some(high) => bytes.push(high << 4 | digit),
            }
        }
    }
    match first {
        None => Ok(bytes),
        Some(_) => Err("the last byte has one digit".into()),
    }
}

/// The text of some bytes, 32 in a line.
pub fn text(bytes: &[u8]) -> String {
    let mut text = String::new();
    for line in bytes.chunks(32) {
        let pairs: Vec<_> = line.iter().map(|byte| format!("{byte:02X}")).collect();
        text.push_str(&pairs.join(" "));
        text.push('\n');
    }
    text
}

#[cfg(test)]
mod tests {
    use super::*;

    #[test]
    fn comments_and_blanks() {
        assert_eq!(bytes("# a line\n02 000E # 33\n\n 4\n1"), Ok(vec![2, 0, 14, 0x41]));
    }

    #[test]
    fn what_is_no_text_of_bytes() {
        assert!(bytes("00 0").is_err());
        assert!(bytes("00 0x").is_err());
    }

    #[test]
    fn there_and_back() {
        let all: Vec<u8> = (0..=255).collect();
        assert_eq!(bytes(&text(&all)), Ok(all));
    }
}
