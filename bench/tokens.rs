// The tokens of a model text in plain Rust: lines, comments, and pieces by the longest match, without meaning. It is what
// any reader of the language does first, so the time of a whole parse is set beside it.
use std::io::{self, Read};

fn is_part(c: u8) -> bool { c.is_ascii_alphanumeric() || c == b'_' }

fn pieces(line: &[u8]) -> Vec<&[u8]> {
    let code = line.split(|c| *c == b'#').next().unwrap();
    let (mut list, mut i) = (Vec::new(), 0);
    while i < code.len() {
        let from = i;
        i += 1;
        match code[from] {
            b' ' | b'\t' => continue,
            c if is_part(c) => {
                while i < code.len() && (is_part(code[i]) || (code[i] == b'.' && code[from..i].iter().all(u8::is_ascii_digit)
                    && code.get(i + 1).is_some_and(u8::is_ascii_digit))) { i += 1; }
            }
            c => {
                let next = code.get(i).copied().unwrap_or(0);
                if (next == b'=' && b"<>=!".contains(&c)) || (next == c && (c == b'<' || c == b'>')) { i += 1; }
            }
        }
        list.push(&code[from..i]);
    }
    list
}

fn main() -> io::Result<()> {
    let mut text = Vec::new();
    io::stdin().read_to_end(&mut text)?;
    let lines: Vec<Vec<&[u8]>> = text.split(|c| *c == b'\n').map(pieces).collect();
    let (count, bytes) = lines.iter().flatten().fold((0, 0), |(n, b), piece| (n + 1, b + piece.len()));
    println!("{count} {bytes}");
    Ok(())
}
