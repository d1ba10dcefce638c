//! File names as both programs print them, whatever bytes they have: docs/DECISIONS.md, "The two products", says which bytes stand as they are.

/// Is it a control character, a line or paragraph separator, or a direction control?
fn controls(c: char) -> bool {
    c.is_control() || matches!(c, '\u{61c}' | '\u{200e}' | '\u{200f}' | '\u{2028}'..='\u{202e}' | '\u{2066}'..='\u{2069}')
}

/// Bytes as \xHH each.
fn escaped(bytes: &[u8]) -> String {
    bytes.iter().map(|byte| format!("\\x{byte:02x}")).collect()
}

/// A name as it is printed.
pub fn shown(name: &[u8]) -> String {
    let character = |c: char| match c {
        '\\' => "\\\\".to_string(),
        c if controls(c) => escaped(c.to_string().as_bytes()),
        c => c.to_string(),
    };
    name.utf8_chunks().map(|chunk| chunk.valid().chars().map(character).collect::<String>() + &escaped(chunk.invalid())).collect()
}
