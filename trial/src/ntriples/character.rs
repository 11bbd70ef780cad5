//! The classes of characters in the grammar.

/// White space between the terms of a line: TAB and blank.
pub fn white_space(one: char) -> bool {
    matches!(one, '\t' | ' ')
}

/// What parts lines, alone or in runs.
pub fn eol(one: char) -> bool {
    matches!(one, '\r' | '\n')
}

/// `HEX ::= [0-9] | [A-F] | [a-f]`
pub fn hex(one: char) -> bool {
    matches!(one, '0'..='9' | 'A'..='F' | 'a'..='f')
}

pub fn pn_chars_base(one: char) -> bool {
    matches!(one,
        'A'..='Z'
        | 'a'..='z'
        | '\u{C0}'..='\u{D6}'
        | '\u{D8}'..='\u{F6}'
        | '\u{F8}'..='\u{2FF}'
        | '\u{370}'..='\u{37D}'
        | '\u{37F}'..='\u{1FFF}'
        | '\u{200C}'..='\u{200D}'
        | '\u{2070}'..='\u{218F}'
        | '\u{2C00}'..='\u{2FEF}'
        | '\u{3001}'..='\u{D7FF}'
        | '\u{F900}'..='\u{FDCF}'
        | '\u{FDF0}'..='\u{FFFD}'
        | '\u{10000}'..='\u{EFFFF}')
}

/// `PN_CHARS_U ::= PN_CHARS_BASE | '_' | ':'`
pub fn pn_chars_u(one: char) -> bool {
    pn_chars_base(one) || one == '_' || one == ':'
}

/// `PN_CHARS ::= PN_CHARS_U | '-' | [0-9] | #xB7 | [#x300-#x36F] | [#x203F-#x2040]`
pub fn pn_chars(one: char) -> bool {
    pn_chars_u(one)
        || matches!(one, '-' | '0'..='9' | '\u{B7}' | '\u{300}'..='\u{36F}' | '\u{203F}'..='\u{2040}')
}

/// N10: what an IRI may hold, raw or through a UCHAR.
pub fn in_iri(one: char) -> bool {
    !matches!(one, '\u{0}'..='\u{20}' | '<' | '>' | '"' | '{' | '}' | '|' | '^' | '`' | '\\')
}

/// What may stand raw in a string: `[^#x22#x5C#xA#xD]`.
pub fn in_string(one: char) -> bool {
    !matches!(one, '"' | '\\' | '\n' | '\r')
}

/// The character that a letter behind a backslash stands for: `ECHAR ::= '\' [tbnrf"'\]`.
pub fn echar(letter: char) -> Option<char> {
    match letter {
        't' => Some('\t'),
        'b' => Some('\u{8}'),
        'n' => Some('\n'),
        'r' => Some('\r'),
        'f' => Some('\u{C}'),
        '"' | '\'' | '\\' => Some(letter),
        _ => None,
    }
}
