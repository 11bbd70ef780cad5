//! Files in: as many bytes as are allowed, and never more in memory.

use std::fs::File;
use std::io::{self, Read};

/// The longest text, table or list that is read: more than any book needs.
pub const LONGEST: usize = 1 << 20;

/// A file that was read: its name for messages, and its bytes.
pub struct Source {
    pub name: String,
    pub bytes: Vec<u8>,
}

/// Reads a file, or standard input for `-`; an error is what to print.
pub fn read(file: &str) -> Result<Source, String> {
    let bytes = if file == "-" {
        up_to_longest(&mut io::stdin().lock())
    } else {
        File::open(file).and_then(|mut opened| up_to_longest(&mut opened))
    };
    let bytes = bytes.map_err(|why| format!("{file}: cannot be read: {why}\n"))?;
    if bytes.len() > LONGEST {
        return Err(format!("{file}: this is too long: at most 1 MiB (1,048,576 bytes) is read\n"));
    }
    Ok(Source { name: file.to_string(), bytes })
}

/// One byte more than is allowed tells that there are too many.
fn up_to_longest(from: &mut dyn Read) -> io::Result<Vec<u8>> {
    let mut bytes = Vec::new();
    from.take(LONGEST as u64 + 1).read_to_end(&mut bytes)?;
    Ok(bytes)
}

#[cfg(test)]
mod tests {
    use super::*;

    #[test]
    fn no_more_is_read_than_allowed() {
        assert_eq!(up_to_longest(&mut io::repeat(b'a')).unwrap().len(), LONGEST + 1);
        assert_eq!(up_to_longest(&mut &b"lamp"[..]).unwrap(), b"lamp");
    }
}
