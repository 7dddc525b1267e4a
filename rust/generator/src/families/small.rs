//! All small things of a sort.

use super::Files;

/// Every two letters as a mark, in each situation.
pub fn marks() -> Files {
    let letters = b"RGCUMDLSrg\0\xFF";
    let before: [&[u8]; 5] = [
        b"",
        b"UM",
        b"RG\0\0\0\0",
        b"SC\0",
        b"UMRL\x04\0\x02\x01\x03\0",
    ];
    let after: [&[u8]; 4] = [b"", b"\x01", b"\x01\0\0\0\0", b"\0\x01\0\x02\0\x02\x01SC\0"];
    let mut files = Vec::new();
    for first in letters {
        for second in letters {
            for start in before {
                for end in after {
                    files.push([start, &[*first, *second], end].concat());
                }
            }
        }
    }
    files
}

/// Every file of one byte, and every one byte at an end.
pub fn tiny_files() -> Files {
    let mut files = vec![Vec::new()];
    for byte in 0..=255 {
        files.push(vec![byte]);
        files.push(vec![b'U', b'M', byte]);
        files.push(vec![b'S', b'C', byte]);
        files.push(vec![b'S', b'C', 0, byte]);
        files.push(vec![b'R', byte, 1, 0, 0, 0, b'S', b'C', 0]);
        files.push(vec![byte, b'M', b'S', b'C', 0]);
    }
    files
}

/// Every body of up to three small bytes, and many of four.
pub fn tiny_bodies() -> Files {
    let mut files = Vec::new();
    let all: Vec<u8> = (0..=12).collect();
    for length in 1..=3 {
        each_word(&all, length, &mut |word| add(&mut files, word));
    }
    let some = [0, 2, 3, 6, 7, 9, 11];
    each_word(&some, 4, &mut |word| add(&mut files, word));
    files
}

/// Every sequence of `length` bytes out of `letters`.
fn each_word(letters: &[u8], length: u32, visit: &mut dyn FnMut(&[u8])) {
    for which in 0..letters.len().pow(length) {
        let letter = |place| letters[which / letters.len().pow(place) % letters.len()];
        let word: Vec<u8> = (0..length).map(letter).collect();
        visit(&word);
    }
}

/// As a method's body, and as a rule's body after a good guard.
fn add(files: &mut Files, word: &[u8]) {
    let length = word.len() as u8;
    let method = [b"UMMD\0\x01\0", &[length, 0][..], word, b"SC\0"];
    files.push(method.concat());
    let rule = [b"UMRL", &[length + 2, 0, 2, 1][..], word, b"SC\0"];
    files.push(rule.concat());
}
