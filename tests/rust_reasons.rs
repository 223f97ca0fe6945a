//! Executes the statements of standard input, which end with a byte 255 each, and writes of each whether it was refused, its reasons behind
//! a byte 254 each, and a byte 255: no text in UTF-8 has these bytes.
use sqlkeep::{Error, Session};
use std::io::{stdin, stdout, Read, Write};

fn main() {
    let (mut texts, mut told) = (Vec::new(), Vec::new());
    stdin().read_to_end(&mut texts).unwrap();
    let mut session = Session::open().unwrap();
    for text in texts.strip_suffix(&[0xff]).unwrap().split(|&byte| byte == 0xff) {
        match session.execute(std::str::from_utf8(text).unwrap(), ()) {
            Ok(_) | Err(Error::Rows { .. }) => told.extend(b"accepted"),
            Err(Error::Refused(refusal)) => {
                told.extend(b"refused");
                refusal.reasons.iter().for_each(|reason| told.extend([&[0xfe], reason.as_bytes()].concat()));
            }
            Err(other) => panic!("{other}"),
        }
        told.push(0xff);
    }
    stdout().write_all(&told).unwrap();
}
