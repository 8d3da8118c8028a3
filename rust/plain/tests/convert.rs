//! The converter of document 02, A6.

use plain::Spelling::{Decimal, Hexadecimal};
use plain::*;

/// Serials of both lengths in both spellings.
const SERIALS: [(&str, &str); 16] = [
    ("04A1B2C3", "3283263748"),
    ("04A1B2C3D4E5F6", "69495546249912580"),
    ("00000000", "0000000000"),
    ("00000000000000", "00000000000000000"),
    ("01000000", "0000000001"),
    ("00000001", "0016777216"),
    ("01000000000000", "00000000000000001"),
    ("00000000000001", "00281474976710656"),
    ("FF000000", "0000000255"),
    ("00FF0000", "0000065280"),
    ("0A0B0C0D", "0218893066"),
    ("01020304050607", "01976943448883713"),
    ("FEFFFFFF", "4294967294"),
    ("FFFFFFFF", "4294967295"),
    ("FEFFFFFFFFFFFF", "72057594037927934"),
    ("FFFFFFFFFFFFFF", "72057594037927935"),
];

const H_LINES: &[u8] = b"04A1B2C3;H;1250\n04A1B2C3D4E5F6;H;0\n";
const D_LINES: &[u8] = b"3283263748;D;1250\n69495546249912580;D;0\n";

/// A conversion into a buffer of this length, which a refusal must leave as it was, and else all behind the
/// output. The output, or line and number of the refusal.
fn into(wanted: Spelling, text: &[u8], length: usize) -> Result<Vec<u8>, (Option<usize>, u32)> {
    let before: Vec<u8> = (0..length).map(|i| 0x80 | i as u8).collect();
    let mut out = before.clone();
    match convert(wanted, text, &mut out) {
        Ok(n) => {
            assert_eq!(out[n..], before[n..], "{} bytes behind the output of {}", length - n, text.escape_ascii());
            out.truncate(n);
            Ok(out)
        }
        Err(e) => {
            assert_eq!(out, before, "{e:?}: {}", text.escape_ascii());
            Err((e.line, e.refusal.number()))
        }
    }
}

/// A conversion with room enough.
fn to(wanted: Spelling, text: &[u8]) -> Result<Vec<u8>, (Option<usize>, u32)> {
    into(wanted, text, 2 * text.len() + 100)
}

/// Both ways.
fn pair(h: &str, d: &str) {
    assert_eq!(to(Decimal, h.as_bytes()).as_deref(), Ok(d.as_bytes()), "{h}");
    assert_eq!(to(Hexadecimal, d.as_bytes()).as_deref(), Ok(h.as_bytes()), "{d}");
}

/// The first line is refused with this number, whichever spelling is wanted.
fn refused(text: &[u8], number: u32) {
    for wanted in [Hexadecimal, Decimal] {
        assert_eq!(to(wanted, text), Err((Some(1), number)), "{wanted:?}: {}", text.escape_ascii());
    }
}

#[test]
fn serials_in_both_spellings() {
    for (h, d) in SERIALS {
        pair(&format!("{h};H;1250\n"), &format!("{d};D;1250\n"));
    }
}

/// "the bytes in reversed order as a decimal number": byte i counts 256 to the power i.
#[test]
fn every_byte_at_every_place() {
    for (length, digits) in [(4, 10), (7, 17)] {
        for i in 0..length {
            for x in 0..=255u8 {
                let mut serial = vec![0; length];
                serial[i] = x;
                let h: String = serial.iter().map(|x| format!("{x:02X}")).collect();
                let number = x as u64 * 256u64.pow(i as u32);
                pair(&format!("{h};H;7\n"), &format!("{number:0digits$};D;7\n"));
            }
        }
    }
}

#[test]
fn whole_files() {
    assert_eq!(to(Decimal, H_LINES).as_deref(), Ok(D_LINES));
    assert_eq!(to(Hexadecimal, D_LINES).as_deref(), Ok(H_LINES));
    let h: String = SERIALS.iter().zip(0..).map(|((h, _), i)| format!("{h};H;{i}\n")).collect();
    let d: String = SERIALS.iter().zip(0..).map(|((_, d), i)| format!("{d};D;{i}\n")).collect();
    pair(&h, &d);
}

#[test]
fn no_larger_than_those_bytes_hold() {
    for serial in ["4294967296", "4294967297", "9999999999", "72057594037927936", "99999999999999999"] {
        refused(format!("{serial};D;1\n").as_bytes(), 21);
    }
}

/// "the amount copied"
#[test]
fn amounts() {
    for amount in ["0", "1", "9", "10", "100", "1250", "9999999", "10000000", "99999999"] {
        pair(&format!("04A1B2C3;H;{amount}\n"), &format!("3283263748;D;{amount}\n"));
    }
    for amount in ["", "00", "01", "000", "01250", "00000000", "123456789", "100000000", "+1", "-1", " 1", "1 ", "1.5", "A", "1\r", "1\0"] {
        refused(format!("04A1B2C3;H;{amount}\n").as_bytes(), 21);
        refused(format!("3283263748;D;{amount}\n").as_bytes(), 21);
    }
}

#[test]
fn lines_not_of_this_form() {
    let lines: [&[u8]; 22] = [
        b"\n",
        b"\r\n",
        b";;\n",
        b"04A1B2C3;H\n",
        b"04A1B2C3;H;1;\n",
        b"04A1B2C3;;1\n",
        b"04a1b2c3;H;1\n",
        b"04A1B2Cc;H;1\n",
        b"04A1B2CG;H;1\n",
        b"04A1B2C3;h;1\n",
        b"3283263748;d;1\n",
        b"04A1B2C3;HD;1\n",
        b"04A1B2C3;D;1\n",
        b"3283263748;H;1\n",
        b"04A1B2C;H;1\n",
        b"04A1B2C3D4;H;1\n",
        b"328326374;D;1\n",
        b"03283263748;D;1\n",
        b"6949554624991258;D;1\n",
        b"069495546249912580;D;1\n",
        b"04A1B2C3;H;1250\r\n",
        b"04A1B2C3;H;1250\x80\n",
    ];
    lines.iter().for_each(|line| refused(line, 21));
}

/// Ten bytes are for another stored form: "elsewhere, A6's converter included, give 21".
#[test]
fn serials_of_ten_bytes() {
    refused(b"04A1B2C3D4E5F6070809;H;1\n", 21);
}

#[test]
fn lengths_and_feeds() {
    let line = |front: &[u8], n: usize| [front, &vec![b'0'; n - front.len()], b"\n"].concat();
    for front in [&b""[..], b"04A1B2C3;H;1", b"3283263748;D;1", b";;;"] {
        refused(&line(front, 64), 21);
        refused(&line(front, 64)[..64], 21);
        refused(&line(front, 65), 20);
        refused(&line(front, 65)[..65], 20);
        refused(&line(front, 66), 20);
        refused(&line(front, 1000), 20);
    }
}

/// 24 is not asked of a last line without its feed, and no feed is added.
#[test]
fn last_line_without_its_feed() {
    refused(b"04A1B2C3;H;1250", 21);
    refused(b"3283263748;D;1250", 21);
    assert_eq!(to(Decimal, &H_LINES[..H_LINES.len() - 1]), Err((Some(2), 21)));
    assert_eq!(to(Hexadecimal, &D_LINES[..D_LINES.len() - 1]), Err((Some(2), 21)));
    assert_eq!(to(Decimal, &[H_LINES, b"\n"].concat()), Err((Some(3), 21)));
    assert_eq!(to(Decimal, &[H_LINES, b"0"].concat()), Err((Some(3), 21)));
}

#[test]
fn no_line() {
    for wanted in [Hexadecimal, Decimal] {
        assert_eq!(into(wanted, b"", 0), Ok(vec![]));
        assert_eq!(into(wanted, b"", 10), Ok(vec![]));
        assert_eq!(into(wanted, b"\n", 0), Err((Some(1), 21)));
    }
}

#[test]
fn already_in_the_wanted_spelling() {
    assert_eq!(to(Hexadecimal, H_LINES), Err((Some(1), 24)));
    assert_eq!(to(Decimal, D_LINES), Err((Some(1), 24)));
    assert_eq!(to(Decimal, &[H_LINES, D_LINES].concat()), Err((Some(3), 24)));
    assert_eq!(to(Hexadecimal, &[D_LINES, H_LINES].concat()), Err((Some(3), 24)));
    assert_eq!(to(Decimal, b"04A1B2C3;H;1\n3283263748;D;1\n04A1B2C3;H;1\n"), Err((Some(2), 24)));
}

/// "per line 20, 21, 24": each line here has the wanted letter.
#[test]
fn order_within_a_line() {
    let long = |good: &str| format!("{good}{}\n", "0".repeat(65 - good.len()));
    assert_eq!(to(Hexadecimal, long("04A1B2C3;H;1").as_bytes()), Err((Some(1), 20)));
    assert_eq!(to(Decimal, long("3283263748;D;1").as_bytes()), Err((Some(1), 20)));
    assert_eq!(to(Hexadecimal, b"04A1B2C3;H;01\n"), Err((Some(1), 21)));
    assert_eq!(to(Decimal, b"4294967296;D;1\n"), Err((Some(1), 21)));
    assert_eq!(to(Decimal, b"3283263748;D;1\r\n"), Err((Some(1), 21)));
}

/// "the lowest line decides"
#[test]
fn order_of_lines() {
    let (right, same, wrong, long) =
        (&b"04A1B2C3;H;1\n"[..], &b"3283263748;D;1\n"[..], &b"04A1B2C3;H;01\n"[..], [&[b'0'; 65], &b"\n"[..]].concat());
    for (first, number) in [(&long[..], 20), (wrong, 21), (same, 24)] {
        for second in [&long[..], wrong, same] {
            assert_eq!(to(Decimal, &[first, second].concat()), Err((Some(1), number)));
            assert_eq!(to(Decimal, &[right, first, right, second].concat()), Err((Some(2), number)));
        }
    }
}

/// 25: "output longer than the buffer"
#[test]
fn buffers_around_the_output() {
    for (wanted, text, output) in [(Decimal, H_LINES, D_LINES), (Hexadecimal, D_LINES, H_LINES)] {
        for length in 0..output.len() {
            assert_eq!(into(wanted, text, length), Err((None, 25)), "{length}");
        }
        for length in output.len()..output.len() + 70 {
            assert_eq!(into(wanted, text, length).as_deref(), Ok(output), "{length}");
        }
    }
}

/// "25 after all lines", however short the buffer.
#[test]
fn short_buffer_and_a_refused_line() {
    let long = [&[b';'; 65], &b"\n"[..]].concat();
    for (last, number) in [(&long[..], 20), (b"04A1B2C3;H;01\n", 21), (b"04A1B2C3;H;1", 21), (b"3283263748;D;1\n", 24)] {
        let text = [H_LINES, H_LINES, last].concat();
        for length in [0, 1, 17, 18, D_LINES.len(), 2 * D_LINES.len() - 1, 2 * D_LINES.len(), 200] {
            assert_eq!(into(Decimal, &text, length), Err((Some(5), number)), "{length}");
        }
    }
}

/// A conversion knows no store: a card may stand in the file twice.
#[test]
fn one_card_twice() {
    pair("04A1B2C3;H;1250\n04A1B2C3;H;1250\n04A1B2C3;H;99\n", "3283263748;D;1250\n3283263748;D;1250\n3283263748;D;99\n");
}

/// "There and back must give the file byte for byte", here with no byte of room to spare.
#[test]
fn there_and_back() {
    let h: String = (0..40_000u64).map(|i| long_or_short(i.wrapping_mul(0x9e37_79b9_7f4a_7c15) >> 8, i)).collect();
    let output = to(Decimal, h.as_bytes()).unwrap();
    assert_eq!(into(Hexadecimal, &output, h.len()).as_deref(), Ok(h.as_bytes()));
    let again = into(Decimal, h.as_bytes(), output.len()).unwrap();
    assert_eq!(again, output);
    assert_eq!(to(Decimal, format!("{h}00;H;0\n").as_bytes()), Err((Some(40_001), 21)));
}

fn long_or_short(serial: u64, i: u64) -> String {
    match i % 2 {
        0 => format!("{serial:014X};H;{i}\n"),
        _ => format!("{:08X};H;{i}\n", serial >> 24),
    }
}

#[test]
fn a_refusal_in_words() {
    let refusal = |wanted, text: &[u8]| convert(wanted, text, &mut [0; 17]).unwrap_err();
    assert_eq!(refusal(Hexadecimal, H_LINES), ConvertRefusal { line: Some(1), refusal: Refusal::SameSpelling });
    assert_eq!(refusal(Decimal, H_LINES), ConvertRefusal { line: None, refusal: Refusal::BufferShort });
    assert_eq!(refusal(Decimal, b"\n"), ConvertRefusal { line: Some(1), refusal: Refusal::BadLine });
    assert_eq!(refusal(Decimal, &[0; 65]), ConvertRefusal { line: Some(1), refusal: Refusal::LineTooLong });
}
