//! What is written, and read again.

use board_440fx::{Board, Card, Error, Event, Width};

const STATEMENTS: &[&str] = &[
    "r b 000A0000",
    "f d FFFFFFF0",
    "w q 00001003 8877665544332211",
    "w b 000A0000 77 smm",
    "r w 000A0000 smm",
    "in b 0070",
    "out d 0CF8 80000058",
    "look f 000A0000",
    "look w 000A0000 smm",
    "ack",
    "pulse 1000000",
    "moment 2024-02-29T12:35:00",
    "wire 2 1",
    "irq 15 0",
    "bad 65535",
    "receive 41",
];

const NO_STATEMENTS: &[&str] = &[
    "",
    "r",
    "r b A0000",
    "r x 000A0000",
    "r b 000A0000 00",
    "r  b 000A0000",
    "w b 000A0000 177",
    "w b 000A0000 +7",
    "in b 70",
    "in b 0070 smm",
    "out q 0070 0000000100000000",
    "look x 000A0000",
    "ack 0",
    "pulse -1",
    "moment 2024-02-29 12:35:00",
    "moment 2024-02-29T12:35:0",
    "irq 1 2",
    "é",
];

#[test]
fn statements_are_read_and_written() {
    for statement in STATEMENTS {
        assert_eq!(statement.parse::<Event>().map(|event| event.to_string()), Ok(statement.to_string()));
    }
}

#[test]
fn what_is_no_statement_is_refused() {
    for statement in NO_STATEMENTS {
        assert_eq!(statement.parse::<Event>(), Err(Error::NoEvent), "{statement}");
    }
}

const WHY_NONE: &[(&str, &str)] = &[
    (
        "inb 0070",
        "a statement begins with f, r, w, in, out, look, ack, pulse, moment, wire, irq, bad, receive, not \"inb\"",
    ),
    ("r", "the width is missing"),
    ("r b", "the address is missing"),
    ("r x 000A0000", "the width is b, w, d or q, not \"x\""),
    ("in q 0070", "the width is b, w or d, not \"q\""),
    ("r b A0000", "the address is 8 hexadecimal digits, not \"A0000\""),
    ("in b 70", "the port is 4 hexadecimal digits, not \"70\""),
    ("r b 000A0000 00", "the word \"00\" is too many"),
    ("r b 000A0000 smm smm", "the word \"smm\" is too many"),
    ("in b 0070 smm", "the word \"smm\" is too many"),
    ("w b 000A0000 177", "a value of width b has 2 hexadecimal digits, not 3"),
    ("w b 000A0000 +7", "the value is hexadecimal digits, two for each byte, not \"+7\""),
    ("pulse 007", "the count is a decimal number up to 999999999, without a leading zero, not \"007\""),
    ("wire 256 1", "the device is a decimal number up to 255, without a leading zero, not \"256\""),
    ("moment 2024-02-29", "the moment is YYYY-MM-DDTHH:MM:SS, not \"2024-02-29\""),
    ("irq 1 2", "the level is 0 or 1, not \"2\""),
];

#[test]
fn what_is_no_statement_says_why() {
    for (statement, why) in WHY_NONE {
        let said = Event::parse(statement).map_err(|none| none.to_string());
        assert_eq!(said, Err(format!("{statement:?}: that is no event: {why}")));
    }
}

#[test]
fn an_answer_prints_with_its_event_and_what_denied_it() -> Result<(), Error> {
    let mut board = Board::builder().rom(&[0; 65536]).open()?;
    let denied = board.step(&Event::read(0xCC000, Width::Word))?;
    assert_eq!(denied.to_string(), "r w 000CC000 = FFFF abort 00.0.5B, denied by 00.0.5B (PAM2)");
    assert_eq!(denied.reply.to_string(), "FFFF abort 00.0.5B");
    assert_eq!(board.write_u8(0x1000, 0x5A)?.to_string(), "w b 00001000 5A = - dram:0 -");
    board.in_u16(0x21)?; // cut into two cycles
    assert_eq!(
        board.last().map(ToString::to_string).as_deref(),
        Some("in w 0021 = FF00 pic0 - abort none, denied by none")
    );
    Ok(())
}

/// The public calls of a file that may refuse and whose documentation does not say when.
fn without_errors(source: &str) -> Vec<String> {
    let mut documentation = String::new();
    let mut found = Vec::new();
    for (number, line) in source.lines().map(str::trim).enumerate() {
        if line.starts_with("///") || line.starts_with("#[") {
            documentation += line;
            continue;
        }
        let signature: String = source.lines().skip(number).take_while(|line| !line.trim().is_empty()).collect();
        let refuses = signature.split('{').next().map_or(false, |it| it.contains("-> Result<"));
        if line.starts_with("pub fn") && refuses && !documentation.contains("# Errors") {
            found.push(line.to_string());
        }
        documentation.clear();
    }
    found
}

#[test]
fn each_call_that_may_refuse_says_when() -> Result<(), std::io::Error> {
    for file in std::fs::read_dir(concat!(env!("CARGO_MANIFEST_DIR"), "/src"))? {
        let path = file?.path();
        let source = std::fs::read_to_string(&path)?;
        assert_eq!(without_errors(&source), Vec::<String>::new(), "{}", path.display());
    }
    Ok(())
}

#[test]
fn cards_are_read_and_written() {
    for card in ["2 vga", "3 plain m24 i6 m4", "9 plain i8 x11"] {
        assert_eq!(card.parse::<Card>().map(|card| card.to_string()), Ok(card.to_string()));
    }
    for card in ["", "2", "x vga", "2 VGA", "2 vga 24", "2 vga m", "2 vga é4", "2 vga  m4"] {
        assert_eq!(card.parse::<Card>(), Err(Error::BadCards), "{card}");
    }
}

#[test]
fn refusals_are_errors_with_a_text() {
    let error: Box<dyn std::error::Error> = Error::SerialFull.into();
    assert_eq!(error.to_string(), "COM1 can receive no byte: its queue is full, or loopback is on");
    assert_eq!(Error::SerialFull.status(), 24);
}
