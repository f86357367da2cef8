//! The text of the order form: as it was typed, or refused at its line.

use jefkantu::{plan, read_order, read_text, read_text_into, write_order, write_text};
use jefkantu::{write_text_into, NotRead, Order};

const TEXT: &str = "2;0.10;0.10;0.04\n1;0.14;0.13;0.04\n1;0.14;0.13;0.04\n";

fn sample() -> Vec<u8> {
    write_order(&Order::of(4, [[2, 10, 10, 4], [1, 14, 13, 4], [1, 14, 13, 4]]).unwrap()).unwrap()
}

#[track_caller]
fn refused(text: impl AsRef<[u8]>) -> (u16, Option<u16>) {
    match read_text(4, text) {
        Err(NotRead::Refused(refusal)) => (refusal.number, refusal.place),
        other => panic!("{other:?}"),
    }
}

#[test]
fn text_is_read_and_written_back() {
    assert_eq!(read_text(4, TEXT).unwrap(), sample());
    assert_eq!(read_text(4u8, TEXT.as_bytes()).unwrap(), sample());
    assert_eq!(read_text(4i64, TEXT.to_string()).unwrap(), sample());
    assert_eq!(write_text(&sample()).unwrap(), TEXT);
    assert!(plan(&read_text(4, TEXT).unwrap()).is_ok());
}

#[test]
fn only_the_counted_front_changes() {
    let mut out = [0xA5; 40];
    assert_eq!(read_text_into(4, TEXT, &mut out), Ok(30));
    assert_eq!((&out[..30], &out[30..]), (&sample()[..], &[0xA5; 10][..]));
    let mut out = [0xA5; 60];
    assert_eq!(write_text_into(&sample(), &mut out), Ok(51));
    assert_eq!((&out[..51], &out[51..]), (TEXT.as_bytes(), &[0xA5; 9][..]));
}

#[test]
fn longest_text_is_written_and_read_back() {
    let order = write_order(&Order::of(64, [[64, 1_000_000, 1_000_000, 1_000_000]; 32]).unwrap());
    let order = order.unwrap();
    let text = write_text(&order).unwrap();
    assert_eq!(text, "64;10000.00;10000.00;10000.00\n".repeat(32));
    assert_eq!(text.len(), Order::MOST_TEXT_BYTES);
    assert_eq!(read_text(64, &text), Ok(order));
    assert_eq!(refused(text.clone() + "\n"), (52, None));
    assert_eq!(refused(text + "6"), (52, None));
}

/// "7,5 is 750 ticks and 0.01 is 1."
#[test]
fn times_are_as_typed() {
    for (typed, ticks) in
        [("7,5", 750), ("7.50", 750), ("75", 7_500), ("0.01", 1), ("0,1", 10), ("007,05", 705)]
    {
        let order = read_text(4, format!("1;{typed};{typed};{typed}\n")).unwrap();
        assert_eq!(read_order(&order), Ok(Order::of(4, [[1, ticks, ticks, ticks]]).unwrap()));
    }
}

#[test]
fn nothing_is_tidied() {
    for typed in [
        "7,5 ", "7,505", ",5", "7,", "+7", "7;5", "7,5\r", "", "É", "\u{ff17}", "7\u{a0}", "7'5",
        "7,5\0",
    ] {
        assert_eq!(refused(format!("1;75;75;75\n1;75;75;{typed}\n")), (50, Some(1)), "{typed:?}");
    }
    assert_eq!(refused("1;75;75;75"), (50, Some(0)));
    assert_eq!(refused("\u{feff}1;75;75;75\n"), (50, Some(0)));
    assert_eq!(refused(b"1;75;75;7\xFF\n"), (50, Some(0)));
}

#[test]
fn a_number_is_judged_by_its_value() {
    let zeros = "0".repeat(1_000_000);
    assert!(read_text(4, format!("{zeros}1;{zeros}75;75;75\n")).is_ok());
    assert_eq!(refused(format!("1;1{zeros};75;75\n")), (51, Some(0)));
    assert_eq!(refused("1;10485.76;75;75\n"), (51, Some(0)));
    assert_eq!(refused("1;10485.75;75;75\n"), (8, Some(0)));
}

#[test]
fn no_line_is_no_task() {
    assert_eq!(refused(""), (4, None));
}
