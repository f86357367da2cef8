//! Lists of processors: as their sets, or refused at their byte; and the set of each partition.

use jefkantu::{partition_sets, partition_sets_into, plan, read_list, write_list, write_list_into};
use jefkantu::{write_order, Build, Order, Set};

fn sample() -> Vec<u8> {
    write_order(&Order::of(4, [[2, 10, 10, 4], [1, 14, 13, 4], [1, 14, 13, 4]]).unwrap()).unwrap()
}

#[track_caller]
fn refused(text: impl AsRef<[u8]>) -> (u16, Option<u16>) {
    let refusal = read_list(text).expect_err("a refusal");
    (refusal.number, refusal.place)
}

#[test]
fn each_partition_has_its_set() {
    let (order, mut out) = (sample(), [Set(7); 4]);
    let build = plan(&order).unwrap();
    assert_eq!(partition_sets(&order, &build).unwrap(), [Set(0b11), Set(0b100)]);
    assert_eq!(partition_sets_into(&order, &build, &mut out), Ok(2));
    assert_eq!(out, [Set(0b11), Set(0b100), Set(7), Set(7)]);
    assert_eq!(out[..2].iter().map(Set::to_string).collect::<Vec<_>>(), ["0-1", "2"]);
}

#[test]
fn the_most_partitions() {
    let order = write_order(&Order::of(64, [[2, 10, 10, 10]; 32]).unwrap()).unwrap();
    let sets: Vec<_> = (0..Build::MOST_PARTITIONS).map(|i| Set(3 << (2 * i))).collect();
    assert_eq!(partition_sets(&order, &plan(&order).unwrap()), Ok(sets));
}

#[test]
fn sets_are_written_and_read_back() {
    for (set, list) in [
        (0, ""),
        (1, "0"),
        (1 << 63, "63"),
        (0b11, "0-1"),
        (0x8F, "0-3,7"),
        (0b11_0101, "0,2,4-5"),
        (3 << 62 | 0x600, "9-10,62-63"),
        (u64::MAX, "0-63"),
    ] {
        assert_eq!(write_list(Set(set)), list);
        assert_eq!(read_list(list), Ok(Set(set)));
        assert_eq!(read_list(list.as_bytes()), Ok(Set(set)));
    }
    assert_eq!(format!("{:>7}", Set(0x8F)), "  0-3,7");
}

#[test]
fn only_the_counted_front_changes() {
    let mut out = [0xA5; 8];
    assert_eq!(write_list_into(Set(0x8F), &mut out), Ok(5));
    assert_eq!(&out, b"0-3,7\xA5\xA5\xA5");
}

#[test]
fn lists_of_others_are_read() {
    for list in ["7,0-3", "3,2,1,0,7", "0-2,1-3,7,7-7", "0007,00-03", "0,1,2,3,7"] {
        assert_eq!(read_list(list), Ok(Set(0x8F)), "{list}");
    }
}

#[test]
fn longest_list_and_text() {
    let set = Set(0xB6DB_6DB6_DB6D_B6DB);
    assert_eq!(write_list(set).len(), Set::MOST_LIST_BYTES);
    assert_eq!(read_list(write_list(set)), Ok(set));
    let zeros = "0".repeat(Set::MOST_LIST_TEXT_BYTES);
    assert_eq!(read_list(&zeros), Ok(Set(1)));
    assert_eq!(refused(zeros.clone() + "0"), (65, None));
    assert_eq!(refused(zeros[1..].to_string() + ","), (60, Some(1_024)));
}

#[test]
fn nothing_is_tidied() {
    for after in [" ", "\n", "\r\n", "\0", ":2", "x", "\u{2013}", "\u{ff17}", "\u{a0}", ";"] {
        assert_eq!(refused(format!("0-3,7{after}")), (60, Some(5)), "{after:?}");
    }
    assert_eq!(refused("\u{feff}0-3,7"), (60, Some(0)));
    assert_eq!(refused(" 0-3,7"), (60, Some(0)));
    assert_eq!(refused(b"0,\xFF"), (60, Some(2)));
}

/// "the lowest place decides"
#[test]
fn the_lowest_place_decides() {
    assert_eq!(refused("1,0064"), (61, Some(2)));
    assert_eq!(refused("3-0,64,"), (62, Some(2)));
    assert_eq!(refused("64-0,"), (61, Some(0)));
    assert_eq!(refused("0,,3-0,64"), (60, Some(2)));
}

#[test]
fn a_set_has_its_processors() {
    let set = Set::of([7u64, 0, 1, 3, 2, 7]).unwrap();
    assert_eq!(set, Set(0x8F));
    assert_eq!(set.processors().collect::<Vec<_>>(), [0, 1, 2, 3, 7]);
    assert_eq!(Set::of(set.processors()), Ok(set));
    assert_eq!(Set(u64::MAX).processors().count(), 64);
    assert_eq!(Set::of::<u8>([]), Ok(Set::default()));
    assert!(set.has(7) && !set.has(6) && !set.has(63) && !set.has(64) && !set.has(71));
    assert!(!Set(u64::MAX).has(64) && !Set(u64::MAX).has(u32::MAX));
}
