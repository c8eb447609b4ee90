//! Agreement with openssl on where the items of accepted records stand.

use crate::hand::hex;
use second::record::read_signature_items;

const STORED: &str = include_str!("asn1parse.txt");

#[test]
fn items_stand_where_openssl_saw_them() {
    let mut records = 0;
    for line in STORED.lines().filter(|line| !line.starts_with('#')) {
        let (record, seen) = line.split_once(' ').expect("a record and its items");
        let (_, items) = read_signature_items(&hex(record)).expect("an accepted record");
        let read: Vec<String> = items
            .iter()
            .map(|item| {
                let header = item.content - item.tag;
                let length = item.end - item.content;
                format!("{}.{}.{header}.{length}", item.tag, item.depth)
            })
            .collect();
        assert_eq!(read.join(" "), seen, "{record}");
        records += 1;
    }
    assert_eq!(records, 500);
}
