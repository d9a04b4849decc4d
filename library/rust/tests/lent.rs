//! A store that the program has: nothing here needs the feature `alloc`.

use siljuvatt::numbers::{AREA_SIZE, STORE_SIZE};
use siljuvatt::{pieces, Bus, Fields, Format, Key, Refusal, Reply, Station};

const FIELDS: Fields = Fields::Standard {
    priority: 2,
    address: 22,
    side: 1,
};

#[test]
fn a_store_may_be_an_array() {
    let mut store = [0; STORE_SIZE];
    let mut station = Station::new(Format::Standard);
    let bus = Bus::B;
    for (slot, bus) in [Bus::A, bus].into_iter().enumerate() {
        let key = Key {
            bus,
            fields: FIELDS,
        };
        assert_eq!(station.open(key), Ok(slot));
    }
    let mut last = Reply::Filtered;
    for image in pieces(FIELDS, b"004127019").unwrap() {
        last = station.receive(&mut store, bus, &image).unwrap();
    }
    assert_eq!(
        last,
        Reply::Packet {
            length: 9,
            broke: false
        }
    );
    assert_eq!(station.read(&store, 1), Ok(&b"004127019"[..]));
    assert_eq!(store[AREA_SIZE..][..9], *b"004127019");
    assert_eq!(station.read(&store[1..], 1), Err(Refusal::Store));
}

// Both names come by a star: this is compiled only if the crate has no Store of its own without the feature.
#[cfg(not(feature = "alloc"))]
mod without_the_feature {
    mod own {
        pub struct Store;
    }

    use own::*;
    #[allow(unused_imports)]
    use siljuvatt::*;

    pub const STORE: Store = Store;
}

#[cfg(not(feature = "alloc"))]
#[test]
fn there_is_no_store_without_the_feature() {
    let own = core::any::type_name_of_val(&without_the_feature::STORE);
    assert!(own.ends_with("own::Store"));
}
