//! The compiler warns of each answer that is left unused. It is expected to, so a missing warning is an error here.
#![deny(unfulfilled_lint_expectations)]

use siljuvatt::{id_of, pieces, version, Bus, Fields, Filter, Format, Master, Pieces};
use siljuvatt::{Refusal, Reply, Row, Silent, Station, Step, Watch, VERSION};

macro_rules! unused {
    ($($answer:expr;)*) => {
        $(
            #[expect(unused_must_use)]
            {
                $answer;
            }
        )*
    };
}

// What calls answer in a Result, taken out of it.
fn step() -> Step {
    Step::Done
}

fn reply() -> Reply {
    Reply::Filtered
}

fn silent() -> Silent {
    Silent { a: true, b: true }
}

fn split(fields: Fields) -> Pieces<'static> {
    pieces(fields, b"").unwrap()
}

#[test]
fn what_a_call_answers_is_not_left_unused() {
    let fields = Fields::Standard {
        priority: 2,
        address: 22,
        side: 1,
    };
    let (station, master, watch) = (Station::new(Format::Standard), Master::new(), Watch::new(0));
    let (filter, row) = (Filter { code: 0, mask: 0 }, Row([0; Row::SIZE]));
    unused! {
        step();
        reply();
        silent();
        split(fields);
        fields.format();
        Format::Standard.limit();
        Format::Standard.image_size();
        Bus::A.number();
        Bus::of_number(0);
        id_of(b"");
        filter.accepts(0);
        row.accepts(0);
        Refusal::Step.number();
        Refusal::Step.name();
        Refusal::Step.says();
        Station::new(Format::Standard);
        station.as_bytes();
        Master::new();
        master.as_bytes();
        Watch::new(0);
        watch.as_bytes();
        version();
        VERSION.number();
    }
}

#[cfg(feature = "alloc")]
#[test]
fn a_new_store_is_not_left_unused() {
    unused! {
        siljuvatt::Store::new();
    }
}
