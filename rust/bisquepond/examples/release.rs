//! Lets a bundle into release only if it is clean; of any other it says what holds it back.

use bisquepond::Layout;
use bisquepond::clean::{Bundle, Rule, SeriesRow, Verdict, check_bundle};
use bisquepond::literal::Objects;
use bisquepond::table::Strings;

/// A modern header whose large header is at `place`.
fn header(place: u8) -> [u8; 12] {
    [place, 0, 0, 0, 0, 0, 0, 0, 0, 0, 0, 0x20]
}

/// Two functions, with their large headers at these places in 98 bytes.
fn file(places: [u8; 2]) -> Vec<u8> {
    let mut file = places.map(header).concat();
    file.resize(98, 0);
    file
}

fn judge(name: &str, bundle: &Bundle) {
    match check_bundle(bundle) {
        Ok(Verdict::Clean) => println!("{name}: released"),
        Ok(broken) => println!("{name}: held back, {broken}"),
        Err(refusal) => println!("{name}: held back, it cannot even be read: {refusal}"),
    }
}

fn main() {
    let tidy = file([61, 24]);
    let bundle = Bundle {
        file: &tidy,
        layout: Layout::Modern12,
        start: 0,
        count: 2,
        // The identifiers "log" and "level", and the string "hi".
        strings: Strings {
            kinds: &[1 << 31 | 2, 1],
            small: &[3 << 24, 3 << 1 | 5 << 24, 8 << 1 | 2 << 24],
            overflow: &[],
            storage: b"loglevelhi",
        },
        string_count: 3,
        // { log: "hi", level: 1 }
        objects: Objects {
            keys: &[0x62, 0, 1],
            values: &[0x61, 2, 0x71, 1, 0, 0, 0],
        },
        series: &[SeriesRow::of_keys(0, 2), SeriesRow::of_values(0, 2)],
    };
    judge("as it was built", &bundle);

    let moved = file([60, 24]);
    judge(
        "a large header moved",
        &Bundle {
            file: &moved,
            ..bundle
        },
    );
    let kinds = Strings {
        kinds: &[1 << 31 | 2, 0, 1],
        ..bundle.strings
    };
    judge(
        "a kind run left empty",
        &Bundle {
            strings: kinds,
            ..bundle
        },
    );
    let sum = Strings {
        kinds: &[1 << 31 | 2],
        ..bundle.strings
    };
    judge(
        "a kind run lost",
        &Bundle {
            strings: sum,
            ..bundle
        },
    );
    let cut = Strings {
        storage: b"loglevelh",
        ..bundle.strings
    };
    judge(
        "the storage cut",
        &Bundle {
            strings: cut,
            ..bundle
        },
    );
    let empty = Objects {
        values: &[0x61, 2, 0x60, 0x71, 1, 0, 0, 0],
        ..bundle.objects
    };
    judge(
        "an empty tag",
        &Bundle {
            objects: empty,
            ..bundle
        },
    );
    let high = Objects {
        keys: &[0x62, 0, 3],
        ..bundle.objects
    };
    judge(
        "a key that is no string",
        &Bundle {
            objects: high,
            ..bundle
        },
    );
    judge(
        "the file cut",
        &Bundle {
            file: &tidy[..97],
            ..bundle
        },
    );

    println!("the rules, in their order:");
    for rule in Rule::ALL {
        println!("  {} {rule}", rule.number());
    }
}
