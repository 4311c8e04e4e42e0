//! The debug section, and a bundle, on threads of 128 KiB where callees or large headers rise or there are none, and of 512
//! KiB where they do not. A thread that runs out of stack ends the test program, so that these tests fail loudly. How much is
//! taken, to the page, and that it is no more than 8 and 272 KiB, examples/stack.c measures in C.

use std::thread;

use bisquepond::Layout;
use bisquepond::clean::{Bundle, Rule, Verdict, check_bundle};
use bisquepond::debug::{DebugInfo, read_debug};
use bisquepond::literal::Objects;
use bisquepond::table::Strings;

fn sleb128(bytes: &mut Vec<u8>, mut value: i64) {
    loop {
        let byte = (value & 0x7F) as u8;
        value >>= 7;
        let last = (value == 0 && byte & 0x40 == 0) || (value == -1 && byte & 0x40 != 0);
        bytes.push(if last { byte } else { byte | 0x80 });
        if last {
            return;
        }
    }
}

/// A file whose section at byte 1 has one string and callees at these addresses, all named by it.
fn file(addresses: &[u32]) -> Vec<u8> {
    let mut callees = Vec::new();
    sleb128(&mut callees, addresses.len() as i64);
    for &address in addresses {
        sleb128(&mut callees, i64::from(address));
        sleb128(&mut callees, 0);
    }
    let end = callees.len() as u32;
    let mut file = vec![0];
    for word in [0, 0, 0, 0, 0, end, end + 2] {
        file.extend(u32::to_le_bytes(word));
    }
    file.extend(callees);
    file.extend(b"\x01x");
    file
}

fn on_a_stack_of(kib: usize, file: Vec<u8>, offset: u32) -> bisquepond::Result<DebugInfo> {
    let read = move || read_debug(&file, offset);
    thread::Builder::new()
        .stack_size(kib << 10)
        .spawn(read)
        .unwrap()
        .join()
        .unwrap()
}

#[test]
fn rising_callees() {
    let addresses: Vec<u32> = (0..1000).collect();
    let debug = on_a_stack_of(128, file(&addresses), 1).unwrap();
    assert_eq!(debug.callees.len(), 1000);
}

#[test]
fn no_section_and_a_cut_one() {
    assert_eq!(on_a_stack_of(128, vec![0; 3], 0).unwrap().callees.len(), 0);
    assert_eq!(on_a_stack_of(128, vec![0; 3], 1).unwrap_err().number, 3);
}

#[test]
fn falling_callees() {
    let addresses: Vec<u32> = (0..70_000).rev().collect();
    let debug = on_a_stack_of(512, file(&addresses), 1).unwrap();
    let read: Vec<u32> = debug
        .callees
        .iter()
        .map(|callee| callee.address())
        .collect();
    assert_eq!(read, (0..70_000).collect::<Vec<u32>>());
}

/// The greatest address is the one that no pass keeps.
#[test]
fn the_greatest_address_first() {
    let debug = on_a_stack_of(512, file(&[u32::MAX, 7, u32::MAX, 0]), 1).unwrap();
    let read: Vec<u32> = debug
        .callees
        .iter()
        .map(|callee| callee.address())
        .collect();
    assert_eq!(read, [0, 7, u32::MAX]);
}

/// A bundle of nothing but legacy functions, with their large headers in these places behind the table, one place being one
/// large header's length.
fn checked_on_a_stack_of(kib: usize, places: &[usize], moved: usize) -> Verdict {
    let mut file = vec![0; places.len() * (16 + 31)];
    for (i, place) in places.iter().enumerate() {
        let place = places.len() * 16 + place * 31 + if i == 0 { moved } else { 0 };
        let [a, b, c, d] = (place as u32).to_le_bytes();
        let header = &mut file[16 * i..][..16];
        (header[0], header[1], header[8], header[9], header[15]) = (a, b, c, d, 0x20);
    }
    let count = places.len() as u32;
    let check = move || {
        check_bundle(&Bundle {
            file: &file,
            layout: Layout::Legacy16,
            start: 0,
            count,
            strings: Strings {
                kinds: &[],
                small: &[],
                overflow: &[],
                storage: &[],
            },
            string_count: 0,
            objects: Objects {
                keys: &[],
                values: &[],
            },
            series: &[],
        })
    };
    let thread = thread::Builder::new().stack_size(kib << 10);
    thread.spawn(check).unwrap().join().unwrap().unwrap()
}

#[test]
fn rising_large_headers() {
    let places: Vec<usize> = (0..70_000).collect();
    assert_eq!(checked_on_a_stack_of(128, &places, 0), Verdict::Clean);
    assert_eq!(checked_on_a_stack_of(128, &[], 0), Verdict::Clean);
    let broken = checked_on_a_stack_of(512, &places, 1);
    let (rule, place) = (Rule::LargeHeaders, 0);
    assert_eq!(broken, Verdict::Broken { rule, place });
}

#[test]
fn falling_large_headers() {
    let places: Vec<usize> = (0..70_000).rev().collect();
    assert_eq!(checked_on_a_stack_of(512, &places, 0), Verdict::Clean);
}
