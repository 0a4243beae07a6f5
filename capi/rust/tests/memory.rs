//! Little memory is an error, and does not end the process. A test of its own, since the limit is that of the whole process.
use bitstream::{Error, Event, Events, Limits};

const ADDRESS_SPACE: i32 = 9;

extern "C" {
    fn setrlimit(resource: i32, limits: *const [u64; 2]) -> i32;
}

#[test]
fn little_memory() {
    // 24 bytes: an array of 2^27 values that take no bits.
    let given = b"BC\xc0\xde\x21\x0c\0\0\x03\0\0\0\x1a\x03\x4c\0\x41\x10\x04\x41\x02\0\0\0";
    // SAFETY: the call reads the two numbers.
    assert_eq!(unsafe { setrlimit(ADDRESS_SPACE, &[512 << 20; 2]) }, 0);
    let events: Vec<_> = Events::new(given, &Limits::default()).unwrap().collect();
    assert!(matches!(events[..], [Ok(Event::Enter { .. }), Ok(Event::Define { .. }), Err(Error::Memory)]));
}
