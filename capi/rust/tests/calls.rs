//! Each call, on a stream of one record that is abbreviated in no way, and on a broken one.
use bitstream::{assemble, check, first_difference, form_version, normal, report, same, show, Error, Event, Events, Input, LeftOut, Limits, Operand, RecordName, Standing, Text, Which, Writer};
use std::io::{BufReader, Read, Write};

/// A block with id 8 whose ids are 3 bits wide, and in it record 1 with the value `value`.
fn stream(value: u8) -> Vec<u8> {
    let mut bytes = b"DIAG\x21\x0c\0\0\x01\0\0\0\x0b\x02".to_vec();
    bytes.extend([value, 0]);
    bytes
}

#[test]
fn texts_and_comparison() {
    let (limits, whole, given) = (Limits::default(), LeftOut::default(), stream(30));
    let form = normal(&given, &limits, &whole).unwrap();
    assert_eq!(check(&given, &limits), Ok(()));
    assert_eq!(normal(&form, &limits, &whole), Ok(form.clone()));
    assert_eq!(same(&given, &form, &limits, &whole), Ok(true));
    assert_eq!(first_difference(&given, &form, &limits, &whole), Ok(None));
    assert!(show(&given, &limits, &whole).unwrap().starts_with(b"magic 44494147\nblock 8"));
    assert!(report(&given, &limits).unwrap().starts_with(b"magic 44494147 bits 128\n"));
    for size in [1, 2, 3, 7, 4095] {
        let mut text = BufReader::with_capacity(size, Text::normal(&given, &limits, &whole).unwrap());
        let mut read = Vec::new();
        text.read_to_end(&mut read).unwrap();
        assert_eq!(read, form);
    }
}

#[test]
fn listings() {
    let (limits, whole, given) = (Limits::default(), LeftOut::default(), stream(30));
    let listing = show(&given, &limits, &whole).unwrap();
    assert_eq!(assemble(&listing, &limits), normal(&given, &limits, &whole));
    let refused = Error::RefusedLine { reason: "BadLine", line: 2 };
    assert_eq!(assemble(b"magic 44494147\nblock\n", &limits), Err(refused));
    assert_eq!(refused.to_string(), "BadLine at line 2");
    assert_eq!(assemble(&listing, &Limits { bytes: 15, ..limits }), Err(Error::TooLong));
}

#[test]
fn differences_and_names() {
    let (limits, whole, given) = (Limits::default(), LeftOut::default(), stream(30));
    let difference = first_difference(&given, b"DIAG", &limits, &whole).unwrap().unwrap();
    assert_eq!((difference.first, difference.second), ((32, Standing::Block { id: 8 }), (32, Standing::End)));
    let left_out = LeftOut { blocks: &[8], ..whole };
    assert_eq!(first_difference(&given, b"DIAG", &limits, &left_out), Ok(None));
    let info = LeftOut { records: &[RecordName { block: 0, code: 1 }], ..whole };
    assert_eq!(same(&given, &given, &limits, &info), Err(Error::Names));
}

#[test]
fn definitions() {
    let given = b"DIAG\x21\x08\0\0\x01\0\0\0\x8e\x05\x46\x06";
    let mut events = Events::new(given, &Limits::default()).unwrap();
    assert_eq!(events.magic(), *b"DIAG");
    let Some(Ok(Event::Define { operands, first: 96, .. })) = events.nth(1) else { panic!() };
    assert_eq!(operands, [Operand::Literal(5), Operand::Array, Operand::Vbr(6)]);
}

#[test]
fn events_and_errors() {
    let (limits, given) = (Limits::default(), stream(30));
    let events: Vec<_> = Events::new(&given, &limits).unwrap().collect::<Result<_, _>>().unwrap();
    assert!(matches!(events[0], Event::Enter { id: 8, first: 32, .. }));
    assert!(matches!(events.last(), Some(Event::Leave { after: 128 })));
    let refused = Error::Refused { reason: "Truncated", bit: 0, input: Which::Only };
    assert_eq!(check(b"", &limits), Err(refused));
    assert_eq!(refused.to_string(), "Truncated at bit 0");
    let whole = LeftOut::default();
    for (one, two, text) in [(&b""[..], &given[..], "first: Truncated at bit 0"), (&given, b"DI", "second: Truncated at bit 0")] {
        assert_eq!(same(one, two, &limits, &whole).unwrap_err().to_string(), text);
        assert_eq!(first_difference(one, two, &limits, &whole).unwrap_err().to_string(), text);
    }
    let last = Events::new(&given[..12], &limits).unwrap().last();
    assert!(matches!(last, Some(Err(Error::Refused { .. }))));
    assert_eq!(check(&given, &Limits { depth: 256, ..limits }), Err(Error::Limits));
}

#[test]
fn writers() {
    let (limits, whole) = (Limits::default(), LeftOut::default());
    let mut writer = Writer::new(*b"DIAG", &limits).unwrap();
    assert_eq!(writer.record(1, &[30]), Err(Error::Unfit));
    assert_eq!([writer.enter(8), writer.record(1, &[28]), writer.leave(), writer.leave()], [Ok(()), Ok(()), Ok(()), Err(Error::Unfit)]);
    // The value of this stream is 28.
    let mut form = Vec::new();
    writer.finish().unwrap().read_to_end(&mut form).unwrap();
    assert_eq!(Ok(form), normal(&stream(30), &limits, &whole));
    let short = Limits { bytes: 4, ..limits };
    let mut writer = Writer::new(*b"DIAG", &short).unwrap();
    assert_eq!((writer.enter(8), writer.leave()), (Ok(()), Ok(())));
    assert_eq!(writer.finish().err(), Some(Error::TooLong));
    assert_eq!(Writer::new([0xDE, 0xC0, 0x17, 0x0B], &limits).err(), Some(Error::Unfit));
}

#[test]
fn pieces() {
    let (limits, whole, given) = (Limits::default(), LeftOut::default(), stream(30));
    for size in [1, 2, 3, 7, 4095] {
        let (mut input, mut form, mut listing) = (Input::new().unwrap(), Vec::new(), Vec::new());
        assert!(matches!(input.check(&limits), Err(Error::Refused { .. })));
        for piece in given.chunks(size) {
            input.write_all(piece).unwrap();
        }
        assert_eq!(input.check(&limits), Ok(()));
        input.normal(&limits, &whole).unwrap().read_to_end(&mut form).unwrap();
        assert_eq!(Ok(form), normal(&given, &limits, &whole));
        let (mut input, mut report) = (Input::new().unwrap(), Vec::new());
        std::io::copy(&mut &given[..], &mut input).unwrap();
        input.report(&limits).unwrap().read_to_end(&mut report).unwrap();
        assert_eq!(Ok(report), bitstream::report(&given, &limits));
        let mut input = Input::new().unwrap();
        std::io::copy(&mut &given[..], &mut input).unwrap();
        input.show(&limits, &whole).unwrap().read_to_end(&mut listing).unwrap();
        assert_eq!(Ok(listing), show(&given, &limits, &whole));
    }
}

/// The same of two inputs in pieces as of their bytes. They stay.
#[test]
fn comparison_of_pieces() {
    let (limits, whole) = (Limits::default(), LeftOut::default());
    let inputs = [stream(30), stream(31), b"DIAG".to_vec(), b"DI".to_vec(), Vec::new()];
    for (one, two) in inputs.iter().flat_map(|one| inputs.iter().map(move |two| (one, two))) {
        let (mut first, mut second) = (Input::new().unwrap(), Input::new().unwrap());
        one.chunks(3).for_each(|piece| first.feed(piece).unwrap());
        two.chunks(5).for_each(|piece| second.feed(piece).unwrap());
        for _ in 0..2 {
            assert_eq!(first.same(&mut second, &limits, &whole), same(one, two, &limits, &whole));
            assert_eq!(first.first_difference(&mut second, &limits, &whole), first_difference(one, two, &limits, &whole));
        }
    }
}

/// What owns a handle goes on in another thread, and is shown without what it holds.
#[test]
fn moved_to_a_thread() {
    let (limits, whole, given) = (Limits::default(), LeftOut::default(), stream(30));
    let (mut input, mut writer) = (Input::new().unwrap(), Writer::new(*b"DIAG", &limits).unwrap());
    let (events, text) = (Events::new(&given, &limits).unwrap(), Text::normal(&given, &limits, &whole).unwrap());
    input.feed(&given[..7]).unwrap();
    writer.enter(8).unwrap();
    let shown = format!("{input:?} {writer:?} {events:?} {text:?}");
    assert!(["Input(", "Writer(", "Events {", "Text("].iter().all(|name| shown.contains(name)), "{shown}");
    let read = |mut text: Text| text.read_to_end(&mut Vec::new()).unwrap();
    std::thread::scope(|scope| {
        let fed = scope.spawn(|| input.feed(&given[7..]).and_then(|()| input.normal(&limits, &whole)).map(read));
        let written = scope.spawn(|| writer.record(1, &[28]).and_then(|()| writer.leave()).and_then(|()| writer.finish()).map(read));
        let (told, taken) = (scope.spawn(|| events.count()), scope.spawn(|| read(text)));
        assert_eq!((fed.join().unwrap(), written.join().unwrap()), (Ok(16), Ok(16)));
        assert_eq!((told.join().unwrap(), taken.join().unwrap()), (3, 16));
    });
}

#[test]
fn plain_values() {
    assert_eq!(form_version(), 1);
    assert_eq!(Limits::default(), Limits { bytes: 1 << 30, depth: 64, values: 1 << 27, shapes_at_use: false });
    assert_ne!(Limits::default(), Limits { depth: 63, ..Limits::default() });
    let left_out = LeftOut { blocks: &[8], ..LeftOut::default() };
    assert_eq!(left_out, LeftOut { blocks: &[8, 9][..1], ..left_out });
    assert_ne!(left_out, LeftOut::default());
}

#[test]
fn events_of_pieces() {
    let (limits, given) = (Limits::default(), stream(30));
    for end in [given.len(), given.len() - 4, 2] {
        let whole: Result<Vec<_>, _> = Events::new(&given[..end], &limits).map(|events| events.collect());
        for size in [1, 2, 3, 7, 4095] {
            let mut input = Input::new().unwrap();
            for piece in given[..end].chunks(size) {
                input.feed(piece).unwrap();
            }
            let events = input.events(&limits);
            assert_eq!(events.map(|events| events.collect()), whole);
        }
    }
    let mut input = Input::new().unwrap();
    input.feed(&given).unwrap();
    assert_eq!(input.events(&limits).unwrap().magic(), *b"DIAG");
}
