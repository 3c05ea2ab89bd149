//! The rights over a site (RULES 13.1 to 13.7): what is written by hand beside the stored inputs, laws over
//! them and over random ones, the wrong readings that the stored inputs must show, the random inputs, and how
//! a program is fed.

use super::SAMPLE;
use crate::image::load;
use crate::machine::{Fields, Machine, Mode};
use crate::random::Random;
use crate::rights::{parts, rights, text, Part, Rights};
use crate::run::LONGEST_INPUT;
use crate::sites::compare::{compare, printed, sizes};
use crate::sites::many::{self, sorts, Counts, ENOUGH_RUNS, SORTS};
use crate::sites::{all, listing};
use crate::write::{declaring, input, Plan};
use std::collections::BTreeSet;

fn random_inputs(seed: u64, runs: u64) -> impl Iterator<Item = Vec<u8>> {
    (0..runs).map(move |number| many::site(&mut Random::numbered(seed, number), number))
}

/// The stored inputs and random ones.
fn many_inputs() -> Vec<Vec<u8>> {
    all().into_iter().map(|case| case.input).chain(random_inputs(1, 1_000)).collect()
}

/// Those that are not too long.
fn taken() -> Vec<Vec<u8>> {
    many_inputs().into_iter().filter(|input| input.len() <= LONGEST_INPUT).collect()
}

fn loaded(input: &[u8]) -> Vec<Machine> {
    let images = parts(input).into_iter().filter_map(|part| match part {
        Part::Image(image) => load(image).ok(),
        Part::Cut(_) | Part::Leftover => None,
    });
    images.collect()
}

/// An image of one page and one program.
fn one_page(read: u16, write: u16) -> Vec<u8> {
    Plan { exponent: 5, pages: vec![(read, write)], programs: vec![(0xFFFF, 0xFFFF, 0)] }.image()
}

#[test]
fn the_sample_prints_what_the_documents_say() {
    let due = "0 1 0\n1 1 1\n2 1 1\n3 3 0\n4 0 0\n5 0 0\n6 0 0\n7 0 0\n8 0 0\n9 0 0\n10 0 0\n11 0 0\n12 0 0\n13 0 0\n\
               14 0 0\n15 0 0\ntotal 6 2\nrefused 0\n";
    let sample = [&[0x00, 0x2C], &SAMPLE[..]].concat();
    assert_eq!(text(&sample), due);
    let first = &all()[0];
    assert_eq!((&first.input, &first.due[..]), (&sample, due));
}

#[test]
fn the_text_is_what_is_written_beside_the_inputs() {
    let (mut inputs, mut purposes) = (BTreeSet::new(), BTreeSet::new());
    let mut numbers = BTreeSet::new();
    let cases = all();
    for (before, case) in cases.iter().enumerate() {
        let which = format!("case {}: {}", before + 1, case.purpose);
        assert_eq!(text(&case.input), case.due, "{which}");
        assert!(inputs.insert(&case.input), "{which}: its input stands twice");
        assert!(purposes.insert(&case.purpose), "{which}: its purpose stands twice");
        let parts = parts(&case.input);
        if let Some((number, _)) = case.purpose.split_once(": ").filter(|(start, _)| start.len() == 2) {
            let number: u8 = number.parse().expect("the load's number");
            let refused = |part: &Part| matches!(part, Part::Image(image) if load(image) == Err(number));
            assert!(parts.iter().any(refused), "{which}");
            numbers.insert(number);
        }
        let cut = matches!(parts.last(), Some(Part::Cut(_)));
        assert!(cut || !case.purpose.starts_with("cut: "), "{which}");
        assert!(!cut || !case.purpose.starts_with("not cut: "), "{which}");
    }
    assert!(numbers.into_iter().eq(20..=25));
    assert_eq!(listing().lines().count(), cases.len());
    assert!(listing().starts_with("   1     46  the sample alone\n   2      0  no byte, which holds no image\n"));
}

/// The numbers of a line behind its name.
fn numbers(line: &str, name: &str) -> Vec<u32> {
    let rest = line.strip_prefix(name).and_then(|rest| rest.strip_prefix(' ')).expect("the line has its name");
    rest.split(' ').map(|number| number.parse().expect("a decimal number")).collect()
}

#[test]
fn the_sums_by_hand_are_those_of_the_lines_by_hand() {
    for case in all().iter().filter(|case| case.due != "long\n") {
        let lines: Vec<&str> = case.due.lines().collect();
        assert_eq!(lines.len(), 18, "{}", case.purpose);
        let mut sums = [0, 0];
        for (domain, line) in lines[..16].iter().enumerate() {
            let counts = numbers(line, &domain.to_string());
            sums = [sums[0] + counts[0], sums[1] + counts[1]];
        }
        assert_eq!(numbers(lines[16], "total"), sums, "{}", case.purpose);
        assert_eq!(numbers(lines[17], "refused").len(), 1);
    }
}

#[test]
fn the_parts_are_all_of_the_input() {
    for input in many_inputs() {
        let parts = parts(&input);
        let mut at = 0;
        for (place, part) in parts.iter().enumerate() {
            let declared = || usize::from(u16::from_be_bytes([input[at], input[at + 1]]));
            at += match part {
                Part::Image(image) => {
                    assert_eq!(declared(), image.len());
                    assert_eq!(*image, &input[at + 2..][..image.len()]);
                    2 + image.len()
                }
                Part::Cut(there) => {
                    assert!(declared() > there.len() && place + 1 == parts.len());
                    assert_eq!(*there, &input[at + 2..]);
                    2 + there.len()
                }
                Part::Leftover => {
                    assert_eq!(place + 1, parts.len());
                    1
                }
            };
        }
        assert_eq!(at, input.len());
    }
}

/// The promise of the request, counted over the fields and not over the domains.
#[test]
fn each_total_is_the_number_of_set_bits_in_all_loaded_pages() {
    let mut times = 0;
    for input in taken() {
        let machines = loaded(&input);
        let fields = || machines.iter().flat_map(|machine| &machine.pages);
        let read: u32 = fields().map(|fields| fields.read.count_ones()).sum();
        let write: u32 = fields().map(|fields| fields.write.count_ones()).sum();
        let refused = parts(&input).len() - machines.len();
        assert!(text(&input).ends_with(&format!("\ntotal {read} {write}\nrefused {refused}\n")));
        times += usize::from(read != write);
    }
    assert!(times >= 500, "{times}");
}

#[test]
fn the_line_of_a_domain_has_its_pages_of_all_images() {
    for input in taken() {
        let machines = loaded(&input);
        for (domain, line) in text(&input).lines().take(16).enumerate() {
            let pages = |of: fn(&Machine, usize) -> u16| {
                let fields = machines.iter().flat_map(|machine| (0..machine.pages.len()).map(|page| of(machine, page)));
                fields.filter(|field| field >> domain & 1 == 1).count()
            };
            let (read, write) = (pages(|machine, page| machine.pages[page].read), pages(|m, p| m.pages[p].write));
            assert_eq!(line, format!("{domain} {read} {write}"));
        }
    }
}

#[test]
fn rights_add_up_over_inputs() {
    let whole = |input: &[u8]| parts(input).iter().all(|part| matches!(part, Part::Image(_)));
    let inputs: Vec<Vec<u8>> = taken().into_iter().filter(|input| input.len() < LONGEST_INPUT / 2).collect();
    let mut times = 0;
    for both in inputs.windows(2).filter(|both| whole(&both[0])) {
        let (one, other) = (rights(&both[0]), rights(&both[1]));
        let sum = |one: [u32; 16], other: [u32; 16]| std::array::from_fn(|domain| one[domain] + other[domain]);
        let due = Rights {
            read: sum(one.read, other.read),
            write: sum(one.write, other.write),
            refused: one.refused + other.refused,
        };
        assert_eq!(rights(&both.concat()), due);
        times += 1;
    }
    assert!(times >= 400, "{times}");
}

/// Three images of 46 bytes with their lengths, the second of which is refused.
#[test]
fn wherever_an_input_ends() {
    let mut refused = SAMPLE;
    refused[43] = 2;
    let whole: Vec<u8> = [SAMPLE, refused, SAMPLE].iter().flat_map(|image| input(image, &[])).collect();
    assert_eq!(whole.len(), 138);
    for length in 0..=whole.len() {
        let images = length / 46;
        let not_whole = u32::from(length % 46 != 0);
        let (samples, refused) = [(0, 0), (1, 0), (1, 1), (2, 1)][images];
        let rights = rights(&whole[..length]);
        assert_eq!(rights.read[..5], [samples, samples, samples, 3 * samples, 0], "{length} bytes");
        assert_eq!(rights.write[..5], [0, samples, samples, 0, 0], "{length} bytes");
        assert_eq!(rights.refused, refused + not_whole, "{length} bytes");
    }
}

#[test]
fn every_length_around_the_longest() {
    for length in 32_700..32_840 {
        let zeros = vec![0; length];
        if length > 32_768 {
            assert_eq!(text(&zeros), "long\n", "{length} bytes");
        } else {
            let refused = length.div_ceil(2);
            assert!(text(&zeros).ends_with(&format!("\ntotal 0 0\nrefused {refused}\n")), "{length} bytes");
        }
    }
}

/// No input of images alone has more pages than the stored one: every number of images is tried, each with
/// one program, as many pages as the bytes allow and at most 128 in each.
#[test]
fn the_largest_total_is_stored() {
    let pages = |images: usize| LONGEST_INPUT.checked_sub(29 * images).map(|left| (left / 4).min(128 * images));
    let most = (0..=LONGEST_INPUT).filter_map(pages).max();
    assert_eq!(most, Some(7_749));
    let largest: Vec<String> = all()
        .iter()
        .filter(|case| case.due.contains("\ntotal 123984 123984\n"))
        .map(|case| format!("{}: {}", case.input.len(), case.due.lines().last().expect("a line")))
        .collect();
    assert_eq!(largest, ["32765: refused 0", "32768: refused 2", "32768: refused 1"]);
}

#[derive(Clone, Copy, PartialEq)]
enum Sort {
    Image,
    Cut,
    Leftover,
}

/// A part of an input as a reading has it.
#[derive(Clone, PartialEq)]
struct Piece {
    sort: Sort,
    bytes: Vec<u8>,
}

impl Piece {
    /// The load's number of what is not cut.
    fn number(&self) -> Option<u8> {
        (self.sort == Sort::Image).then(|| load(&self.bytes).err().unwrap_or(0))
    }

    fn is_empty(&self) -> bool {
        self.sort == Sort::Image && self.bytes.is_empty()
    }

    fn would_load(&self) -> bool {
        self.sort == Sort::Cut && load(&self.bytes).is_ok()
    }
}

/// The fields of a machine that are counted.
type Pages = Vec<(u16, u16)>;
/// READ and WRITE of each domain.
type Lines = [[u64; 2]; 16];

type On = Box<dyn Fn(&Piece) -> Option<usize>>;
type Loaded = Box<dyn Fn(&Piece) -> Option<Machine>>;
type Times = Box<dyn Fn(&Piece) -> u64>;

/// A way to read the rule, in parts, so that each part can be read wrongly by itself.
struct Reading {
    /// What is taken of an input, or the text that is printed alone.
    taken: fn(&[u8]) -> Result<&[u8], &'static str>,
    length: fn(u8, u8) -> usize,
    /// Whether an image of such a length is cut where so many bytes are left.
    cut: fn(usize, usize) -> bool,
    /// How many bytes behind its length reading goes on after a piece, or none where it ends.
    on: On,
    /// Which pieces are looked at.
    kept: fn(Vec<Piece>) -> Vec<Piece>,
    /// The machine of a piece, if its rights are counted.
    machine: Loaded,
    /// How often a piece counts as refused.
    refused: Times,
    /// How many are refused, as it is given.
    given: fn(u64) -> u64,
    pages: fn(&Machine) -> Pages,
    lines: fn(&[Pages]) -> Lines,
    sums: fn(&Lines) -> [u64; 2],
    print: fn(&Lines, [u64; 2], u64) -> String,
}

impl Reading {
    fn pieces(&self, input: &[u8]) -> Vec<Piece> {
        let mut pieces = Vec::new();
        let mut at = 0;
        while at < input.len() {
            let left = input.len() - at;
            let (sort, bytes) = if left == 1 {
                (Sort::Leftover, &input[at..])
            } else {
                let length = (self.length)(input[at], input[at + 1]);
                let sort = if (self.cut)(length, left - 2) { Sort::Cut } else { Sort::Image };
                (sort, &input[at + 2..][..length.min(left - 2)])
            };
            let piece = Piece { sort, bytes: bytes.to_vec() };
            let on = (self.on)(&piece);
            pieces.push(piece);
            match on {
                Some(more) => at += 2 + more,
                None => break,
            }
        }
        pieces
    }

    fn read(&self, input: &[u8]) -> String {
        let input = match (self.taken)(input) {
            Ok(input) => input,
            Err(text) => return text.to_string(),
        };
        let pieces = (self.kept)(self.pieces(input));
        let refused = pieces.iter().map(|piece| (self.refused)(piece)).sum();
        let loaded: Vec<Pages> =
            pieces.iter().filter_map(|piece| (self.machine)(piece)).map(|machine| (self.pages)(&machine)).collect();
        let lines = (self.lines)(&loaded);
        (self.print)(&lines, (self.sums)(&lines), (self.given)(refused))
    }
}

fn right_on(piece: &Piece) -> Option<usize> {
    (piece.sort == Sort::Image).then_some(piece.bytes.len())
}

fn right_machine(piece: &Piece) -> Option<Machine> {
    (piece.sort == Sort::Image).then(|| load(&piece.bytes).ok()).flatten()
}

fn right_refused(piece: &Piece) -> u64 {
    u64::from(piece.number() != Some(0))
}

fn right_pages(machine: &Machine) -> Pages {
    machine.pages.iter().map(|fields| (fields.read, fields.write)).collect()
}

fn right_lines(images: &[Pages]) -> Lines {
    let mut lines = [[0; 2]; 16];
    for (read, write) in images.iter().flatten() {
        for (domain, line) in lines.iter_mut().enumerate() {
            line[0] += u64::from(read >> domain & 1);
            line[1] += u64::from(write >> domain & 1);
        }
    }
    lines
}

/// The sums over some domains.
fn sums_of(lines: &[[u64; 2]]) -> [u64; 2] {
    [0, 1].map(|right| lines.iter().map(|line| line[right]).sum())
}

fn domain_lines(lines: &Lines) -> Vec<String> {
    lines.iter().enumerate().map(|(domain, [read, write])| format!("{domain} {read} {write}\n")).collect()
}

fn ending([read, write]: [u64; 2], refused: u64) -> String {
    format!("total {read} {write}\nrefused {refused}\n")
}

fn right_print(lines: &Lines, sums: [u64; 2], refused: u64) -> String {
    domain_lines(lines).concat() + &ending(sums, refused)
}

fn right() -> Reading {
    Reading {
        taken: |input| if input.len() > 32_768 { Err("long\n") } else { Ok(input) },
        length: |high, low| usize::from(u16::from_be_bytes([high, low])),
        cut: |length, left| length > left,
        on: Box::new(right_on),
        kept: |pieces| pieces,
        machine: Box::new(right_machine),
        refused: Box::new(right_refused),
        given: |refused| refused,
        pages: right_pages,
        lines: right_lines,
        sums: |lines| sums_of(lines),
        print: right_print,
    }
}

/// The fields as they stand in bytes that do not load: as many as the shape says and as are there.
fn as_it_stands(bytes: &[u8]) -> Option<Machine> {
    let count = usize::from(*bytes.get(18)?);
    let field = |bytes: &[u8]| u16::from_be_bytes([bytes[0], bytes[1]]);
    let pages = bytes.get(22..)?.chunks_exact(4).take(count);
    let pages = pages.map(|page| Fields { read: field(page), write: field(&page[2..]) }).collect();
    Some(Machine { pages, ..Machine::all_zero() })
}

type Named = Vec<(String, Reading)>;

fn with_names<const COUNT: usize>(readings: [(&str, Reading); COUNT]) -> Named {
    readings.into_iter().map(|(what, reading)| (what.to_string(), reading)).collect()
}

/// How an input divides into images.
fn wrong_divisions() -> Named {
    let length = |length: fn(u8, u8) -> usize| Reading { length, ..right() };
    let on = |on: fn(&Piece) -> Option<usize>| Reading { on: Box::new(on), ..right() };
    let kept = |kept: fn(Vec<Piece>) -> Vec<Piece>| Reading { kept, ..right() };
    with_names([
        ("length low byte first", length(|high, low| usize::from(low) * 256 + usize::from(high))),
        (
            "length that includes its own two bytes",
            length(|high, low| (256 * usize::from(high) + usize::from(low)).saturating_sub(2)),
        ),
        ("length without its own two bytes twice", length(|high, low| 256 * usize::from(high) + usize::from(low) + 2)),
        ("the low byte of the length alone", length(|_, low| usize::from(low))),
        ("the high byte of the length alone", length(|high, _| usize::from(high))),
        ("length with a sign", length(|high, low| 256 * usize::from(high % 128) + usize::from(low))),
        ("length up to 1,023", length(|high, low| 256 * usize::from(high % 4) + usize::from(low))),
        ("length of at most 574", length(|high, low| (256 * usize::from(high) + usize::from(low)).min(574))),
        ("length of at most 575", length(|high, low| (256 * usize::from(high) + usize::from(low)).min(575))),
        ("high byte times 255", length(|high, low| 255 * usize::from(high) + usize::from(low))),
        ("images stand at even places", on(|piece| right_on(piece).map(|more| more + more % 2))),
        ("an image that ends with the input is cut", Reading { cut: |length, left| length >= left, ..right() }),
        ("an image may lack its last byte", Reading { cut: |length, left| length > left + 1, ..right() }),
        ("a byte is read between images", on(|piece| right_on(piece).map(|more| more + 1))),
        ("only the first image", kept(|pieces| pieces.into_iter().take(1).collect())),
        ("only the first two images", kept(|pieces| pieces.into_iter().take(2).collect())),
        ("only the first eight images", kept(|pieces| pieces.into_iter().take(8).collect())),
        ("only the first 64 images", kept(|pieces| pieces.into_iter().take(64).collect())),
        ("only the first 256 images", kept(|pieces| pieces.into_iter().take(256).collect())),
        ("only the first 574 images", kept(|pieces| pieces.into_iter().take(574).collect())),
        ("only the first 1,000 images", kept(|pieces| pieces.into_iter().take(1_000).collect())),
        ("only the last image", kept(|pieces| pieces.into_iter().rev().take(1).collect())),
        ("all but the first image", kept(|pieces| pieces.into_iter().skip(1).collect())),
        ("all but the last image", kept(|pieces| pieces.into_iter().rev().skip(1).collect())),
        (
            "the same image again is not counted",
            kept(|pieces| {
                let mut seen = BTreeSet::new();
                pieces.into_iter().filter(|piece| seen.insert(piece.bytes.clone())).collect()
            }),
        ),
        (
            "the same image again is not counted next to itself",
            kept(|mut pieces| {
                pieces.dedup();
                pieces
            }),
        ),
        (
            "an input without an image holds an empty one",
            kept(|pieces| if pieces.is_empty() { vec![Piece { sort: Sort::Image, bytes: vec![] }] } else { pieces }),
        ),
        (
            "all before a refused image is forgotten",
            kept(|mut pieces| {
                let last = pieces.iter().rposition(|piece| right_refused(piece) == 1).unwrap_or(0);
                pieces.split_off(last)
            }),
        ),
    ])
}

/// What stands last, and empty images.
fn wrong_ends() -> Named {
    let refused = |refused: fn(&Piece) -> u64| Reading { refused: Box::new(refused), ..right() };
    let on = |on: fn(&Piece) -> Option<usize>| Reading { on: Box::new(on), ..right() };
    let kept = |kept: fn(Vec<Piece>) -> Vec<Piece>| Reading { kept, ..right() };
    let machine = |machine: fn(&Piece) -> Option<Machine>| Reading { machine: Box::new(machine), ..right() };
    fn but(sort: Sort, times: fn(&Piece) -> u64) -> Reading {
        let refused = move |piece: &Piece| if piece.sort == sort { times(piece) } else { right_refused(piece) };
        Reading { refused: Box::new(refused), ..right() }
    }
    fn would_load(piece: &Piece) -> Option<Machine> {
        if piece.sort == Sort::Leftover {
            None
        } else {
            load(&piece.bytes).ok()
        }
    }
    let mut named = with_names([
        (
            "a cut image that would load is loaded",
            Reading { machine: Box::new(would_load), ..but(Sort::Cut, |piece| u64::from(!piece.would_load())) },
        ),
        ("a cut image that would load is refused and counted", machine(would_load)),
        ("a cut image that would load is left out", but(Sort::Cut, |piece| u64::from(!piece.would_load()))),
        ("a cut image that would not load is left out", but(Sort::Cut, |piece| u64::from(piece.would_load()))),
        ("a cut image is not counted as refused", but(Sort::Cut, |_| 0)),
        ("a cut image is counted as refused twice", but(Sort::Cut, |_| 2)),
        ("a length without a byte is left out", but(Sort::Cut, |piece| u64::from(!piece.bytes.is_empty()))),
        (
            "a length without a byte is two bytes left over",
            but(Sort::Cut, |piece| 1 + u64::from(piece.bytes.is_empty())),
        ),
        ("each byte of a cut image is left over", but(Sort::Cut, |piece| piece.bytes.len().max(1) as u64)),
        (
            "the bits of a cut image are counted",
            machine(|piece| if piece.sort == Sort::Cut { as_it_stands(&piece.bytes) } else { right_machine(piece) }),
        ),
        (
            "the rest of a cut image is read on",
            on(|piece| if piece.sort == Sort::Cut { Some(0) } else { right_on(piece) }),
        ),
        (
            "the rest of a cut image is read on, and it is not counted",
            Reading {
                on: Box::new(|piece| if piece.sort == Sort::Cut { Some(0) } else { right_on(piece) }),
                ..but(Sort::Cut, |_| 0)
            },
        ),
        ("a leftover byte is ignored", but(Sort::Leftover, |_| 0)),
        ("a leftover byte is counted twice", but(Sort::Leftover, |_| 2)),
        ("a leftover byte 0 is ignored", but(Sort::Leftover, |piece| u64::from(piece.bytes != [0]))),
        ("a leftover byte above 0 is ignored", but(Sort::Leftover, |piece| u64::from(piece.bytes == [0]))),
        ("an empty image is not counted", refused(|piece| if piece.is_empty() { 0 } else { right_refused(piece) })),
        ("an empty image is counted twice", refused(|piece| if piece.is_empty() { 2 } else { right_refused(piece) })),
        ("reading ends behind an empty image", on(|piece| right_on(piece).filter(|_| !piece.is_empty()))),
        (
            "an empty image is the end and not counted",
            Reading {
                on: Box::new(|piece| right_on(piece).filter(|_| !piece.is_empty())),
                ..refused(|piece| if piece.is_empty() { 0 } else { right_refused(piece) })
            },
        ),
        (
            "an empty image at the end is not counted",
            kept(|mut pieces| {
                if pieces.last().is_some_and(Piece::is_empty) {
                    pieces.pop();
                }
                pieces
            }),
        ),
        (
            "empty images one behind another are one",
            kept(|mut pieces| {
                pieces.dedup_by(|one, other| one.is_empty() && other.is_empty());
                pieces
            }),
        ),
        (
            "a leftover byte counts only where it is alone",
            kept(|mut pieces| {
                if pieces.len() > 1 {
                    pieces.retain(|piece| piece.sort != Sort::Leftover);
                }
                pieces
            }),
        ),
        (
            "a leftover byte counts only behind an image",
            kept(|mut pieces| {
                if pieces.len() == 1 {
                    pieces.retain(|piece| piece.sort != Sort::Leftover);
                }
                pieces
            }),
        ),
        (
            "a leftover byte is a cut image that takes the one before with it",
            kept(|mut pieces| {
                if pieces.len() > 1 && pieces.last().is_some_and(|piece| piece.sort == Sort::Leftover) {
                    pieces.remove(pieces.len() - 2);
                }
                pieces
            }),
        ),
        (
            "a cut image that is alone is not counted",
            kept(|mut pieces| {
                if pieces.len() == 1 {
                    pieces.retain(|piece| piece.sort != Sort::Cut);
                }
                pieces
            }),
        ),
    ]);
    let taken = |taken: fn(&[u8]) -> Result<&[u8], &'static str>| Reading { taken, ..right() };
    named.extend(with_names([
        ("32,767 bytes are long", taken(|input| if input.len() > 32_766 { Err("long\n") } else { Ok(input) })),
        ("32,768 bytes are long", taken(|input| if input.len() > 32_767 { Err("long\n") } else { Ok(input) })),
        ("32,769 bytes are not long", taken(|input| if input.len() > 32_769 { Err("long\n") } else { Ok(input) })),
        ("65,535 bytes are not long", taken(|input| if input.len() > 65_535 { Err("long\n") } else { Ok(input) })),
        ("nothing is long", taken(|input| Ok(input))),
        (
            "the count of bytes has 16 bits",
            taken(|input| if input.len() % 65_536 > 32_768 { Err("long\n") } else { Ok(input) }),
        ),
        ("what is too long is not read", taken(|input| Ok(&input[..input.len().min(32_768)]))),
        ("574 bytes are the longest", taken(|input| if input.len() > 576 { Err("long\n") } else { Ok(input) })),
        ("long without a newline", taken(|input| if input.len() > 32_768 { Err("long") } else { Ok(input) })),
        ("long refused", taken(|input| if input.len() > 32_768 { Err("long\nrefused 1\n") } else { Ok(input) })),
        ("nothing for long", taken(|input| if input.len() > 32_768 { Err("") } else { Ok(input) })),
        ("nothing for no byte", taken(|input| if input.is_empty() { Err("") } else { (right().taken)(input) })),
    ]));
    named
}

/// Which images load, and what a refused one does.
fn wrong_loads() -> Named {
    let mut named = Named::new();
    for number in 20..=25 {
        let machine = move |piece: &Piece| {
            if piece.number() == Some(number) {
                as_it_stands(&piece.bytes)
            } else {
                right_machine(piece)
            }
        };
        let refused = move |piece: &Piece| if piece.number() == Some(number) { 0 } else { right_refused(piece) };
        let twice = move |piece: &Piece| right_refused(piece) + u64::from(piece.number() == Some(number));
        let stops = move |piece: &Piece| right_on(piece).filter(|_| piece.number() != Some(number));
        let inside = move |piece: &Piece| if piece.number() == Some(number) { Some(0) } else { right_on(piece) };
        let mut add =
            |what: &str, reading: Reading| named.push((format!("an image refused with {number}: {what}"), reading));
        add("its bits are counted", Reading { machine: Box::new(machine), ..right() });
        add("it is not counted", Reading { refused: Box::new(refused), ..right() });
        add("it is counted twice", Reading { refused: Box::new(twice), ..right() });
        add("reading stops", Reading { on: Box::new(stops), ..right() });
        add(
            "reading stops, and it is not counted",
            Reading { on: Box::new(stops), refused: Box::new(refused), ..right() },
        );
        add("its bytes are read as images", Reading { on: Box::new(inside), ..right() });
        add("it loads", Reading { machine: Box::new(machine), refused: Box::new(refused), ..right() });
    }
    // Images that load and are refused all the same.
    fn also(refused: fn(&Machine) -> bool) -> Reading {
        let machine = move |piece: &Piece| right_machine(piece).filter(|machine| !refused(machine));
        let count = move |piece: &Piece| u64::from(machine(piece).is_none());
        Reading { machine: Box::new(machine), refused: Box::new(count), ..right() }
    }
    named.extend(with_names([
        ("the first program in privileged mode is refused", also(|machine| machine.privileged())),
        (
            "a privileged program is refused",
            also(|m| m.programs.iter().any(|program| program.mode == Mode::Privileged)),
        ),
        ("an empty context is refused", also(|machine| machine.context == 0)),
        ("an empty mask is refused", also(|machine| machine.local_context() == 0)),
        ("an image without a right is refused", also(|m| right_pages(m).iter().all(|&page| page == (0, 0)))),
        ("an image without READ is refused", also(|m| right_pages(m).iter().all(|page| page.0 == 0))),
        ("an image without WRITE is refused", also(|m| right_pages(m).iter().all(|page| page.1 == 0))),
        ("128 pages are refused", also(|machine| machine.pages.len() == 128)),
        ("one page is refused", also(|machine| machine.pages.len() == 1)),
        ("eight programs are refused", also(|machine| machine.programs.len() == 8)),
        ("one program is refused", also(|machine| machine.programs.len() == 1)),
        ("memory of 65,536 bytes is refused", also(|machine| machine.memory() == 65_536)),
        ("the smallest pages are refused", also(|machine| machine.exponent == 5)),
        ("the largest pages are refused", also(|machine| machine.exponent == 12)),
        ("574 bytes are refused", also(|machine| machine.pages.len() == 128 && machine.programs.len() == 8)),
        ("more than 255 bytes are refused", also(|m| 22 + 4 * m.pages.len() + 5 * m.programs.len() > 255)),
    ]));
    named
}

/// What is counted of an image that loads, and over images.
fn wrong_counts() -> Named {
    let pages = |pages: fn(&Machine) -> Pages| Reading { pages, ..right() };
    let lines = |lines: fn(&[Pages]) -> Lines| Reading { lines, ..right() };
    fn each(machine: &Machine, page: fn(u16, u16) -> (u16, u16)) -> Pages {
        right_pages(machine).into_iter().map(|(read, write)| page(read, write)).collect()
    }
    fn within(machine: &Machine, domains: u16) -> Pages {
        right_pages(machine).into_iter().map(|(read, write)| (read & domains, write & domains)).collect()
    }
    fn but(images: &[Pages], count: fn(u64) -> u64) -> Lines {
        right_lines(images).map(|line| line.map(count))
    }
    fn lowest(field: u16) -> u16 {
        field & field.wrapping_neg()
    }
    fn highest(field: u16) -> u16 {
        lowest(field.reverse_bits()).reverse_bits()
    }
    with_names([
        ("READ and WRITE swapped", pages(|machine| each(machine, |read, write| (write, read)))),
        ("READ for both", pages(|machine| each(machine, |read, _| (read, read)))),
        ("WRITE for both", pages(|machine| each(machine, |_, write| (write, write)))),
        ("either right for both", pages(|machine| each(machine, |read, write| (read | write, read | write)))),
        ("both rights together", pages(|machine| each(machine, |read, write| (read & write, read & write)))),
        ("WRITE is READ too", pages(|machine| each(machine, |read, write| (read | write, write)))),
        ("READ only without WRITE", pages(|machine| each(machine, |read, write| (read & !write, write)))),
        ("WRITE only with READ", pages(|machine| each(machine, |read, write| (read, read & write)))),
        ("fields low byte first", pages(|machine| each(machine, |r, w| (r.swap_bytes(), w.swap_bytes())))),
        ("domain 15 in bit 0", pages(|machine| each(machine, |r, w| (r.reverse_bits(), w.reverse_bits())))),
        ("bits that are not set", pages(|machine| each(machine, |read, write| (!read, !write)))),
        ("the prevailing domain alone", pages(|machine| each(machine, |r, w| (lowest(r), lowest(w))))),
        ("the lowest level alone", pages(|machine| each(machine, |r, w| (highest(r), highest(w))))),
        ("no domain 0", pages(|machine| within(machine, 0xFFFE))),
        ("no domain 15", pages(|machine| within(machine, 0x7FFF))),
        ("eight domains", pages(|machine| within(machine, 0x00FF))),
        ("what the running program's context has", pages(|machine| within(machine, machine.context))),
        ("what the running program's mask has", pages(|machine| within(machine, machine.mask))),
        ("what the running program's local context has", pages(|machine| within(machine, machine.local_context()))),
        (
            "what some program's context has",
            pages(|m| within(m, m.programs.iter().fold(0, |all, program| all | program.context))),
        ),
        (
            "what some program's local context has",
            pages(|m| within(m, m.programs.iter().fold(0, |all, program| all | program.context & program.mask))),
        ),
        (
            "every right in privileged mode",
            pages(|m| if m.privileged() { vec![(0xFFFF, 0xFFFF); m.pages.len()] } else { right_pages(m) }),
        ),
        ("no right in privileged mode", pages(|m| if m.privileged() { vec![] } else { right_pages(m) })),
        (
            "no right where some program is privileged",
            pages(|m| {
                let privileged = m.programs.iter().any(|program| program.mode == Mode::Privileged);
                if privileged {
                    vec![]
                } else {
                    right_pages(m)
                }
            }),
        ),
        (
            "the programs' contexts and masks too",
            pages(|m| {
                let programs = m.programs.iter().map(|program| (program.context, program.mask));
                right_pages(m).into_iter().chain(programs).collect()
            }),
        ),
        ("all programs' fields, said again for each program", pages(|m| right_pages(m).repeat(m.programs.len()))),
        (
            "the programs' contexts in place of the fields",
            pages(|m| m.programs.iter().map(|p| (p.context, p.mask)).collect()),
        ),
        ("the first page alone", pages(|machine| right_pages(machine)[..1].to_vec())),
        ("the last page alone", pages(|machine| right_pages(machine)[machine.pages.len() - 1..].to_vec())),
        ("all pages but the first", pages(|machine| right_pages(machine)[1..].to_vec())),
        ("all pages but the last", pages(|machine| right_pages(machine)[..machine.pages.len() - 1].to_vec())),
        ("127 pages at most", pages(|machine| right_pages(machine).into_iter().take(127).collect())),
        ("64 pages at most", pages(|machine| right_pages(machine).into_iter().take(64).collect())),
        ("eight pages at most", pages(|machine| right_pages(machine).into_iter().take(8).collect())),
        (
            "pages alike are counted once",
            pages(|machine| right_pages(machine).into_iter().collect::<BTreeSet<_>>().into_iter().collect()),
        ),
        (
            "a domain once for each image",
            pages(|machine| {
                vec![right_pages(machine).iter().fold((0, 0), |all, page| (all.0 | page.0, all.1 | page.1))]
            }),
        ),
        ("bytes in place of pages", pages(|machine| right_pages(machine).repeat((machine.page_size() / 32) as usize))),
        ("READ counted twice", lines(|images| right_lines(images).map(|[read, write]| [2 * read, write]))),
        ("WRITE counted twice", lines(|images| right_lines(images).map(|[read, write]| [read, 2 * write]))),
        ("WRITE added to READ", lines(|images| right_lines(images).map(|[read, write]| [read + write, write]))),
        ("counts wrap at 128", lines(|images| but(images, |count| count % 128))),
        ("counts wrap at 256", lines(|images| but(images, |count| count % 256))),
        ("counts wrap at 1,000", lines(|images| but(images, |count| count % 1_000))),
        ("counts wrap at 4,096", lines(|images| but(images, |count| count % 4_096))),
        ("counts end at 127", lines(|images| but(images, |count| count.min(127)))),
        ("counts end at 128", lines(|images| but(images, |count| count.min(128)))),
        ("counts end at 255", lines(|images| but(images, |count| count.min(255)))),
        ("counts end at 999", lines(|images| but(images, |count| count.min(999)))),
        ("counts end at 4,095", lines(|images| but(images, |count| count.min(4_095)))),
        (
            "the most of one image",
            lines(|images| {
                let mut most = [[0; 2]; 16];
                for line in images.iter().map(|image| right_lines(std::slice::from_ref(image))) {
                    for (most, line) in most.iter_mut().zip(line) {
                        *most = [most[0].max(line[0]), most[1].max(line[1])];
                    }
                }
                most
            }),
        ),
        ("the last image that loads alone", lines(|images| right_lines(&images[images.len().saturating_sub(1)..]))),
        ("the first image that loads alone", lines(|images| right_lines(&images[..images.len().min(1)]))),
        (
            "each domain's rights in the line of the next",
            lines(|images| {
                let mut lines = right_lines(images);
                lines.rotate_right(1);
                lines
            }),
        ),
    ])
}

/// Both sums, and the lines.
fn wrong_texts() -> Named {
    let sums = |sums: fn(&Lines) -> [u64; 2]| Reading { sums, ..right() };
    let print = |print: fn(&Lines, [u64; 2], u64) -> String| Reading { print, ..right() };
    fn but(lines: &Lines, sum: fn(u64) -> u64) -> [u64; 2] {
        sums_of(lines).map(sum)
    }
    fn first_five(sum: u64) -> u64 {
        sum.to_string()[..sum.to_string().len().min(5)].parse().expect("a number")
    }
    fn lines_where(lines: &Lines, sums: [u64; 2], refused: u64, is: fn(&[u64; 2]) -> bool) -> String {
        let kept = domain_lines(lines).into_iter().zip(lines).filter(|(_, line)| is(line)).map(|(text, _)| text);
        kept.collect::<String>() + &ending(sums, refused)
    }
    let mut named = with_names([
        ("totals over domains 0 to 14", sums(|lines| sums_of(&lines[..15]))),
        ("totals over domains 1 to 15", sums(|lines| sums_of(&lines[1..]))),
        ("totals over eight domains", sums(|lines| sums_of(&lines[..8]))),
        (
            "totals swapped",
            sums(|lines| {
                let [read, write] = sums_of(lines);
                [write, read]
            }),
        ),
        ("the total of READ twice", sums(|lines| [sums_of(lines)[0]; 2])),
        ("the total of WRITE twice", sums(|lines| [sums_of(lines)[1]; 2])),
        (
            "the sum of both totals",
            sums(|lines| {
                let [read, write] = sums_of(lines);
                [read + write; 2]
            }),
        ),
        (
            "domains with a right",
            sums(|lines| [0, 1].map(|right| lines.iter().filter(|line| line[right] > 0).count() as u64)),
        ),
        (
            "the greatest line",
            sums(|lines| [0, 1].map(|right| lines.iter().map(|line| line[right]).max().unwrap_or(0))),
        ),
        ("no totals", sums(|_| [0, 0])),
        ("totals wrap at 256", sums(|lines| but(lines, |sum| sum % 256))),
        ("totals wrap at 1,000", sums(|lines| but(lines, |sum| sum % 1_000))),
        ("totals wrap at 4,096", sums(|lines| but(lines, |sum| sum % 4_096))),
        ("totals wrap at 10,000", sums(|lines| but(lines, |sum| sum % 10_000))),
        ("totals wrap at 32,768", sums(|lines| but(lines, |sum| sum % 32_768))),
        ("totals wrap at 65,536", sums(|lines| but(lines, |sum| sum % 65_536))),
        ("totals cut to their last five digits", sums(|lines| but(lines, |sum| sum % 100_000))),
        ("totals cut to their first five digits", sums(|lines| but(lines, first_five))),
        ("totals end at 65,535", sums(|lines| but(lines, |sum| sum.min(65_535)))),
        ("totals end at 65,536", sums(|lines| but(lines, |sum| sum.min(65_536)))),
        ("totals end at 99,999", sums(|lines| but(lines, |sum| sum.min(99_999)))),
        ("totals end at 100,000", sums(|lines| but(lines, |sum| sum.min(100_000)))),
        (
            "no line without a right",
            print(|lines, sums, refused| lines_where(lines, sums, refused, |line| *line != [0, 0])),
        ),
        ("no line without READ", print(|lines, sums, refused| lines_where(lines, sums, refused, |line| line[0] != 0))),
        ("no line without WRITE", print(|lines, sums, refused| lines_where(lines, sums, refused, |line| line[1] != 0))),
        (
            "no lines behind the last domain with a right",
            print(|lines, sums, refused| {
                let count = lines.iter().rposition(|line| *line != [0, 0]).map_or(0, |last| last + 1);
                domain_lines(lines)[..count].concat() + &ending(sums, refused)
            }),
        ),
        (
            "no line of domain 15",
            print(|lines, sums, refused| domain_lines(lines)[..15].concat() + &ending(sums, refused)),
        ),
        (
            "a line of domain 16",
            print(|lines, sums, refused| domain_lines(lines).concat() + "16 0 0\n" + &ending(sums, refused)),
        ),
        (
            "domain 15 first",
            print(|lines, sums, refused| {
                let mut domains = domain_lines(lines);
                domains.reverse();
                domains.concat() + &ending(sums, refused)
            }),
        ),
        ("totals first", print(|lines, sums, refused| ending(sums, refused) + &domain_lines(lines).concat())),
        (
            "no totals where they are zero",
            print(|lines, sums, refused| right_print(lines, sums, refused).replace("total 0 0\n", "")),
        ),
        (
            "nothing refused is not said",
            print(|lines, sums, refused| right_print(lines, sums, refused).replace("refused 0\n", "")),
        ),
        (
            "nothing but `refused` where there is no right",
            print(
                |lines, sums, refused| {
                    if sums == [0, 0] {
                        format!("refused {refused}\n")
                    } else {
                        right_print(lines, sums, refused)
                    }
                },
            ),
        ),
        (
            "refused before total",
            print(|lines, [read, write], refused| {
                domain_lines(lines).concat() + &format!("refused {refused}\ntotal {read} {write}\n")
            }),
        ),
        (
            "one total",
            print(|lines, [read, write], refused| {
                domain_lines(lines).concat() + &format!("total {}\nrefused {refused}\n", read + write)
            }),
        ),
        ("all in one line", print(|lines, sums, refused| right_print(lines, sums, refused).replace('\n', " "))),
        (
            "no newline at the end",
            print(|lines, sums, refused| right_print(lines, sums, refused).trim_end().to_string()),
        ),
        ("an empty line at the end", print(|lines, sums, refused| right_print(lines, sums, refused) + "\n")),
        ("carriage returns", print(|lines, sums, refused| right_print(lines, sums, refused).replace('\n', "\r\n"))),
        ("tabs", print(|lines, sums, refused| right_print(lines, sums, refused).replace(' ', "\t"))),
        (
            "a space at the end of a line",
            print(|lines, sums, refused| right_print(lines, sums, refused).replace('\n', " \n")),
        ),
        ("colons", print(|lines, sums, refused| right_print(lines, sums, refused).replace("total ", "total: "))),
        (
            "domains of two digits",
            print(|lines, sums, refused| {
                let lines =
                    lines.iter().enumerate().map(|(domain, [read, write])| format!("{domain:02} {read} {write}\n"));
                lines.collect::<String>() + &ending(sums, refused)
            }),
        ),
        (
            "domains hexadecimal",
            print(|lines, sums, refused| {
                let lines =
                    lines.iter().enumerate().map(|(domain, [read, write])| format!("{domain:x} {read} {write}\n"));
                lines.collect::<String>() + &ending(sums, refused)
            }),
        ),
        (
            "domains from 1",
            print(|lines, sums, refused| {
                let lines = (1..).zip(lines).map(|(domain, [read, write])| format!("{domain} {read} {write}\n"));
                lines.collect::<String>() + &ending(sums, refused)
            }),
        ),
        (
            "counts hexadecimal",
            print(|lines, sums, refused| {
                let lines = (0..).zip(lines).map(|(domain, [read, write])| format!("{domain} {read:x} {write:x}\n"));
                lines.collect::<String>() + &ending(sums, refused)
            }),
        ),
        (
            "a comma in thousands",
            print(|lines, [read, write], refused| {
                let with = |sum: u64| {
                    if sum < 1_000 {
                        sum.to_string()
                    } else {
                        format!("{},{:03}", sum / 1_000, sum % 1_000)
                    }
                };
                domain_lines(lines).concat() + &format!("total {} {}\nrefused {refused}\n", with(read), with(write))
            }),
        ),
    ]);
    let given = |given: fn(u64) -> u64| Reading { given, ..right() };
    named.extend(with_names([
        ("refused images wrap at 256", given(|refused| refused % 256)),
        ("refused images wrap at 1,000", given(|refused| refused % 1_000)),
        ("refused images wrap at 10,000", given(|refused| refused % 10_000)),
        ("refused images wrap at 16,384", given(|refused| refused % 16_384)),
        ("refused images end at 255", given(|refused| refused.min(255))),
        ("refused images end at 256", given(|refused| refused.min(256))),
        ("refused images end at 9,999", given(|refused| refused.min(9_999))),
        ("refused images end at 16,383", given(|refused| refused.min(16_383))),
        ("whether an image was refused", given(|refused| refused.min(1))),
        ("one more refused where some are", given(|refused| refused + refused.min(1))),
        ("no image refused", given(|_| 0)),
    ]));
    named
}

#[test]
fn the_parts_read_rightly_are_the_rule() {
    let right = right();
    for input in many_inputs() {
        assert_eq!(right.read(&input), text(&input));
    }
}

#[test]
fn each_misreading_of_the_rights_shows_in_the_stored_inputs() {
    let stored = all();
    let readings = [wrong_divisions(), wrong_ends(), wrong_loads(), wrong_counts(), wrong_texts()];
    let unseen: Vec<String> = readings
        .into_iter()
        .flatten()
        .filter(|(_, reading)| stored.iter().all(|case| reading.read(&case.input) == case.due))
        .map(|(what, _)| what)
        .collect();
    assert!(unseen.is_empty(), "{unseen:#?}");
}

#[test]
fn random_inputs_have_all_that_they_are_for() {
    for seed in 1..=10 {
        let mut counts = Counts::default();
        let mut lengths = Vec::new();
        for input in random_inputs(seed, ENOUGH_RUNS) {
            counts.add(&input);
            lengths.push(input.len());
        }
        assert_eq!(counts.rare(), "", "seed {seed}");
        let long = lengths.iter().filter(|&&length| length > 10_000).count();
        let short = lengths.iter().filter(|&&length| length <= 100).count();
        assert!((15..=50).contains(&long) && short >= 20, "seed {seed}: {long}, {short}");
    }
}

/// Counted by another way than the random inputs count themselves.
#[test]
fn random_inputs_have_cut_images_that_would_load() {
    for seed in 1..=5 {
        let (mut would_load, mut would_not, mut left_over) = (0, 0, 0);
        for input in random_inputs(seed, 500) {
            match right().pieces(&input).last() {
                Some(piece) if piece.would_load() => would_load += 1,
                Some(piece) if piece.sort == Sort::Cut => would_not += 1,
                Some(piece) if piece.sort == Sort::Leftover => left_over += 1,
                _ => {}
            }
        }
        assert!(would_load >= 40 && would_not >= 100 && left_over >= 40, "{would_load}, {would_not}, {left_over}");
    }
}

#[test]
fn what_random_inputs_have_too_rarely() {
    let rare = Counts::default().rare();
    assert_eq!(rare.lines().count(), SORTS.len());
    assert!(rare.starts_with("rights: an image refused with 20 that is not empty came in 0 inputs, fewer than 20\n"));
    assert!(rare.ends_with("rights: a total of six digits came in 0 inputs, fewer than 3\n"));
    let mut enough = Counts { sorts: SORTS.map(|(_, least)| least) };
    assert_eq!(enough.rare(), "");
    enough.sorts[9] -= 1;
    assert_eq!(enough.rare(), "rights: a cut image whose bytes would load came in 19 inputs, fewer than 20\n");
}

#[test]
fn what_inputs_have() {
    let names = |input: &[u8]| {
        let sorts = SORTS.iter().zip(sorts(input)).filter(|(_, has)| *has).map(|((what, _), _)| *what);
        sorts.collect::<Vec<_>>()
    };
    let without = "a domain without a right beside one that has some";
    let different = "different totals of READ and WRITE";
    assert_eq!(names(&[]), [""; 0]);
    assert_eq!(names(&[0]), ["a byte left over"]);
    assert_eq!(names(&[0, 0]), ["an empty image"]);
    assert_eq!(names(&[0, 1]), ["a cut image", "a cut image of which no byte is there"]);
    assert_eq!(names(&[0, 1, 0]), ["an image refused with 20 that is not empty"]);
    assert_eq!(names(&input(&SAMPLE, &[])), [without, different]);
    assert_eq!(names(&declaring(45, &SAMPLE, &[])), ["a cut image", "a cut image whose bytes would load"]);
    assert_eq!(names(&input(&one_page(1, 2), &[])), [without]);
    assert_eq!(names(&input(&one_page(0xFFFF, 0xFFFF), &[])), [""; 0]);
    let behind = [input(&[], &[]), input(&one_page(0xFFFF, 0xFFFF), &[])].concat();
    assert_eq!(names(&behind), ["an empty image", "an image that loads behind one that is refused"]);
    let before = [input(&one_page(0xFFFF, 0xFFFF), &[]), input(&[], &[])].concat();
    assert_eq!(names(&before), ["an empty image"]);
    let five = input(&one_page(0xFFFF, 0xFFFF), &[]).repeat(5);
    assert_eq!(names(&five), ["five or more images that load"]);
    let more = ["an image refused with 20 that is not empty", "an image of more than 574 bytes"];
    assert_eq!(names(&input(&[0; 575], &[])), more);
    assert_eq!(names(&input(&[0; 574], &[])), ["an image refused with 21"]);
    assert_eq!(names(&[0; 32_768]), ["an empty image", "exactly 32,768 bytes"]);
    assert_eq!(names(&[0; 32_769]), ["more than 32,768 bytes"]);
    let largest = all().into_iter().find(|case| case.purpose == "32,765 bytes, the largest total of READ alone");
    let largest = largest.expect("it is stored").input;
    let great = ["a total of READ above 999", different, "five or more images that load", "a total of six digits"];
    assert_eq!(names(&largest), great);
}

#[test]
fn the_sizes_of_chunks() {
    let mut random = Random::new(3);
    let mut single = 0;
    for turn in 0..3_000 {
        let length = random.pick(&[0, 1, 2, 46, 100, 101, 1_000, 32_768, 92_000]);
        let sizes = sizes(&mut random, turn, length);
        assert_eq!(sizes.iter().sum::<usize>(), length);
        match turn % 3 {
            0 => assert_eq!(sizes, [length]),
            1 if length <= 100 => assert_eq!(sizes, vec![1; length]),
            _ => assert!(sizes.iter().all(|&size| size >= 1) && sizes.len() <= 800, "{}", sizes.len()),
        }
        single += usize::from(length > 2 && sizes.contains(&1));
    }
    assert!(single >= 500, "{single}");
}

/// `cat` gives back what it is fed, and `true` reads nothing.
#[test]
fn a_program_is_fed_all_of_the_input() {
    let mut random = Random::new(4);
    for (turn, length) in [0, 1, 46, 99, 100, 101, 3_000, 32_769, 70_000, 0, 46, 90_000].into_iter().enumerate() {
        let input: Vec<u8> = (0..length).map(|_| random.byte()).collect();
        for turn in turn..turn + 3 {
            let sizes = sizes(&mut random, turn as u64, length);
            let given = printed("cat", &input, &sizes).expect("`cat` can be started");
            assert!(given.whole && given.bytes == input, "{length} bytes in {} chunks", sizes.len());
            let given = printed("true", &input, &sizes).expect("`true` can be started");
            assert!(given.whole && given.bytes.is_empty());
        }
    }
}

#[test]
fn a_wrong_program_is_told_apart() {
    let wrong = compare("cat", 3, 0).expect_err("`cat` does not count");
    let hex = "002C01000012000402000016000C03000022000A0308020000090000000A0002000C000400070003000008FFFF00";
    assert!(wrong.starts_with("rights: case 1, the sample alone\ndue:\n0 1 0\n1 1 1\n"), "{wrong}");
    assert!(wrong.ends_with(&format!("chunks: [46]\ninput: {hex}\n")), "{wrong}");
    let wrong = compare("true", 3, 0).expect_err("`true` prints nothing");
    assert!(wrong.contains("\nrefused 0\nprinted:\n(no newline at the end)\nchunks: [46]\n"), "{wrong}");
    let missing = compare("./no-such-program", 3, 0).expect_err("there is none");
    assert!(missing.starts_with("rights: case 1, the sample alone\n./no-such-program: "), "{missing}");
}
