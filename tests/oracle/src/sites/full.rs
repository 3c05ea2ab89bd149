//! Inputs around the longest one that is taken (RULES 13.6), the largest numbers that they can give, and
//! numbers around 256, 65,536 and 100,000.
//!
//! With its length an image has 24 bytes, 4 for each page and 5 for each program. So 60 images of 128 pages
//! and one program take 32,460 bytes, and 308 are left for one image more. It may have 69 pages, which leaves
//! 3 bytes: 7,749 pages in all, with 16 domains each. No input has more: 60 images have at most 7,680 pages,
//! 61 leave 30,999 bytes for them, and more images leave less.

use super::{each, image, sample, samples, site, Cases};
use crate::write::{declaring, Plan};

pub fn add(cases: &mut Cases) {
    largest(cases);
    good_throughout(cases);
    refused(cases);
    much_too_long(cases);
    around_great_numbers(cases);
}

/// 60 images of 128 pages, and one of so many pages and programs, all of them with these fields.
fn sixty_and(page_count: usize, program_count: usize, fields: (u16, u16)) -> Vec<u8> {
    let last = Plan { exponent: 5, pages: vec![fields; page_count], programs: vec![(1, 1, 0); program_count] };
    let mut images = vec![image(&[fields; 128]); 60];
    images.push(last.image());
    site(&images)
}

/// An input of this length.
fn of_length(length: usize, input: Vec<u8>) -> Vec<u8> {
    assert_eq!(input.len(), length);
    input
}

const ALL: (u16, u16) = (0xFFFF, 0xFFFF);

fn largest(cases: &mut Cases) {
    let largest = |rest: &[u8]| [&sixty_and(69, 1, ALL)[..], rest].concat();
    let (lines, total) = (each(7_749, 7_749), (123_984, 123_984));
    cases.loaded("32,765 bytes, the largest total", of_length(32_765, largest(&[])), &lines, total);
    let input = of_length(32_768, largest(&[0, 0, 0]));
    cases.some("32,768 bytes, the largest total, an empty image and a byte left over", input, &lines, total, 2);
    let input = of_length(32_768, largest(&[0, 2, 0]));
    cases.some("32,768 bytes, the largest total and a cut image", input, &lines, total, 1);
    cases.long("32,769 bytes, the largest total and two empty images", of_length(32_769, largest(&[0, 0, 0, 0])));
    let input = of_length(32_765, sixty_and(69, 1, (0xFFFF, 0)));
    cases.loaded("32,765 bytes, the largest total of READ alone", input, &each(7_749, 0), (123_984, 0));
    let input = of_length(32_765, sixty_and(69, 1, (0, 0xFFFF)));
    cases.loaded("32,765 bytes, the largest total of WRITE alone", input, &each(0, 7_749), (0, 123_984));
    let input = of_length(32_765, sixty_and(69, 1, (0x8000, 0x0001)));
    let lines = [(0, 0, 7_749), (15, 7_749, 0)];
    cases.loaded("32,765 bytes, one domain for each right", input, &lines, (7_749, 7_749));
}

/// No byte of these is left over, and no image refused.
fn good_throughout(cases: &mut Cases) {
    let mut lines = each(7_746, 7_746);
    lines[15].2 = 0;
    let input = of_length(32_768, sixty_and(66, 4, (0xFFFF, 0x7FFF)));
    cases.loaded("32,768 bytes, all of them images that load", input, &lines, (123_936, 116_190));
    let input = of_length(32_767, sixty_and(67, 3, ALL));
    cases.loaded("32,767 bytes, all of them images that load", input, &each(7_747, 7_747), (123_952, 123_952));
    let input = of_length(32_766, sixty_and(68, 2, ALL));
    cases.loaded("32,766 bytes, all of them images that load", input, &each(7_748, 7_748), (123_968, 123_968));
    cases.long("32,769 bytes, all of them images that would load", of_length(32_769, sixty_and(70, 1, ALL)));
    let input = of_length(32_770, [&sixty_and(65, 5, ALL)[..], &[0]].concat());
    cases.long("32,770 bytes, images that would load and a byte left over", input);
    // 33 bytes each.
    let many = vec![image(&[(0x8000, 0x0001)]); 992];
    let input = of_length(32_736, site(&many));
    cases.loaded("992 images, the most that can load", input, &[(0, 0, 992), (15, 992, 0)], (992, 992));
}

fn refused(cases: &mut Cases) {
    cases.none("32,768 zeros, 16,384 empty images", vec![0; 32_768], 16_384);
    cases.none("32,767 zeros, 16,383 empty images and a byte left over", vec![0; 32_767], 16_384);
    cases.none("32,766 zeros, 16,383 empty images", vec![0; 32_766], 16_383);
    cases.long("32,769 zeros", vec![0; 32_769]);
    cases.none("32,768 bytes, all 255: one cut image", vec![255; 32_768], 1);
    cases.long("32,769 bytes, all 255", vec![255; 32_769]);
    let good = sample().image();
    let mut longest = good.clone();
    longest.resize(32_766, 0);
    cases.none("32,768 bytes, one image that is not cut", of_length(32_768, declaring(32_766, &longest, &[])), 1);
    cases.none("32,768 bytes, one image that is cut", of_length(32_768, declaring(32_767, &longest, &[])), 1);
    let (lines, total) = samples(1);
    let input = of_length(32_768, [&site(&[&good])[..], &[0; 32_722]].concat());
    cases.some("32,768 bytes, the sample and 16,361 empty images", input, &lines, total, 16_361);
    let input = of_length(32_768, [&[0; 32_722], &site(&[&good])[..]].concat());
    cases.some("32,768 bytes, 16,361 empty images and the sample", input, &lines, total, 16_361);
    cases.long("32,769 bytes, the sample and zeros", of_length(32_769, [&site(&[&good])[..], &[0; 32_723]].concat()));
    // 32 bytes of what is refused beside 46 of the sample.
    let (lines, total) = samples(420);
    let input = site(&[&good[..], &good[..30]].repeat(420));
    cases.some("420 samples, and a refused image behind each", of_length(32_760, input), &lines, total, 420);
}

/// 65,536 is 0 and 65,582 is 46 for those who count the bytes in 16 bits.
fn much_too_long(cases: &mut Cases) {
    let good = sample().image();
    let longer = |length: usize| {
        let mut input = site(&[&good]);
        input.resize(length, 0);
        input
    };
    cases.long("65,535 bytes, the sample and zeros", longer(65_535));
    cases.long("65,536 bytes, the sample and zeros", longer(65_536));
    cases.long("65,582 bytes, the sample and zeros", longer(65_582));
    cases.long("92,000 bytes, 2,000 samples", of_length(92_000, site(&vec![&good; 2_000])));
}

/// So many images of 128 pages, and one of so many pages, all domains with both rights; one domain's READ is
/// missing once where asked for.
fn all_but(images: usize, pages: usize, missing: u16) -> Vec<u8> {
    let mut last = vec![ALL; pages];
    last[0].0 = !missing;
    site(&[vec![image(&[ALL; 128]); images], vec![image(&last)]].concat())
}

fn around_great_numbers(cases: &mut Cases) {
    let mut around = |images: usize, pages: usize, count: u32, total: u32| {
        let purpose = format!("both totals {total}");
        cases.loaded(&purpose, all_but(images, pages, 0), &each(count, count), (total, total));
        let mut lines = each(count, count);
        lines[5].1 = count - 1;
        let purpose = format!("a total of {} and one of {total}", total - 1);
        cases.loaded(&purpose, all_but(images, pages, 0x0020), &lines, (total - 1, total));
    };
    around(0, 16, 16, 256);
    around(1, 128, 256, 4_096);
    around(4, 113, 625, 10_000);
    around(15, 128, 2_048, 32_768);
    around(31, 128, 4_096, 65_536);
    around(48, 106, 6_250, 100_000);
    let thousand = all_but(7, 104, 0x0020);
    let mut lines = each(1_000, 1_000);
    lines[5].1 = 999;
    cases.loaded("1,000 rights of all domains but one, which has 999", thousand, &lines, (15_999, 16_000));
}
