//! Images that the input cuts, bytes left over, and lengths that are not the image's own (RULES 13.2).

use super::{image, sample, samples, site, with, Cases};
use crate::write::{declaring, Plan};

pub fn add(cases: &mut Cases) {
    would_load(cases);
    would_not_load(cases);
    pairs_inside(cases);
    left_over(cases);
    lengths_that_lie(cases);
}

/// The bytes that are there would load by themselves.
fn would_load(cases: &mut Cases) {
    let good = sample().image();
    for (length, what) in [
        (45, "45"),
        (46, "46, as if it counted its own two bytes"),
        (88, "88"),
        (300, "300, which is 44 in its low byte"),
        (574, "574"),
        (575, "575"),
        (0x2C00, "0x2C00, 44 low byte first"),
        (0x2C2C, "0x2C2C"),
        (0x802C, "0x802C"),
        (65_535, "65,535"),
    ] {
        let cut = declaring(length, &good, &[]);
        cases.none(&format!("cut: the sample with length {what}"), cut.clone(), 1);
        let (lines, total) = samples(1);
        let behind = [site(&[&good]), cut].concat();
        cases.some(&format!("cut: the sample, then the sample with length {what}"), behind, &lines, total, 1);
    }
    let least = image(&[(0x8000, 0x0001)]);
    cases.none("cut: the least image with length 32", declaring(32, &least, &[]), 1);
    let greatest = Plan { exponent: 5, pages: vec![(1, 2); 128], programs: vec![(0, 0, 1); 8] }.image();
    cases.none("cut: the greatest image with length 575", declaring(575, &greatest, &[]), 1);
    cases.none("cut: the greatest image with its length low byte first", declaring(0x3E02, &greatest, &[]), 1);
}

/// Some of the bytes are missing.
fn would_not_load(cases: &mut Cases) {
    let good = sample().image();
    let (lines, total) = samples(1);
    for there in [43, 39, 34, 31, 30, 22, 18, 2, 1] {
        let cut = declaring(44, &good[..there], &[]);
        cases.none(&format!("cut: {there} of the sample's 44 bytes"), cut.clone(), 1);
        let purpose = format!("cut: the sample, then {there} of the sample's 44 bytes");
        cases.some(&purpose, [site(&[&good]), cut].concat(), &lines, total, 1);
    }
    let behind = [site(&[&good]), vec![0, 44]].concat();
    cases.some("cut: the sample, then length 44 and no byte", behind, &lines, total, 1);
    let zeros = declaring(50, &good, &[0; 5]);
    cases.none("cut: the sample and five zeros with length 50", zeros, 1);
    let wrong = with(good.clone(), &[(43, 2)]);
    cases.none("cut: the sample with mode byte 2 and length 45", declaring(45, &wrong, &[]), 1);
    let behind = [site(&[&wrong[..], &[]]), declaring(45, &good, &[])].concat();
    cases.none("cut: behind a refused image and an empty one", behind, 3);
    let (lines, total) = samples(2);
    let behind = [site(&[&good, &wrong, &good]), declaring(44, &good[..20], &[])].concat();
    cases.some("cut: in the middle, behind two samples and a refused image", behind, &lines, total, 2);
}

/// What is there of a cut image holds images with their lengths.
fn pairs_inside(cases: &mut Cases) {
    let good = sample().image();
    let two = site(&[&good, &good]);
    cases.none("cut: two samples with their lengths, under length 93", declaring(93, &two, &[]), 1);
    cases.none("cut: two samples with their lengths, under length 65,535", declaring(65_535, &two, &[]), 1);
    cases.none("not cut: two samples with their lengths, under length 92", declaring(92, &two, &[]), 1);
    let (lines, total) = samples(1);
    let behind = [site(&[&good]), declaring(100, &two, &[])].concat();
    cases.some("cut: the sample, then two more under length 100", behind, &lines, total, 1);
    let both = declaring(91, &good, &site(&[&good]));
    cases.none("cut: the sample and the sample with its length, under length 91", both, 1);
    cases.none("cut: two empty images under length 5", vec![0, 5, 0, 0, 0, 0], 1);
    cases.none("cut: an empty image under length 3", vec![0, 3, 0, 0], 1);
    cases.none("cut: one byte under length 3", vec![0, 3, 0], 1);
}

fn left_over(cases: &mut Cases) {
    let good = sample().image();
    let then = |images: &[&[u8]], rest: &[u8]| [&site(images)[..], rest].concat();
    let (lines, total) = samples(1);
    for byte in [0, 1, 44, 255] {
        cases.some(&format!("the sample, then a byte {byte} left over"), then(&[&good], &[byte]), &lines, total, 1);
    }
    cases.some("the sample, an empty image and a byte left over", then(&[&good], &[0, 0, 0]), &lines, total, 2);
    let (lines, total) = samples(2);
    cases.some("two samples, then a byte left over", then(&[&good, &good], &[9]), &lines, total, 1);
    let wrong = with(good.clone(), &[(21, 1)]);
    cases.none("a refused image, then a byte left over", then(&[&wrong], &[0]), 2);
    let rest = then(&[&good, &wrong, &[], &good], &[0]);
    cases.some("a sample, a refused image, an empty one, a sample, a byte left over", rest, &lines, total, 3);
}

/// Images that are not cut, but for the last. What stands behind a length that lies is read where it ends.
fn lengths_that_lie(cases: &mut Cases) {
    let good = sample().image();
    let next = site(&[&good]);
    let (lines, total) = samples(1);
    // The image's last byte and the next length's first are an empty image, and then comes 0x2C01.
    cases.none("length 43 for the sample, then the sample", declaring(43, &good, &next), 3);
    // A byte of the next length is taken, and then comes 0x2C01.
    cases.none("length 45 for the sample, then the sample", declaring(45, &good, &next), 2);
    // The next length is taken, and then comes 0x0100.
    cases.none("length 46 for the sample, then the sample", declaring(46, &good, &next), 2);
    cases.none("length 90 for the sample, then the sample: both are one image", declaring(90, &good, &next), 1);
    // The sample's image is read as lengths: 0x0100 is more than what follows.
    cases.none("length 0 for the sample", declaring(0, &good, &[]), 2);
    cases.none("length 0x2C00 for the sample, then the sample", declaring(0x2C00, &good, &next), 1);
    // The last ten bytes of the image are an image of seven bytes and a byte left over.
    cases.none("length 34 for the sample", declaring(34, &good, &[]), 3);
    // That byte and the next length's first are an empty image, and then comes 0x2C01.
    cases.none("length 34 for the sample, then the sample", declaring(34, &good, &next), 4);
    let hidden = declaring(3, &[0, 0, 0], &next);
    cases.some("an image of three zeros, then the sample", hidden, &lines, total, 1);
    let hidden = declaring(4, &[0, 44, 1, 0], &next);
    cases.some("an image that starts as the sample with its length, then the sample", hidden, &lines, total, 1);
}
