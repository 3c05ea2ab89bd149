//! The sample, inputs of no or few bytes, empty images, and the same image again and again.

use super::{image, sample, samples, site, Cases};

pub fn add(cases: &mut Cases) {
    the_sample(cases);
    few_bytes(cases);
    empty_images(cases);
    again(cases);
}

/// Both texts in full (RULES 13.7, 13.2).
fn the_sample(cases: &mut Cases) {
    let due = "0 1 0
1 1 1
2 1 1
3 3 0
4 0 0
5 0 0
6 0 0
7 0 0
8 0 0
9 0 0
10 0 0
11 0 0
12 0 0
13 0 0
14 0 0
15 0 0
total 6 2
refused 0
";
    cases.add("the sample alone", site(&[sample().image()]), due.to_string());
    let due = "0 0 0
1 0 0
2 0 0
3 0 0
4 0 0
5 0 0
6 0 0
7 0 0
8 0 0
9 0 0
10 0 0
11 0 0
12 0 0
13 0 0
14 0 0
15 0 0
total 0 0
refused 0
";
    cases.add("no byte, which holds no image", vec![], due.to_string());
}

fn few_bytes(cases: &mut Cases) {
    for byte in [0, 1, 44, 255] {
        cases.none(&format!("a single byte {byte}, left over"), vec![byte], 1);
    }
    cases.none("two bytes, length 0: an empty image", vec![0, 0], 1);
    cases.none("two bytes, length 1 and no byte of the image", vec![0, 1], 1);
    cases.none("two bytes, length 44 and no byte of the image", vec![0, 44], 1);
    cases.none("two bytes, length 256 and no byte of the image", vec![1, 0], 1);
    cases.none("two bytes, length 32,768 and no byte of the image", vec![128, 0], 1);
    cases.none("two bytes, length 65,535 and no byte of the image", vec![255, 255], 1);
    cases.none("three bytes, an image of one byte", vec![0, 1, 7], 1);
    cases.none("three bytes, the first of two of an image", vec![0, 2, 7], 1);
    cases.none("three bytes, an empty image and a byte left over", vec![0, 0, 0], 2);
    cases.none("four bytes, two empty images", vec![0, 0, 0, 0], 2);
    cases.none("four bytes, an empty image and a length above 0", vec![0, 0, 0, 1], 2);
    cases.none("four bytes, an image of one byte and a byte left over", vec![0, 1, 0, 0], 2);
    cases.none("four bytes, an image of two zeros", vec![0, 2, 0, 0], 1);
    cases.none("five bytes, an image of one zero and an empty one", vec![0, 1, 0, 0, 0], 2);
}

fn empty_images(cases: &mut Cases) {
    for count in [3, 10, 255, 256, 257, 999] {
        cases.none(&format!("{count} empty images"), vec![0; 2 * count as usize], count);
    }
    let (lines, total) = samples(1);
    let good = sample().image();
    cases.some("an empty image, then the sample", site(&[&[], &good[..]]), &lines, total, 1);
    cases.some("the sample, then an empty image", site(&[&good[..], &[]]), &lines, total, 1);
    cases.some("five empty images, then the sample", site(&[&[], &[], &[], &[], &[], &good[..]]), &lines, total, 5);
    let (lines, total) = samples(2);
    cases.some("an empty image between two samples", site(&[&good[..], &[], &good]), &lines, total, 1);
    let rest = [&site(&[&[], &good[..], &[], &[], &good, &[]])[..], &[0]].concat();
    cases.some("empty images around two samples, and a byte left over", rest, &lines, total, 5);
}

fn again(cases: &mut Cases) {
    let good = sample().image();
    for (count, what) in [(2, "twice"), (3, "three times"), (100, "100 times"), (300, "300 times")] {
        let (lines, total) = samples(count);
        cases.loaded(&format!("the sample {what}"), site(&vec![&good; count as usize]), &lines, total);
    }
    let empty = image(&[(0, 0), (0, 0)]);
    cases.none("an image without a right, which loads", site(&[&empty]), 0);
    cases.none("three images without a right", site(&[&empty, &empty, &empty]), 0);
    let (lines, total) = samples(1);
    cases.loaded("an image without a right, then the sample", site(&[&empty, &good]), &lines, total);
    cases.loaded("the sample, then an image without a right", site(&[&good, &empty]), &lines, total);
}
