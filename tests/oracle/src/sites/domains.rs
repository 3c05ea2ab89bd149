//! Every domain by itself with each right, all domains together, and domains with different numbers of
//! rights (RULES 13.3, 13.4).

use super::{each, image, site, Cases, OWN};

pub fn add(cases: &mut Cases) {
    alone(cases);
    missing(cases);
    together(cases);
    different(cases);
    over_images(cases);
}

fn alone(cases: &mut Cases) {
    for (domain, own) in (0..16).zip(OWN) {
        let purpose = format!("domain {domain} alone with READ of one page");
        cases.loaded(&purpose, site(&[image(&[(own, 0)])]), &[(domain, 1, 0)], (1, 0));
        let purpose = format!("domain {domain} alone with WRITE of one page");
        cases.loaded(&purpose, site(&[image(&[(0, own)])]), &[(domain, 0, 1)], (0, 1));
    }
    cases.loaded("domain 6 with both rights to one page", site(&[image(&[(0x0040, 0x0040)])]), &[(6, 1, 1)], (1, 1));
    let pages = [(0, 0), (0x0200, 0), (0, 0), (0, 0x0200), (0, 0)];
    cases.loaded("domain 9 with one right to one page, one to another", site(&[image(&pages)]), &[(9, 1, 1)], (1, 1));
}

/// All domains but one have READ, and that one has WRITE.
fn missing(cases: &mut Cases) {
    for domain in [0, 7, 8, 15] {
        let mut rights = each(1, 0);
        rights[usize::from(domain)] = (domain, 0, 1);
        let own = OWN[usize::from(domain)];
        let purpose = format!("all domains but {domain} with READ, and it alone with WRITE");
        cases.loaded(&purpose, site(&[image(&[(!own, own)])]), &rights, (15, 1));
    }
}

fn together(cases: &mut Cases) {
    let all = 0xFFFF;
    cases.loaded("all domains with both rights to one page", site(&[image(&[(all, all)])]), &each(1, 1), (16, 16));
    let pages = |read, write| site(&[image(&[(read, write); 128])]);
    cases.loaded("all domains with both rights to 128 pages", pages(all, all), &each(128, 128), (2_048, 2_048));
    cases.loaded("all domains with READ of 128 pages", pages(all, 0), &each(128, 0), (2_048, 0));
    cases.loaded("all domains with WRITE of 128 pages", pages(0, all), &each(0, 128), (0, 2_048));
    let twice = site(&[image(&[(all, 0); 128]), image(&[(all, all); 128])]);
    cases.loaded("256 pages in two images, all READ, half of them WRITE", twice, &each(256, 128), (4_096, 2_048));
    let thrice = site(&[image(&[(all, all); 128]), image(&[(0, all); 128]), image(&[(0, all)])]);
    cases.loaded("257 pages in three images, all WRITE, 128 READ", thrice, &each(128, 257), (2_048, 4_112));
}

/// Domain s has READ of pages s to 15 and WRITE of pages 1 to s.
fn different(cases: &mut Cases) {
    let pages: [(u16, u16); 16] = [
        (0x0001, 0x0000),
        (0x0003, 0xFFFE),
        (0x0007, 0xFFFC),
        (0x000F, 0xFFF8),
        (0x001F, 0xFFF0),
        (0x003F, 0xFFE0),
        (0x007F, 0xFFC0),
        (0x00FF, 0xFF80),
        (0x01FF, 0xFF00),
        (0x03FF, 0xFE00),
        (0x07FF, 0xFC00),
        (0x0FFF, 0xF800),
        (0x1FFF, 0xF000),
        (0x3FFF, 0xE000),
        (0x7FFF, 0xC000),
        (0xFFFF, 0x8000),
    ];
    let rights = [
        (0, 16, 0),
        (1, 15, 1),
        (2, 14, 2),
        (3, 13, 3),
        (4, 12, 4),
        (5, 11, 5),
        (6, 10, 6),
        (7, 9, 7),
        (8, 8, 8),
        (9, 7, 9),
        (10, 6, 10),
        (11, 5, 11),
        (12, 4, 12),
        (13, 3, 13),
        (14, 2, 14),
        (15, 1, 15),
    ];
    cases.loaded("every domain with numbers of its own", site(&[image(&pages)]), &rights, (136, 120));
    let mut turned = pages;
    turned.reverse();
    cases.loaded("the same with the pages in the other order", site(&[image(&turned)]), &rights, (136, 120));
    let apart: Vec<Vec<u8>> = pages.iter().map(|&page| image(&[page])).collect();
    cases.loaded("the same with each page in an image of its own", site(&apart), &rights, (136, 120));
    let uneven = [(0x0102, 0x0408), (0x1020, 0x4080), (0x0380, 0xC001)];
    let rights = [
        (0, 0, 1),
        (1, 1, 0),
        (3, 0, 1),
        (5, 1, 0),
        (7, 1, 1),
        (8, 2, 0),
        (9, 1, 0),
        (10, 0, 1),
        (12, 1, 0),
        (14, 0, 2),
        (15, 0, 1),
    ];
    cases.loaded("fields with two different bytes", site(&[image(&uneven)]), &rights, (7, 7));
}

fn over_images(cases: &mut Cases) {
    let (first, second, third) =
        (image(&[(0x0001, 0)]), image(&[(0, 0x0100), (0x0100, 0)]), image(&[(0x8000, 0x0001)]));
    let rights = [(0, 1, 1), (8, 1, 1), (15, 1, 0)];
    cases.loaded("three images with different domains", site(&[&first, &second, &third]), &rights, (3, 2));
    cases.loaded("the same in the other order", site(&[&third, &second, &first]), &rights, (3, 2));
    cases.loaded("the first and the last of them", site(&[&first, &third]), &[(0, 1, 1), (15, 1, 0)], (2, 1));
}
