//! Masks with as many domains, of which the smallest number wins (RULES 12.3).

use super::{of, Cases, OWN};

pub fn add(cases: &mut Cases) {
    of_one(cases);
    of_two(cases);
    of_three_and_more(cases);
    not_by_domain(cases);
    designs(cases);
}

fn of_one(cases: &mut Cases) {
    for domain in [0, 3, 6, 7, 8, 11, 14] {
        let field = OWN[domain] + OWN[domain + 1];
        let purpose = format!("domain {domain} or the next one");
        cases.fields(&purpose, 0xFFFF, &[field], OWN[domain]);
    }
    cases.fields("any domain", 0xFFFF, &[0xFFFF], 0x0001);
    cases.fields("domain 0 or 15", 0xFFFF, &[of([0, 15])], 0x0001);
    cases.fields("domain 7 or 15", 0xFFFF, &[of([7, 15])], 0x0080);
    cases.fields("any domain of the high byte", 0xFFFF, &[0xFF00], 0x0100);
    cases.fields("any domain but 0", 0xFFFF, &[0xFFFE], 0x0002);
    cases.fields("any even domain but 0", 0xFFFF, &[0x5554], 0x0004);
    cases.fields("any of 3, 4 and 5 for one, of 4, 5 and 6 for the other", 0xFFFF, &[0x0038, 0x0070], 0x0010);
    cases.fields("the same in the context of 3, 5 and 6", 0x0068, &[0x0038, 0x0070], 0x0020);
    cases.fields("any but 0, any but 1 and any but 2", 0xFFFF, &[0xFFFE, 0xFFFD, 0xFFFB], 0x0008);
}

fn of_two(cases: &mut Cases) {
    cases.fields("two of 0, 1 and 2", 0xFFFF, &[of([0, 1]), of([1, 2]), of([0, 2])], 0x0003);
    cases.fields("two of 13, 14 and 15", 0xFFFF, &[of([13, 14]), of([14, 15]), of([13, 15])], 0x6000);
    cases.fields("a path of four: 0, 1, 2, 3", 0xFFFF, &[of([0, 1]), of([1, 2]), of([2, 3])], 0x0005);
    cases.fields("one of 0 and 1, one of 2 and 3", 0xFFFF, &[of([0, 1]), of([2, 3])], 0x0005);
    cases.fields("one of 0 and 15, one of 1 and 14", 0xFFFF, &[of([0, 15]), of([1, 14])], 0x0003);
    cases.fields("one of 14 and 15, one of 0 and 1", 0xFFFF, &[of([14, 15]), of([0, 1])], 0x4001);
    cases.fields("one of each byte", 0xFFFF, &[0x00FF, 0xFF00], 0x0101);
}

fn of_three_and_more(cases: &mut Cases) {
    cases.fields("one of each of three pairs", 0xFFFF, &[of([0, 5]), of([1, 4]), of([2, 3])], 0x0007);
    cases.fields("one of each of three high pairs", 0xFFFF, &[of([15, 10]), of([14, 11]), of([13, 12])], 0x1C00);
    cases.fields("one of each of four", 0xFFFF, &[0x000F, 0x00F0, 0x0F00, 0xF000], 0x1111);
    let pairs = [0x0003, 0x000C, 0x0030, 0x00C0, 0x0300, 0x0C00, 0x3000, 0xC000];
    cases.fields("one of each of eight pairs", 0xFFFF, &pairs, 0x5555);
    cases.fields("one of each of eight pairs, domain 0 outside the context", 0xFFFE, &pairs, 0x5556);
    // A cycle of an odd length needs one more than half, two of them side by side.
    let five = [of([0, 1]), of([1, 2]), of([2, 3]), of([3, 4]), of([4, 0])];
    cases.fields("a cycle of five", 0xFFFF, &five, 0x000B);
    let seven = [of([0, 1]), of([1, 2]), of([2, 3]), of([3, 4]), of([4, 5]), of([5, 6]), of([6, 0])];
    cases.fields("a cycle of seven", 0xFFFF, &seven, 0x002B);
    let six = [of([0, 1]), of([1, 2]), of([2, 3]), of([3, 4]), of([4, 5]), of([5, 0])];
    cases.fields("a cycle of six", 0xFFFF, &six, 0x0015);
    // All but one of them are needed, and the last one is left out.
    let four = [of([0, 1]), of([0, 2]), of([0, 3]), of([1, 2]), of([1, 3]), of([2, 3])];
    cases.fields("any two of 0 to 3", 0xFFFF, &four, 0x0007);
    let five = [
        of([11, 12]),
        of([11, 13]),
        of([11, 14]),
        of([11, 15]),
        of([12, 13]),
        of([12, 14]),
        of([12, 15]),
        of([13, 14]),
        of([13, 15]),
        of([14, 15]),
    ];
    cases.fields("any two of 11 to 15", 0xFFFF, &five, 0x7800);
    cases.fields("any two of 11 to 15, of which 12 is outside the context", 0xEFFF, &five, 0xE800);
}

/// Either side of a full bipartite graph will do. The side with domain 0 is the larger number.
fn not_by_domain(cases: &mut Cases) {
    let sides = [of([0, 1]), of([0, 2]), of([5, 1]), of([5, 2])];
    cases.fields("0 and 5, or 1 and 2", 0xFFFF, &sides, 0x0006);
    let sides = [of([0, 13]), of([0, 14]), of([15, 13]), of([15, 14])];
    cases.fields("0 and 15, or 13 and 14", 0xFFFF, &sides, 0x6000);
    let sides = [of([0, 1]), of([0, 2]), of([15, 1]), of([15, 2])];
    cases.fields("0 and 15, or 1 and 2", 0xFFFF, &sides, 0x0006);
    let sides = [of([3, 2]), of([3, 6]), of([5, 2]), of([5, 6])];
    cases.fields("3 and 5, or 2 and 6", 0xFFFF, &sides, 0x0028);
    let sides = [
        of([0, 12]),
        of([0, 13]),
        of([0, 14]),
        of([1, 12]),
        of([1, 13]),
        of([1, 14]),
        of([15, 12]),
        of([15, 13]),
        of([15, 14]),
    ];
    cases.fields("0, 1 and 15, or 12, 13 and 14", 0xFFFF, &sides, 0x7000);
    let sides =
        [of([0, 3]), of([0, 4]), of([0, 5]), of([1, 3]), of([1, 4]), of([1, 5]), of([2, 3]), of([2, 4]), of([2, 5])];
    cases.fields("0, 1 and 2, or 3, 4 and 5", 0xFFFF, &sides, 0x0007);
    cases.fields("0, 1 and 2, or 3, 4 and 5, without 1", 0xFFFD, &sides, 0x0038);
}

fn designs(cases: &mut Cases) {
    // Seven points and seven lines of three: any two lines meet, and only a line meets all of them.
    let lines =
        [of([0, 1, 2]), of([0, 3, 4]), of([0, 5, 6]), of([1, 3, 5]), of([1, 4, 6]), of([2, 3, 6]), of([2, 4, 5])];
    cases.fields("the plane of seven points 0 to 6", 0xFFFF, &lines, 0x0007);
    let lines =
        [of([15, 0, 8]), of([15, 3, 5]), of([15, 9, 12]), of([0, 3, 9]), of([0, 5, 12]), of([8, 3, 12]), of([8, 5, 9])];
    cases.fields("the plane of seven points, scattered: its line of 0, 3 and 9", 0xFFFF, &lines, 0x0209);
    // Nine points in a square, with rows, columns and broken diagonals: five are needed. The last row
    // needs one of 6 to 8, and 0 to 3 beside 6 will do.
    let lines = [
        of([0, 1, 2]),
        of([3, 4, 5]),
        of([6, 7, 8]),
        of([0, 3, 6]),
        of([1, 4, 7]),
        of([2, 5, 8]),
        of([0, 4, 8]),
        of([1, 5, 6]),
        of([2, 3, 7]),
        of([0, 5, 7]),
        of([1, 3, 8]),
        of([2, 4, 6]),
    ];
    cases.fields("the plane of nine points 0 to 8", 0xFFFF, &lines, 0x004F);
    // Four by four: one in each row and column. The last row takes 12, which leaves 9, 6 and 3.
    let rows_and_columns = [0x000F, 0x00F0, 0x0F00, 0xF000, 0x1111, 0x2222, 0x4444, 0x8888];
    cases.fields("a square of sixteen, one in each row and column", 0xFFFF, &rows_and_columns, 0x1248);
    cases.fields("the same square without 9: the third row takes 10", 0xFDFF, &rows_and_columns, 0x1428);
    // In each quarter too: 12 leaves nothing of its quarter for the row above, so 10, then 5 and 3.
    let quarters = [0x0033, 0x00CC, 0x3300, 0xCC00];
    let all = [&rows_and_columns[..], &quarters].concat();
    cases.fields("a square of sixteen, one in each row, column and quarter", 0xFFFF, &all, 0x1428);
}
