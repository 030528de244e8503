//! Document 01's own cases, run on the reference: Table 3, P1 to P12 and the other cases at the edges; and cases of document 02's orders, worked
//! by hand.

use crate::preheater::EXAMPLE;
use crate::random::Random;
use crate::reference::*;

/// The lister's, of its card of free ends.
const TABLE_3: &str = "\
0 500 -819200 147200
8 0 230400 83200
16 500 0 -108800
24 0 -230400 83200
32 500 819200 147200
ok 5
";

/// The fitter's, of its knots: worked out in exact fractions too (`exact`).
const AT_REST_LISTED: &str = "\
0 500 0 0
8 0 -146579 160836
16 500 174611 -140373
24 0 -333611 89891
32 500 960634 185744
ok 5
";

const MINUTES: [u16; 5] = [0, 8, 16, 24, 32];
const ORDINATES: [i16; 5] = [500, 0, 500, 0, 500];
const SLOPES: [i32; 5] = [-819_200, 230_400, 0, -230_400, 819_200];
const CURVATURES: [i32; 5] = [147_200, 83_200, -108_800, 83_200, 147_200];

fn table_3_card() -> Vec<u8> {
    card_bytes(&MINUTES, &ORDINATES, &SLOPES, &CURVATURES, 0, 0)
}

fn number_and_place<T: std::fmt::Debug>(answer: Result<T, Refusal>) -> (u32, u32) {
    answer.map_or_else(|refusal| (refusal.number, refusal.place), |_| (0, 0))
}

fn fit_number(minutes: &[u16], ordinates: &[i16], left: End, right: End) -> (u32, u32) {
    let (mut slopes, mut curvatures) = (vec![0; minutes.len()], vec![0; minutes.len()]);
    number_and_place(fit_ends(minutes, ordinates, &mut slopes, &mut curvatures, left, right))
}

/// A record of the fitter, of a knot.
fn knot(minute: u16, ordinate: i16) -> Vec<u8> {
    [&[4, 0, 4, 0], &minute.to_le_bytes()[..], &ordinate.to_le_bytes()].concat()
}

/// And of a log.
fn log(first: u16, bytes: &[u8]) -> Vec<u8> {
    [&(2 + bytes.len() as u16).to_le_bytes()[..], &[7, 0], &first.to_le_bytes(), bytes].concat()
}

#[test]
fn table_3_is_listed() {
    let records: Vec<Vec<u8>> = (0..5).map(|i| knot(MINUTES[i], ORDINATES[i])).collect();
    assert_eq!(fitter(&records.concat()), AT_REST_LISTED);
    assert_eq!(lister(&table_3_card()), TABLE_3);
}

/// What a fit gives between these ends, and the bytes of its card with these codes.
fn card_of(left: End, codes: [u16; 2]) -> Vec<u8> {
    let (mut slopes, mut curvatures) = ([0; 5], [0; 5]);
    assert_eq!(fit_ends(&MINUTES, &ORDINATES, &mut slopes, &mut curvatures, left, FREE), Ok(()));
    card_bytes(&MINUTES, &ORDINATES, &slopes, &curvatures, codes[0], codes[1])
}

#[test]
fn a_fits_card_has_the_codes_of_its_ends() {
    assert_eq!(card_of(FREE, [0, 0]), table_3_card());
    assert_eq!(lister(&card_of(AT_REST, [1, 0])), AT_REST_LISTED);
    assert_eq!(lister(&card_of(AT_REST, [0, 0])), "refused 10 at 0\n");
    // With a code that asks for less a free card is sound too.
    assert_eq!(lister(&card_of(FREE, [1, 0])), TABLE_3);
}

/// Two sheets of which one kind of left end is accepted and the other is not.
#[test]
fn one_sheet_for_each_kind_of_left_end() {
    let (minutes, ordinates) = ([0, 1, 4, 5], [53, 189, 30, 41]);
    assert_eq!([FREE, AT_REST].map(|left| fit_number(&minutes, &ordinates, left, FREE)), [(0, 0), (9, 3)]);
    let (minutes, ordinates) = ([0, 2, 4, 7, 11, 15], [-85, 164, 11, -28, 86, 112]);
    assert_eq!([FREE, AT_REST].map(|left| fit_number(&minutes, &ordinates, left, FREE)), [(9, 0), (0, 0)]);
}

/// Its knots as means: a byte of 10 is 5 %. The logs have 1, 0 and 2 faults.
#[test]
fn table_3_is_listed_from_logs_with_their_faults() {
    let records = [knot(0, 500), log(7, &[0, 255]), log(13, &[10; 6]), knot(24, 0), log(30, &[10, 255, 255, 10])];
    let listed = "\
0 500 0 0
8 0 -146579 160836 1
16 500 174611 -140373 0
24 0 -333611 89891
32 500 960634 185744 2
ok 5
";
    assert_eq!(fitter(&records.concat()), listed);
    // P8 on a level line, on which every curve rests.
    let records = [knot(59, 5050), log(60, &[100, 255, 102]), knot(63, 5050)];
    assert_eq!(fitter(&records.concat()), "59 5050 0 0\n61 5050 0 0 1\n63 5050 0 0\nok 3\n");
}

#[test]
fn a_logs_refusal_in_the_fitter_stands_at_its_knot() {
    let at_knot_2 = |first: u16, bytes: &[u8]| fitter(&[knot(0, 0), log(8, &[1, 2]), log(first, bytes)].concat());
    assert_eq!(at_knot_2(16, &[1, 201]), "refused 12 at 2\n");
    assert_eq!(at_knot_2(16, &[255]), "refused 13 at 2\n");
    assert_eq!(at_knot_2(16, &[]), "refused 16 at 2\n");
    assert_eq!(at_knot_2(16, &[1; 61]), "refused 16 at 2\n");
    assert_eq!(at_knot_2(65_535, &[1, 1]), "refused 19 at 2\n");
    assert_eq!(at_knot_2(65_535, &[1, 255, 255]), "refused 23 at 2\n");
    // The first bad log, whatever its number, and before what the fit refuses at an earlier knot.
    assert_eq!(fitter(&[knot(8, 0), knot(8, 30_000), log(8, &[255]), log(9, &[201])].concat()), "refused 13 at 2\n");
    // The fit reads where the logs stand: at 60, as the knot before does, and at 121.
    assert_eq!(fitter(&[knot(0, 0), knot(60, 0), log(30, &[0; 60])].concat()), "refused 4 at 2\n");
    assert_eq!(fitter(&[knot(0, 0), knot(60, 0), log(91, &[0; 60])].concat()), "refused 5 at 2\n");
}

#[test]
fn the_fitter_goes_14_1_2_before_its_logs() {
    let bad = log(8, &[255]);
    let records = |count: usize, behind: &[u8]| fitter(&[bad.repeat(count), behind.to_vec()].concat());
    assert_eq!((records(2, &[]), records(3, &[])), ("refused 1 at 0\n".to_string(), "refused 13 at 0\n".to_string()));
    assert_eq!((records(64, &[]), records(65, &[])), ("refused 13 at 0\n".to_string(), "refused 2 at 0\n".to_string()));
    // Each of these logs takes 7 bytes. The 66th is not looked at.
    assert_eq!((records(1, &[7]), records(64, &[7])), ("refused 14 at 7\n".to_string(), "refused 14 at 448\n".to_string()));
    assert_eq!(records(65, &[7]), "refused 2 at 0\n");
    let short: [&[u8]; 7] = [&[0], &[2, 0, 7], &[2, 0, 7, 0], &[2, 0, 7, 0, 8], &[3, 0, 7, 0, 8, 0], &[0, 0, 7, 0], &[1, 0, 7, 0, 8]];
    assert_eq!(short.map(|record| records(3, record)), [(); 7].map(|()| "refused 14 at 21\n".to_string()));
    let wrong: [&[u8]; 3] = [&[2, 0, 4, 0, 8, 0], &[4, 0, 5, 0, 8, 0, 1, 1], &[4, 0, 7, 1, 8, 0, 1, 1]];
    assert_eq!(wrong.map(|record| records(3, record)), [(); 3].map(|()| "refused 14 at 21\n".to_string()));
}

#[test]
fn table_3_card_has_its_bytes() {
    let start = [
        0x06, 0x00, 0x01, 0x00, 0x05, 0x00, 0x00, 0x00, 0x00, 0x00, 0x0C, 0x00, 0x02, 0x00, 0x00, 0x00, 0xF4, 0x01, 0x00, 0x80, 0xF3, 0xFF,
        0x00, 0x3F, 0x02, 0x00,
    ];
    let mut buffer = [0; 94];
    assert_eq!(write(&MINUTES, &ORDINATES, &SLOPES, &CURVATURES, 0, 0, &mut buffer), Ok(94));
    assert_eq!(buffer[..26], start);
    assert_eq!(buffer[..], table_3_card());
}

#[test]
fn p1_to_p3() {
    let card = table_3_card();
    let at_4 = reading(&card, 4).unwrap();
    assert_eq!((at_4.value, at_4.slope), (-14, -238_400));
    assert_eq!(reading(&card, 12).unwrap().value, 314);
    assert_eq!(reading(&card, 32).unwrap().value, 500);
    assert_eq!(number_and_place(reading(&card, 33)), (11, 0));
}

#[test]
fn p4_to_p6() {
    let with = |curvature: i32| {
        let mut curvatures = CURVATURES;
        curvatures[2] = curvature;
        number_and_place(check(&card_bytes(&MINUTES, &ORDINATES, &SLOPES, &curvatures, 0, 0)))
    };
    assert_eq!(with(-108_798), (0, 0));
    assert_eq!(with(-108_797), (10, 2));
    assert_eq!(with(-108_802), (0, 0));
    assert_eq!(with(-108_803), (10, 2));
}

#[test]
fn p7() {
    let card = card_bytes(&[0, 2, 4], &[0, 1, 2], &[2048; 3], &[0; 3], 0, 0);
    assert_eq!(reading(&card, 1).unwrap().value, 0);
    assert_eq!(reading(&card, 3).unwrap().value, 2);
}

/// The swing's knot, minute, below and above.
fn swung(card: &[u8]) -> (u32, u32, u32, u32) {
    let Swing { knot, minute, below, above } = swing(card).unwrap();
    (knot, minute, below, above)
}

/// The cubic x(x − a)(x − b)/2 at the minutes 0, 8 and 16, with both ends given; and the same turned over.
fn cubics(a: i32, b: i32) -> [Vec<u8>; 2] {
    let minutes = [0, 8, 16];
    let ordinates = [0, 8, 16].map(|x: i32| (x * (x - a) * (x - b) / 2) as i16);
    let slopes = [0, 8, 16].map(|x| 2048 * (3 * x * x - 2 * (a + b) * x + a * b));
    let curvatures = [0, 8, 16].map(|x| 4096 * (3 * x - a - b));
    let card = |sign: i32| {
        let (slopes, curvatures) = (slopes.map(|m| sign * m), curvatures.map(|c| sign * c));
        card_bytes(&minutes, &ordinates.map(|y| sign as i16 * y), &slopes, &curvatures, 1, 1)
    };
    [card(1), card(-1)]
}

#[test]
fn swings_by_hand() {
    // Beside 0 and 8 the curve is -14, -56, -65, -45 at the minutes 4 to 7, and the same at 28 to 25.
    assert_eq!(swung(&table_3_card()), (0, 6, 65, 0));
    // From rest it is below 0 by 16 at 9, above 500 by 25 at 17, and below 0 by 69, 109, 113 and 78 from 25
    // on.
    assert_eq!(swung(&card_of(AT_REST, [1, 0])), (3, 27, 113, 0));
    // x(x - 4)(x - 8)/2 is 12 at 2 and -12 at 6, and rises from 8 on: both sides alike, and the first of the
    // two minutes.
    assert_eq!(cubics(4, 8).map(|card| swung(&card)), [(0, 2, 12, 12); 2]);
    // x(x - 3)(x - 8)/2 is 7 at 1 and -18 at 6, x(x - 5)(x - 8)/2 is 18 at 2 and -7 at 7.
    assert_eq!(cubics(3, 8).map(|card| swung(&card)), [(0, 6, 18, 7), (0, 6, 7, 18)]);
    assert_eq!(cubics(5, 8).map(|card| swung(&card)), [(0, 2, 7, 18), (0, 2, 18, 7)]);
    // x(x - 8)(x - 16)/2 is 97.5 at 3, which is 98, and -97.5 at 13: two gaps alike, the first above or
    // below.
    assert_eq!(cubics(8, 16).map(|card| swung(&card)), [(0, 3, 0, 98), (0, 3, 98, 0)]);
}

/// The parabola through 0 and 2 at this height, half a hundredth higher at 1: a half is rounded to even
/// before it is measured.
#[test]
fn a_swing_is_of_readings() {
    let parabola = |y: i16| card_bytes(&[0, 2, 4], &[y, y, y - 4], &[4096, -4096, -12_288], &[-4096; 3], 0, 0);
    assert_eq!([0, 1, 2, -1].map(|y| swung(&parabola(y))), [(0, 0, 0, 0), (0, 1, 0, 1), (0, 0, 0, 0), (0, 1, 0, 1)]);
}

#[test]
fn a_curve_within_its_knots_does_not_swing() {
    assert_eq!(swung(&line_of(3)), (0, 0, 0, 0));
    assert_eq!(swung(&card_bytes(&[5, 7, 9], &[0, 1, 2], &[2048; 3], &[0; 3], 0, 0)), (0, 5, 0, 0));
    // A gap of one minute has no minute between its knots.
    assert_eq!(swung(&card_bytes(&[7, 8, 9], &[128, 0, 128], &[-1_048_576, 0, 1_048_576], &[1_048_576; 3], 0, 0)), (0, 7, 0, 0));
}

/// Knots of 20,000 at minutes 60 apart, with the steepest slopes and the greatest curvatures: 53,600 in the
/// middle, which no value is beyond (`header`).
#[test]
fn a_swing_may_be_33_600() {
    let limit = CARD_NUMBER_LIMIT;
    let turned = |sign: i32| {
        let (slopes, curvatures) = ([limit, -limit, 585_462].map(|m| sign * m), [limit, limit, -96_765].map(|c| sign * c));
        card_bytes(&[100, 160, 162], &[20_000, 20_000, 19_969].map(|y| sign as i16 * y), &slopes, &curvatures, 1, 1)
    };
    assert_eq!(swung(&turned(1)), (0, 130, 0, 33_600));
    assert_eq!(swung(&turned(-1)), (0, 130, 33_600, 0));
}

#[test]
fn the_swing_has_the_cards_refusals() {
    let card = table_3_card();
    assert_eq!(number_and_place(swing(&card[..93])), (14, 90));
    assert_eq!(number_and_place(swing(&card_bytes(&[0, 1], &[0; 2], &[0; 2], &[0; 2], 0, 0))), (1, 0));
    assert_eq!(number_and_place(swing(&card_bytes(&MINUTES, &ORDINATES, &SLOPES, &[0; 5], 0, 3))), (15, 1));
    assert_eq!(number_and_place(swing(&card_bytes(&MINUTES, &ORDINATES, &SLOPES, &[0; 5], 0, 0))), (10, 0));
}

/// An explanation's gap, minutes, parts and denominator.
fn parts(card: &[u8], minute: u16) -> (u32, u32, [i128; 6], i128) {
    let Explained { gap, minutes, parts, denominator } = explain(card, minute).unwrap();
    (gap, minutes, parts, denominator)
}

/// Its number, place, order, jump and allowance, zeros where there is no reason.
fn reason(card: &[u8], minute: u16) -> (u32, u32, u32, i128, i128) {
    match explain(card, minute) {
        Ok(_) => (0, 0, 0, 0, 0),
        Err((Refusal { number, place }, None)) => (number, place, 0, 0, 0),
        Err((Refusal { number, place }, Some(Jump { order, size, allowed }))) => (number, place, order, size, allowed),
    }
}

/// Worked out in fractions by a program of its own, in another language. Over 8192·8^5 minute 4 is 250 + 0 −
/// 250 − 70.3125 + 35.9375 + 20.3125, which is −14.0625, and minute 12 is 314.0625.
#[test]
fn table_3_is_explained() {
    let (card, under) = (table_3_card(), 268_435_456);
    let at_4 = [67_108_864_000, 0, -67_108_864_000, -18_874_368_000, 9_646_899_200, 5_452_595_200];
    assert_eq!(parts(&card, 4), (0, 4, at_4, under));
    assert_eq!(at_4.iter().sum::<i128>(), -3_774_873_600);
    let at_12 = [0, 67_108_864_000, 18_874_368_000, 0, 5_452_595_200, -7_130_316_800];
    assert_eq!(parts(&card, 12), (1, 4, at_12, under));
    assert_eq!(at_12.iter().sum::<i128>(), 84_305_510_400);
    // A knot's minute has its ordinate alone: an inner knot's in the gap on its right, the last one's in the
    // last gap.
    assert_eq!(parts(&card, 0), (0, 0, [134_217_728_000, 0, 0, 0, 0, 0], under));
    assert_eq!(parts(&card, 8), (1, 0, [0; 6], under));
    assert_eq!(parts(&card, 16), (2, 0, [134_217_728_000, 0, 0, 0, 0, 0], under));
    assert_eq!(parts(&card, 32), (3, 8, [0, 134_217_728_000, 0, 0, 0, 0], under));
    assert_eq!(reason(&card, 33), (11, 0, 0, 0, 0));
}

#[test]
fn the_parts_of_every_minute_of_table_3_add_up() {
    let card = table_3_card();
    let knots = check(&card).unwrap().knots;
    for minute in 0..=32 {
        let explained = explain(&card, minute).unwrap();
        let gap = (explained.gap as usize).min(3);
        assert_eq!(i128::from(minute), knots[gap].x + i128::from(explained.minutes));
        assert_eq!(explained.sum(), numerator(knots[gap], knots[gap + 1]).at(explained.minutes.into()), "minute {minute}");
        let value = nearest_even(explained.sum(), explained.denominator);
        assert_eq!(value, reading(&card, minute).unwrap().value.into(), "minute {minute}");
        assert_eq!(explain(&sloped_bytes(&MINUTES, &ORDINATES, &SLOPES, &CURVATURES), minute), Ok(explained));
    }
}

/// Table 3's card with these numbers at a knot.
fn table_3_with(place: usize, slope: i32, curvature: i32, codes: [u16; 2]) -> Vec<u8> {
    let (mut slopes, mut curvatures) = (SLOPES, CURVATURES);
    slopes[place] = slope;
    curvatures[place] = curvature;
    card_bytes(&MINUTES, &ORDINATES, &slopes, &curvatures, codes[0], codes[1])
}

/// Three units of curvature at an inner knot between gaps of 8 are 3·6/8 of the third, of which 2·(16/64 +
/// 4/8) is allowed: over 8³·8³ that is 589,824 and 393,216. Four units of slope are 4·32/8³ of the fourth, of
/// which 2·(20/8³ + 4/8²) is allowed, over 8⁴·8⁴.
#[test]
fn p4_to_p6_have_their_reasons() {
    let with = |curvature: i32| reason(&table_3_with(2, 0, curvature, [0, 0]), 16);
    assert_eq!([-108_797, -108_803].map(with), [(10, 2, 3, 589_824, 393_216); 2]);
    assert_eq!([-108_798, -108_802].map(with), [(0, 0, 0, 0, 0); 2]);
    assert_eq!([3, 4].map(|m| reason(&table_3_with(2, m, -108_800, [0, 0]), 0)), [(0, 0, 0, 0, 0), (10, 2, 4, 4_194_304, 3_407_872)]);
    assert_eq!(reason(&table_3_with(2, -4, -108_800, [0, 0]), 0), (10, 2, 4, 4_194_304, 3_407_872));
    // What is accepted has the changed number in its parts: 64·(16·64·-108,798) in the middle of the gap.
    assert_eq!(parts(&table_3_with(2, 0, -108_798, [0, 0]), 12).2[5], -108_798 * 65_536);
}

/// An end's one side over the one gap's power: by hand over 8³, and of three knots on a level over 1 and over
/// 2³ or 2⁴.
#[test]
fn the_reasons_of_ends() {
    let (first, last) = (|code| table_3_with(0, -819_203, 147_204, [code, 0]), |code| table_3_with(4, 819_203, 147_204, [0, code]));
    assert_eq!([0, 1, 2].map(|code| reason(&first(code), 0)), [(10, 0, 3, 480, 384), (0, 0, 0, 0, 0), (0, 0, 0, 0, 0)]);
    assert_eq!([0, 1, 2].map(|code| reason(&last(code), 0)), [(10, 4, 3, 480, 384), (0, 0, 0, 0, 0), (0, 0, 0, 0, 0)]);
    // Both over: the third where it is asked, the fourth where it alone is.
    let on_left = |code| reason(&card_bytes(&[0, 2, 4], &[0; 3], &[1, -5, 6], &[12, -4, 0], code, 0), 0);
    assert_eq!([0, 1, 2].map(on_left), [(10, 0, 3, 104, 48), (0, 0, 0, 0, 0), (10, 0, 4, 68, 56)]);
    let on_right = |code| reason(&card_bytes(&[0, 1, 2], &[0; 3], &[-1, -2, 5], &[5, -10, -3], 0, code), 2);
    assert_eq!([0, 1, 2].map(on_right), [(10, 2, 3, 43, 20), (0, 0, 0, 0, 0), (10, 2, 4, 41, 24)]);
    // The fourth alone where both are asked.
    assert_eq!(reason(&card_bytes(&[0, 1, 2], &[0; 3], &[-3, 0, -2], &[9, 2, -6], 0, 0), 1), (10, 0, 4, 25, 24));
    assert_eq!(reason(&card_bytes(&[0, 1, 2], &[0; 3], &[2, 0, 3], &[-6, 2, 9], 0, 0), 1), (10, 2, 4, 25, 24));
}

/// Between gaps of 1 and 2, and of 10 and 30: the product of both gaps' powers.
#[test]
fn the_reasons_between_uneven_gaps() {
    let of =
        |minutes: &[u16; 3], slope: i32, curvature: i32| reason(&card_bytes(minutes, &[0; 3], &[0, slope, 0], &[0, curvature, 0], 1, 1), 0);
    assert_eq!([of(&[0, 1, 3], 2, -2), of(&[0, 1, 3], -2, 2)], [(10, 1, 3, 216, 208); 2]);
    assert_eq!([of(&[0, 1, 3], 2, 2), of(&[0, 1, 3], -2, -2)], [(10, 1, 4, 504, 440); 2]);
    assert_eq!([of(&[0, 1, 3], 2, -1), of(&[0, 1, 3], 2, 1)], [(10, 1, 4, 612, 440), (10, 1, 4, 540, 440)]);
    assert_eq!([of(&[0, 2, 3], -2, -2), of(&[0, 2, 3], 2, 2)], [(10, 1, 3, 216, 208); 2]);
    assert_eq!([of(&[0, 10, 40], 0, 1), of(&[0, 10, 40], 0, 2)], [(0, 0, 0, 0, 0), (10, 1, 3, 21_600_000, 19_200_000)]);
    // The largest jump of the third that a card can have.
    let (limit, high) = (CARD_NUMBER_LIMIT, 20_000);
    let card = card_bytes(&[0, 60, 120], &[-high, high, -high], &[-limit, -limit, limit], &[-limit, limit, -limit], 1, 1);
    assert_eq!(reason(&card, 0), (10, 1, 3, 8_155_991_900_160_000, 6_635_520_000));
}

/// Four gs a side, and never the fourth.
#[test]
fn the_reasons_of_given_slopes() {
    let flat = |minutes: &[u16; 3], curvatures: [i32; 3]| reason(&sloped_bytes(minutes, &[0; 3], &[0; 3], &curvatures), 0);
    assert_eq!(flat(&[0, 1, 2], [1, -1, 1]), (0, 0, 0, 0, 0));
    assert_eq!(flat(&[0, 1, 2], [2, 1, 1]), (10, 0, 3, 5, 4));
    assert_eq!(flat(&[0, 1, 2], [1, 1, 2]), (10, 2, 3, 5, 4));
    assert_eq!(flat(&[0, 1, 2], [0, -2, 0]), (10, 1, 3, 12, 8));
    assert_eq!(flat(&[0, 1, 3], [-2, -2, -1]), (10, 1, 3, 52, 48));
    let with = |curvature: i32| {
        let mut curvatures = CURVATURES;
        curvatures[2] = curvature;
        reason(&sloped_bytes(&MINUTES, &ORDINATES, &SLOPES, &curvatures), 16)
    };
    assert_eq!([-108_799, -108_798].map(with), [(0, 0, 0, 0, 0), (10, 2, 3, 393_216, 262_144)]);
    // Its fourth jumps, of which nothing is asked: under the other head it is what is named.
    assert_eq!(reason(&table_4_card(), 1), (0, 0, 0, 0, 0));
    let (minutes, ordinates, slopes, curvatures) = TABLE_4;
    let coded = |code: u16| reason(&card_bytes(&minutes, &ordinates, &slopes, &curvatures, code, code), 1);
    assert_eq!([0, 1].map(coded), [(10, 0, 4, 387_480, 56), (10, 1, 4, 520_092, 440)]);
}

/// A jump is that of the exact curve: a third of the third derivative of N/(8192·h^5) and a twelfth of the
/// fourth, in card units, on either side of the knot, and nothing beyond an end.
#[test]
fn a_reasons_jump_is_the_exact_curves() {
    let mut random = Random::new(9);
    let mut met = [0; 5];
    for _ in 0..4000 {
        let mut next = |most: i64| random.within(-most, most);
        let [a, b] = [next(29) + 31, next(29) + 31].map(|gap| gap as u16);
        let (slopes, curvatures) = ([(); 3].map(|()| next(40) as i32), [(); 3].map(|()| next(3) as i32));
        let ordinates = [(); 3].map(|()| 7 * next(1) as i16 * i16::from(next(9) == 0));
        let codes = [next(1), next(1)].map(|code| (code + 1) as u16);
        let card = card_bytes(&[0, a, a + b], &ordinates, &slopes, &curvatures, codes[0], codes[1]);
        let (10, place, order, jump, allowance) = reason(&card, 0) else { continue };
        let knots = before_its_jumps(&card).unwrap().knots;
        let derived = |left: usize, tau: i128| {
            let third = numerator(knots[left], knots[left + 1]).derivative().derivative().derivative();
            if order == 3 {
                third.at(tau)
            } else {
                third.derivative().at(tau)
            }
        };
        let (place, p, h) = (place as usize, i128::from(a), i128::from(b));
        // Over 2·3·h^5 and 2·12·h^5: what is left of the cubes or the fourth powers.
        let times = |gap: i128| if order == 3 { 6 * gap * gap } else { 24 * gap };
        let (whole, wanted) = match place {
            0 => (times(p), derived(0, 0)),
            1 => (times(p) * times(h), (derived(1, 0) * p.pow(5) - derived(0, p) * h.pow(5)) * if order == 3 { 6 } else { 24 }),
            _ => (times(h), derived(1, h)),
        };
        assert_eq!(whole * jump, wanted.abs(), "{card:?}");
        assert!(jump > allowance, "{card:?}");
        met[place] += 1;
        met[order as usize] += 1;
    }
    assert!(met.iter().all(|&times| times > 20), "{met:?}");
}

#[test]
fn only_a_10_has_a_reason_and_it_is_before_11() {
    let card = table_3_card();
    assert_eq!([0, 9, 57, 93].map(|length| reason(&card[..length], 4).0), [14; 4]);
    assert_eq!(reason(&card[..93], 4), (14, 90, 0, 0, 0));
    assert_eq!(reason(&card_bytes(&[0, 1], &[0; 2], &[0; 2], &[9; 2], 0, 0), 0), (1, 0, 0, 0, 0));
    assert_eq!(reason(&card_bytes(&[0; 65], &[0; 65], &[0; 65], &[9; 65], 0, 0), 0), (2, 0, 0, 0, 0));
    assert_eq!(reason(&card_bytes(&MINUTES, &ORDINATES, &SLOPES, &[0; 5], 0, 3), 4), (15, 1, 0, 0, 0));
    assert_eq!(reason(&card_bytes(&[0, 1, 1], &[0; 3], &[9; 3], &[9; 3], 0, 0), 0), (4, 2, 0, 0, 0));
    assert_eq!(reason(&card_bytes(&[0, 1, 62], &[0; 3], &[9; 3], &[9; 3], 0, 0), 0), (5, 2, 0, 0, 0));
    assert_eq!(reason(&card_bytes(&[0, 1, 2], &[0, 20_001, 0], &[9; 3], &[9; 3], 0, 0), 0), (6, 1, 0, 0, 0));
    // A number beyond its limit, though a knot before it jumps.
    assert_eq!(reason(&card_bytes(&[0, 1, 2], &[0; 3], &[9, 0, CARD_NUMBER_LIMIT + 1], &[9; 3], 0, 0), 0), (9, 2, 0, 0, 0));
    assert_eq!(reason(&table_3_with(2, 0, -108_797, [0, 0]), 33), (10, 2, 3, 589_824, 393_216));
    let level = card_bytes(&[5, 7, 9], &[0; 3], &[0; 3], &[0; 3], 0, 0);
    assert_eq!([0, 4, 5, 9, 10, 65_535].map(|minute| reason(&level, minute).0), [11, 11, 0, 0, 11, 11]);
}

/// Table 1 of document 001 as it is printed, from the index −1 on.
const TABLE_1: [i128; 19] = [
    1,
    4,
    15,
    56,
    209,
    780,
    2911,
    10_864,
    40_545,
    151_316,
    564_719,
    2_107_560,
    7_865_521,
    29_354_524,
    109_552_575,
    408_855_776,
    1_525_870_529,
    5_694_626_340,
    21_252_634_831,
];

/// The scale of n values is the entry with the index n − 3, and the printed entries are by their rule.
#[test]
fn the_scales_are_table_1() {
    for n in FEWEST_VALUES..=MOST_VALUES {
        assert_eq!(Cubic::of(&vec![7; n]).scale, TABLE_1[n - 2], "{n} values");
    }
    for entries in TABLE_1.windows(3) {
        assert_eq!(entries[2], 4 * entries[1] - entries[0]);
    }
}

/// Document 001's example, times ten: its column of 40545/6·M, and its last column within a unit of the last
/// decimal that is printed.
#[test]
fn document_001s_example_has_its_unknowns() {
    let cubic = Cubic::of(&EXAMPLE);
    assert_eq!(cubic.scale, 40_545);
    assert_eq!(cubic.unknowns, [0, 732_450, 1_124_700, 39_600, 135_975, -178_050, -31_950, -99_600, -177_825, 0]);
    let printed = [0, 18_065_112, 27_739_548, 976_693, 3_353_681, -4_391_417, -788_013, -2_456_530, -4_385_868, 0];
    for (unknown, printed) in cubic.unknowns.iter().zip(printed) {
        assert!((unknown * 1_000_000 - printed * cubic.scale).abs() <= cubic.scale, "{unknown} beside {printed}");
    }
    for place in 0..10 {
        assert_eq!(unknown_at(&EXAMPLE, place), Ok((cubic.unknowns[usize::from(place)], 40_545)));
    }
    assert_eq!(number_and_place(unknown_at(&EXAMPLE, 10)), (11, 0));
}

/// The way of document 001: the first unknown by equation (3.13) from the printed table, each other one from
/// the two before it.
#[test]
fn the_unknowns_are_those_of_document_001s_way() {
    let mut random = Random::new(11);
    for turn in 0..4_000 {
        let n = 3 + turn % 18;
        let values: Vec<i16> = (0..n).map(|_| random.within(-20_000, 20_000) as i16).collect();
        let a = |index: usize| TABLE_1[index + 1];
        let second_difference = |j: usize| i128::from(values[j - 1]) - 2 * i128::from(values[j]) + i128::from(values[j + 1]);
        // The document counts its values from 1: its r is the place r − 1 here, and its a with the index
        // n − r − 2 may be that of −1.
        let term = |r: usize| (if r % 2 == 0 { 1 } else { -1 }) * TABLE_1[n - r - 1] * second_difference(r - 1);
        let mut unknowns = vec![0, (2..n).map(term).sum::<i128>()];
        for place in 1..n - 1 {
            unknowns.push(a(n - 3) * second_difference(place) - 4 * unknowns[place] - unknowns[place - 1]);
        }
        let cubic = Cubic::of(&values);
        assert_eq!((cubic.unknowns, cubic.scale), (unknowns, a(n - 3)), "{values:?}");
    }
}

/// The determinant of a square, by its first row.
fn determinant(rows: &[Vec<i128>]) -> i128 {
    if rows.is_empty() {
        return 1;
    }
    let without = |column: usize| -> Vec<Vec<i128>> {
        rows[1..]
            .iter()
            .map(|row| row.iter().enumerate().filter(|(place, _)| *place != column).map(|(_, &entry)| entry).collect())
            .collect()
    };
    let term = |(column, &entry): (usize, &i128)| {
        if entry == 0 {
            0
        } else {
            (if column % 2 == 0 { entry } else { -entry }) * determinant(&without(column))
        }
    };
    rows[0].iter().enumerate().map(term).sum()
}

/// Cramer's rule on the matrix of equation (3.2), which has nothing of either way.
#[test]
fn the_unknowns_are_quotients_of_determinants() {
    let mut random = Random::new(12);
    for turn in 0..60 {
        let n = 3 + turn % 6;
        let values: Vec<i16> = (0..n).map(|_| random.within(-20_000, 20_000) as i16).collect();
        let entry = |row: usize, column: usize| [4, 1].get(row.abs_diff(column)).copied().unwrap_or(0);
        let matrix: Vec<Vec<i128>> = (0..n - 2).map(|row| (0..n - 2).map(|column| entry(row, column)).collect()).collect();
        let right: Vec<i128> =
            values.windows(3).map(|three| i128::from(three[0]) - 2 * i128::from(three[1]) + i128::from(three[2])).collect();
        let cubic = Cubic::of(&values);
        assert_eq!(cubic.scale, determinant(&matrix));
        for column in 0..n - 2 {
            let mut exchanged = matrix.clone();
            (0..n - 2).for_each(|row| exchanged[row][column] = right[row]);
            assert_eq!(cubic.unknowns[column + 1], determinant(&exchanged), "{values:?}");
        }
    }
}

/// Equation (2.1), each third power and each product as it stands there, with h = 1.
#[test]
fn the_exact_value_is_equation_2_1() {
    let mut random = Random::new(13);
    for turn in 0..2_000 {
        let n = 3 + turn % 18;
        let values: Vec<i16> = (0..n).map(|_| random.within(-20_000, 20_000) as i16).collect();
        let cubic = Cubic::of(&values);
        let parts = random.within(2, 60) as u16;
        let step = random.below(n - 1);
        let (q, t) = (i128::from(parts), random.below(usize::from(parts) + 1) as i128);
        let (y, u) = (|i: usize| cubic.scale * cubic.values[i], |i: usize| cubic.unknowns[i]);
        let (before, behind) = (t, q - t);
        let numerator = (y(step) - u(step)) * behind * q.pow(2)
            + (y(step + 1) - u(step + 1)) * before * q.pow(2)
            + u(step) * behind.pow(3)
            + u(step + 1) * before.pow(3);
        assert_eq!(cubic.exact(parts, parts * step as u16 + t as u16), (numerator, cubic.scale * q.pow(3)), "{values:?}");
    }
}

/// Three values have the one unknown (y − 2y′ + y″)/4, and in the middle of the first step (y + y′)/2 − 3/8 of
/// it: 0, 0 and 16 have −1.5 there, and 16, 0 and 0 have 6.5.
#[test]
fn ties_go_to_even() {
    let halves = |values: &[i16]| [1, 3].map(|count| preheat(values, 2, count).unwrap());
    assert_eq!(Cubic::of(&[0, 0, 16]).exact(2, 1), (-48, 32));
    assert_eq!(halves(&[0, 0, 16]), [-2, 6]);
    assert_eq!(halves(&[16, 0, 0]), [6, -2]);
    assert_eq!(halves(&[2, 2, 18]), [0, 8]);
    assert_eq!(halves(&[1, 1, 17]), [0, 8]);
    assert_eq!(halves(&[3, 3, 19]), [2, 10]);
    assert_eq!(halves(&[0, 0, -16]), [2, -6]);
    assert_eq!(halves(&[-3, -3, -19]), [-2, -10]);
    // On a line the middle of a step is a half wherever the step is odd.
    assert_eq!([1, 3, 5].map(|count| preheat(&[-2, -1, 0, 1], 2, count).unwrap()), [-2, 0, 0]);
}

#[test]
fn a_table_of_the_pre_heater_is_refused_in_order() {
    let refused = |values: &[i16], parts, count| number_and_place(preheat(values, parts, count));
    let (sound, high, low) = ([0i16; 22], [20_001i16; 22], [-20_001i16; 22]);
    for n in 0..=22 {
        let number = if n < 3 { 1 } else { 24 };
        if !(3..=20).contains(&n) {
            assert_eq!(refused(&high[..n], 61, 65_535), (number, 0));
        } else {
            assert_eq!([refused(&high[..n], 61, 65_535), refused(&low[..n], 2, 0)], [(6, 0); 2]);
            assert_eq!([0, 1, 61, 65_535].map(|parts| refused(&sound[..n], parts, 65_535)), [(25, 0); 4]);
            assert_eq!([2, 3, 59, 60].map(|parts| refused(&sound[..n], parts, (n as u16 - 1) * parts)), [(0, 0); 4]);
            assert_eq!([2, 3, 59, 60].map(|parts| refused(&sound[..n], parts, (n as u16 - 1) * parts + 1)), [(11, 0); 4]);
        }
    }
    for (place, value) in [(0, 20_001), (1, i16::MIN), (2, -20_001), (3, i16::MAX)] {
        let mut values = [20_000, -20_000, 20_000, -20_000];
        values[place] = value;
        assert_eq!(refused(&values, 0, 65_535), (6, place as u32));
        assert_eq!(number_and_place(unknown_at(&values, 9)), (6, place as u32));
    }
    assert_eq!([2, 21].map(|n| number_and_place(unknown_at(&high[..n], 65_535))), [(1, 0), (24, 0)]);
    assert_eq!([0, 19, 20].map(|place| number_and_place(unknown_at(&sound[..20], place)).0), [0, 0, 11]);
}

/// Minute after minute, a knot at every second one, on one line.
fn line_of(knots: usize) -> Vec<u8> {
    let minutes: Vec<u16> = (0..knots as u16).map(|i| 2 * i).collect();
    let ordinates: Vec<i16> = (0..knots as i16).collect();
    card_bytes(&minutes, &ordinates, &vec![2048; knots], &vec![0; knots], 0, 0)
}

/// The looks at each minute of such a card.
fn looks_of(knots: usize) -> Vec<u32> {
    let card = line_of(knots);
    (0..2 * knots as u16 - 1).map(|minute| reading(&card, minute).unwrap().looks).collect()
}

#[test]
fn looks_by_hand() {
    // Of each gap from the first on; the last knot belongs to the last gap.
    let by_hand: [&[u32]; 7] =
        [&[1, 1], &[1, 2, 2], &[2, 2, 2, 2], &[2, 2, 2, 3, 3], &[2, 3, 3, 2, 3, 3], &[2, 3, 3, 3, 3, 3, 3], &[3, 3, 3, 3, 3, 3, 3, 3]];
    for (knots, gaps) in (3..).zip(by_hand) {
        let mut minutes: Vec<u32> = gaps.iter().flat_map(|&looks| [looks, looks]).collect();
        minutes.push(gaps[gaps.len() - 1]);
        assert_eq!(looks_of(knots), minutes, "{knots} knots");
    }
    let full = looks_of(64);
    assert_eq!((full[0], full[1], full[2], full[126]), (5, 5, 6, 6));
}

#[test]
fn no_more_looks_than_the_gaps_halved_and_no_fewer_at_the_most() {
    for knots in 3..=64 {
        let smallest = (0..).find(|&p| 1 << p >= knots - 1).unwrap();
        assert_eq!(looks_of(knots).into_iter().max(), Some(smallest), "{knots} knots");
    }
    assert_eq!(looks_of(64).into_iter().max(), Some(6));
}

#[test]
fn p8_to_p12() {
    let of = |log: &[u8]| mean(60, log).map(|mean| (mean.minute, mean.ordinate, mean.good, mean.faults));
    assert_eq!(of(&[100, 255, 102]), Ok((61, 5050, 2, 1)));
    assert_eq!(of(&[0, 0, 0, 1]), Ok((62, 12, 4, 0)));
    assert_eq!(of(&[0, 1, 1, 1]), Ok((62, 38, 4, 0)));
    assert_eq!(number_and_place(of(&[255])), (13, 0));
    assert_eq!(number_and_place(of(&[201])), (12, 0));
    assert_eq!(of(&[100, 255, 255, 102]), Ok((62, 5050, 2, 2)));
}

/// So many good bytes, and faults behind them.
fn log_of(good: usize, faults: usize) -> Vec<u8> {
    [vec![100; good], vec![255; faults]].concat()
}

#[test]
fn half_the_bytes_of_a_log_have_to_be_good() {
    let counts = |good: usize, faults: usize| mean(0, &log_of(good, faults)).map(|mean| (mean.good, mean.faults));
    // The order's own: 59 faults and one reading.
    assert_eq!(number_and_place(counts(1, 59)), (23, 0));
    assert_eq!([counts(1, 1), counts(2, 2), counts(30, 30)], [Ok((1, 1)), Ok((2, 2)), Ok((30, 30))]);
    assert_eq!([counts(2, 1), counts(30, 29), counts(31, 29)], [Ok((2, 1)), Ok((30, 29)), Ok((31, 29))]);
    assert_eq!([counts(1, 2), counts(1, 3), counts(29, 30), counts(29, 31)].map(number_and_place), [(23, 0); 4]);
    assert_eq!(number_and_place(counts(0, 2)), (13, 0));
}

#[test]
fn twenty_three_stands_between_13_and_19() {
    let from_the_last = |log: &[u8]| number_and_place(mean(65_535, log));
    assert_eq!(from_the_last(&[100, 255]), (19, 0));
    assert_eq!(from_the_last(&[100, 255, 255]), (23, 0));
    assert_eq!(from_the_last(&[255, 255, 255]), (13, 0));
    assert_eq!(from_the_last(&[255, 100, 255, 254]), (12, 3));
    assert_eq!(from_the_last(&log_of(1, 60)), (16, 0));
}

#[test]
fn logs_at_the_last_minute() {
    let minute = |first: u16, log: &[u8]| mean(first, log).map(|mean| mean.minute);
    assert_eq!(minute(65_504, &[100; 60]), Ok(65_534));
    assert_eq!(minute(65_505, &[100; 60]), Ok(65_535));
    assert_eq!(number_and_place(minute(65_506, &[100; 60])), (19, 0));
    assert_eq!(number_and_place(minute(65_535, &[255, 255])), (13, 0));
    assert_eq!(number_and_place(minute(65_535, &[100, 201])), (12, 1));
}

#[test]
fn other_edges() {
    assert_eq!(fit_number(&[0, 60, 120], &[0; 3], FREE, FREE), (0, 0));
    assert_eq!(fit_number(&[0, 61, 120], &[0; 3], FREE, FREE), (5, 1));
    assert_eq!(fit_number(&[0, 1, 2, 3, 4], &[100, 0, 100, 0, 100], FREE, FREE), (9, 0));
    assert_eq!(fit_number(&[0, 1, 1], &[0; 3], FREE, FREE), (4, 2));
    let given = |slope: f64| End { code: 1, slope, curvature: 0.0 };
    let line = [0, 256, 512];
    assert_eq!(fit_number(&[0, 1, 2], &line, given(256.0), FREE), (0, 0));
    assert_eq!(fit_number(&[0, 1, 2], &line, given(256.0f64.next_up()), FREE), (7, 0));
    assert_eq!(fit_number(&[0, 1, 2], &line, FREE, given(256.0f64.next_up())), (7, 2));
}

/// "These are a third of the third derivative and a twelfth of the fourth": N/(8192·h^5) is derived, in card units 4096 times.
#[test]
fn the_jump_test_reads_the_derivatives_of_the_exact_curve() {
    let mut random = Random::new(1);
    let limit = i64::from(CARD_NUMBER_LIMIT);
    for _ in 0..1000 {
        let mut knot = |x: i128| Knot {
            x,
            y: random.within(-20_000, 20_000).into(),
            m: random.within(-limit, limit).into(),
            c: random.within(-limit, limit).into(),
        };
        let (left, right) = (knot(0), knot(7));
        let h = right.x;
        let third = numerator(left, right).derivative().derivative().derivative();
        let fourth = third.derivative();
        for (side, tau) in [(right_side(left, right), 0), (left_side(left, right), h)] {
            assert_eq!(third.at(tau), 6 * h * h * side.third);
            assert_eq!(fourth.at(tau), 24 * h * side.fourth);
        }
    }
}

/// Two cards that tell the orders apart: one that jumps in the fourth alone, one in the third alone.
#[test]
fn each_order_is_held_for_itself() {
    let with = |place: usize, slope: i32, curvature: i32, left: u16| {
        let (mut slopes, mut curvatures) = (SLOPES, CURVATURES);
        slopes[place] = slope;
        curvatures[place] = curvature;
        number_and_place(check(&card_bytes(&MINUTES, &ORDINATES, &slopes, &curvatures, left, 0)))
    };
    assert_eq!(with(2, 3, -108_800, 0), (0, 0));
    assert_eq!(with(2, 4, -108_800, 0), (10, 2));
    assert_eq!(with(0, -819_203, 147_204, 0), (10, 0));
    assert_eq!(with(0, -819_203, 147_204, 2), (0, 0));
}

#[test]
fn card_units_round_the_exact_number() {
    let tie = 0.5 / 4096.0;
    assert_eq!(card_units(tie), 0);
    assert_eq!(card_units(tie.next_up()), 1);
    assert_eq!(card_units(3.0 * tie), 2);
    assert_eq!(card_units((3.0 * tie).next_down()), 1);
    assert_eq!(card_units(-5.0 * tie), -2);
    assert_eq!(card_units(-0.0), 0);
    assert_eq!(card_units(5e-324), 0);
    assert_eq!(card_units(256.0), 1_048_576);
    assert!(card_units(f64::MAX) > 1 << 64);
}

const UNEVEN: ([u16; 4], [i16; 4]) = ([0, 20, 35, 69], [2200, 1400, 1800, 5300]);

fn bits_of(pair: Pair) -> [u64; 2] {
    pair.map(f64::to_bits)
}

/// At gaps that are no powers of two each rounding counts. `crates/fit/proofs/Uneven.antt` computes the same bits of
/// the definitions,
#[test]
fn the_pairs_of_uneven_gaps_by_their_bits() {
    let pairs = eliminate(&UNEVEN.0, &UNEVEN.1, FREE, FREE).unwrap();
    let bits: Vec<[u64; 2]> = pairs.into_iter().map(bits_of).collect();
    let wanted: [[u64; 2]; 4] = [
        [0xc054_014d_c5dd_38c6, 0x4010_16ab_1ddf_de7d],
        [0xbfe2_a4e0_476f_0480, 0x400e_91b0_a1e9_7443],
        [0x404a_2fcd_d0a3_faf8, 0x4009_c9c6_8d17_c41e],
        [0x4062_ec91_be50_a523, 0x4006_7804_d15b_976b],
    ];
    assert_eq!(bits, wanted);
}

/// and `crates/rows/proofs/Examples.antt` those of the second knot's equations.
#[test]
fn the_equations_of_a_knot_between_uneven_gaps_by_their_bits() {
    let x = rows(&gap(&UNEVEN.0, &UNEVEN.1, 0), &gap(&UNEVEN.0, &UNEVEN.1, 1));
    assert_eq!(x.a.map(bits_of), [[0x3f9b_9c2d_d084_4920, 0x3f97_e4b1_7e4b_17e3], [0x3f97_e4b1_7e4b_17e3, 0x3fd6_6666_6666_6666]]);
    assert_eq!(x.l.map(bits_of), [[0x3f7c_ac08_3126_e97b, 0x3f94_7ae1_47ae_147c], [0xbf94_7ae1_47ae_147c, 0xbfa9_9999_9999_999a]]);
    assert_eq!(x.r.map(bits_of), [[0x3f90_fda6_0a2a_059d, 0xbfa2_3456_789a_bcdf], [0x3fa2_3456_789a_bcdf, 0xbfb1_1111_1111_1111]]);
    assert_eq!(bits_of(x.k), [0x3fd6_480f_2b9d_647d, 0x4011_7b42_5ed0_97b5]);
}

/// What mending a sheet into a list of so many changes answers: number, place, the changes as (place, new number) and the sheet then.
/// The old numbers are the holes', nothing is written behind the changes or on a refusal, and putting them back gives the sheet as it came.
fn mended(minutes: &[u16], ordinates: &[i16], room: usize) -> (u32, u32, Vec<(u32, i32)>, Vec<i16>) {
    let n = minutes.len();
    let untouched = Change { place: 77, old: 78, new: 79 };
    let (mut sheet, mut slopes, mut curvatures, mut changes) = (ordinates.to_vec(), vec![7; n], vec![7; n], vec![untouched; room]);
    let answer = mend(minutes, &mut sheet, &mut slopes, &mut curvatures, &mut changes);
    let count = answer.unwrap_or(0) as usize;
    assert!(changes[count..].iter().all(|&change| change == untouched));
    assert!(changes[..count].iter().all(|change| change.old == -32_768));
    assert_eq!(put_back(&sheet, &changes[..count]).as_deref(), Some(ordinates));
    if answer.is_err() {
        assert_eq!((&slopes, &curvatures), (&vec![7; n], &vec![7; n]));
        assert_eq!(sheet, ordinates);
    } else {
        let (mut fit_slopes, mut fit_curvatures) = (vec![0; n], vec![0; n]);
        assert_eq!(fit_ends(minutes, &sheet, &mut fit_slopes, &mut fit_curvatures, FREE, FREE), Ok(()));
        assert_eq!((slopes, curvatures), (fit_slopes, fit_curvatures));
    }
    let (number, place) = number_and_place(answer);
    (number, place, changes[..count].iter().map(|change| (change.place, change.new)).collect(), sheet)
}

/// The one hole between two knots, at the middle of its gap.
fn between(left: i16, right: i16) -> i32 {
    let (number, place, changes, sheet) = mended(&[10, 12, 14], &[left, HOLE, right], 1);
    assert_eq!((number, place, changes.len(), changes[0].0), (0, 0, 1, 1));
    assert_eq!(sheet, [left, changes[0].1 as i16, right]);
    changes[0].1
}

#[test]
fn a_hole_is_filled_to_nearest_with_ties_to_even() {
    assert_eq!(between(0, 1), 0);
    assert_eq!(between(1, 2), 2);
    assert_eq!(between(2, 3), 2);
    assert_eq!(between(3, 4), 4);
    assert_eq!(between(0, -1), 0);
    assert_eq!(between(-1, -2), -2);
    assert_eq!(between(-2, -3), -2);
    assert_eq!(between(-3, -4), -4);
    assert_eq!(between(-1, 2), 0);
    assert_eq!(between(5, -2), 2);
    // The line's value is rounded and not what it adds to its left knot, which would give 1 + 2 here.
    assert_eq!(between(1, 4), 2);
}

#[test]
fn holes_in_a_row_lie_on_one_line_between_knots_that_were_sound() {
    // From 0 to 1 over 3 minutes: 1/3 is 0 and 2/3 is 1. From the filled 0 on, the second would stand at 1/2 and be 0.
    assert_eq!(mended(&[0, 1, 2, 3], &[0, HOLE, HOLE, 1], 2), (0, 0, vec![(1, 0), (2, 1)], vec![0, 0, 1, 1]));
    // From 0 to 10 over 15 minutes: 10·4/15 is 2.67, 10·9/15 is 6.
    assert_eq!(mended(&[0, 4, 9, 15], &[0, HOLE, HOLE, 10], 2), (0, 0, vec![(1, 3), (2, 6)], vec![0, 3, 6, 10]));
    // Three in a row with unequal gaps, down from 100 to -101 over 40 minutes: 100 − 201·1/40 is 94.975, − 201·20/40 is −0.5, − 201·37/40 is −85.925.
    let filled = vec![(1, 95), (2, 0), (3, -86)];
    assert_eq!(mended(&[5, 6, 25, 42, 45], &[100, HOLE, HOLE, HOLE, -101], 3), (0, 0, filled, vec![100, 95, 0, -86, -101]));
    // Two runs, each between its own knots.
    let filled = vec![(1, 10), (3, 30)];
    assert_eq!(mended(&[0, 10, 20, 30, 40], &[0, HOLE, 20, HOLE, 40], 2), (0, 0, filled, vec![0, 10, 20, 30, 40]));
}

#[test]
fn a_hole_at_an_end_is_17_at_that_hole() {
    let at = |ordinates: &[i16], room: usize| {
        let minutes: Vec<u16> = (0..ordinates.len() as u16).map(|i| 10 * i).collect();
        let (number, place, ..) = mended(&minutes, ordinates, room);
        (number, place)
    };
    assert_eq!(at(&[HOLE, 0, 0], 3), (17, 0));
    assert_eq!(at(&[0, 0, HOLE], 3), (17, 2));
    assert_eq!(at(&[0, HOLE, HOLE], 3), (17, 1));
    assert_eq!(at(&[0, HOLE, 0, HOLE], 4), (17, 3));
    assert_eq!(at(&[HOLE, HOLE, 0, HOLE], 4), (17, 0));
    assert_eq!(at(&[HOLE, HOLE, HOLE], 3), (17, 0));
    // 6, 4 and 5 before it, 18 behind it.
    assert_eq!(at(&[HOLE, 0, 20_001], 3), (6, 2));
    assert_eq!(at(&[HOLE, 0, 0], 0), (17, 0));
    let spoilt = |minutes: &[u16]| mended(minutes, &[0, HOLE, 0], 0).0;
    assert_eq!((spoilt(&[0, 0, 1]), spoilt(&[0, 61, 62]), spoilt(&[0, 1, 62]), spoilt(&[0, 1, 2])), (4, 5, 5, 18));
}

#[test]
fn the_list_of_changes_needs_a_place_for_each_hole() {
    let holes = [0, HOLE, HOLE, 30];
    let into = |ordinates: &[i16], room: usize| {
        let (number, place, changes, _) = mended(&[0, 1, 2, 3], ordinates, room);
        (number, place, changes.len())
    };
    assert_eq!(into(&holes, 0), (18, 0, 0));
    assert_eq!(into(&holes, 1), (18, 0, 0));
    assert_eq!(into(&holes, 2), (0, 0, 2));
    assert_eq!(into(&holes, 3), (0, 0, 2));
    assert_eq!(into(&[0; 4], 0), (0, 0, 0));
    assert_eq!(into(&[0; 4], 1), (0, 0, 0));
}

#[test]
fn a_refused_fit_leaves_the_sheet_with_its_holes() {
    // Document 01's five knots a minute apart, with a hole and a knot behind them.
    let (minutes, ordinates) = ([0, 1, 2, 3, 4, 5, 6], [100, 0, 100, 0, 100, HOLE, 0]);
    let (number, place, changes, sheet) = mended(&minutes, &ordinates, 7);
    assert_eq!((number, place, changes.len()), (9, 0, 0));
    assert_eq!(sheet, ordinates);
}

#[test]
fn a_hole_is_6_for_fit_writer_and_card() {
    let (minutes, ordinates) = ([0, 8, 16], [0, HOLE, 0]);
    assert_eq!(fit_number(&minutes, &ordinates, FREE, FREE), (6, 1));
    assert_eq!(number_and_place(write(&minutes, &ordinates, &[0; 3], &[0; 3], 0, 0, &mut [0; 62])), (6, 1));
    assert_eq!(number_and_place(check(&card_bytes(&minutes, &ordinates, &[0; 3], &[0; 3], 0, 0))), (6, 1));
    // Only the mark passes: one above it does not.
    assert_eq!(mended(&[0, 8, 16], &[0, HOLE + 1, 0], 3).0, 6);
}

/// A book's record of a room, around any bytes.
fn room_record(room: u16, card: &[u8]) -> Vec<u8> {
    [&(2 + card.len() as u16).to_le_bytes()[..], &[5, 0], &room.to_le_bytes(), card].concat()
}

/// A book of these rooms as they stand, rising or not.
fn book_of(rooms: &[(u16, &[u8])]) -> Vec<u8> {
    let mut book: Vec<u8> = rooms.iter().flat_map(|(room, card)| room_record(*room, card)).collect();
    book.extend([0, 0, 3, 0]);
    book
}

/// A card of 62 bytes and one of 78.
fn two_cards() -> [Vec<u8>; 2] {
    let card = |n: u16| {
        let minutes: Vec<u16> = (0..n).map(|i| 2 * i).collect();
        let ordinates: Vec<i16> = (0..n as i16).collect();
        card_bytes(&minutes, &ordinates, &vec![2048; n.into()], &vec![0; n.into()], 0, 0)
    };
    [card(3), card(4)]
}

/// What putting in answers, number, place and bytes, a refused one having left the buffer.
fn put(book: &mut [u8], room: u16, card: &[u8]) -> (u32, u32, u32) {
    let before = book.to_vec();
    let answer = book_put(book, room, card);
    if answer.is_err() {
        assert_eq!(book, before);
    }
    let (number, place) = number_and_place(answer);
    (number, place, answer.unwrap_or(0))
}

fn found(book: &[u8], room: u16) -> (u32, u32, u32, u32) {
    let answer = book_find(book, room);
    let (number, place) = number_and_place(answer);
    answer.map_or((number, place, 0, 0), |part| (0, 0, part.start, part.length))
}

#[test]
fn a_book_with_no_room_is_sound() {
    let [card, _] = two_cards();
    for behind in [&[][..], &[7], &[0, 0, 3, 0], &[255; 90]] {
        let mut book = [&[0, 0, 3, 0], behind].concat();
        assert_eq!(found(&book, 0), (20, 0, 0, 0));
        let wanted = if behind.len() < 68 { (21, 0, 0) } else { (0, 0, 72) };
        assert_eq!(put(&mut book, 9, &card), wanted);
    }
    let mut book = [0xEE; 75];
    book[..4].copy_from_slice(&[0, 0, 3, 0]);
    assert_eq!(put(&mut book, 0x0109, &card), (0, 0, 72));
    let start: [u8; 10] = [64, 0, 5, 0, 0x09, 0x01, 6, 0, 1, 0];
    assert_eq!((&book[..10], &book[6..68], &book[68..]), (&start[..], &card[..], &[0, 0, 3, 0, 0xEE, 0xEE, 0xEE][..]));
    assert_eq!(found(&book, 0x0109), (0, 0, 6, 62));
    assert_eq!(found(&book, 0x0901), (20, 0, 0, 0));
}

#[test]
fn a_books_own_records_are_14_at_their_offset() {
    let [card, _] = two_cards();
    let place = |book: &[u8]| {
        let (number, place, ..) = found(book, 7);
        // Putting in says the same, before the new card's own.
        assert_eq!(put(&mut book.to_vec(), 7, &[]), if number == 14 { (14, place, 0) } else { (14, 0, 0) });
        (number, place)
    };
    let short: [&[u8]; 4] = [&[], &[0], &[0, 0, 3], &[64, 0, 5, 0, 7]];
    assert_eq!(short.map(place), [(14, 0); 4]);
    // Kinds and lengths that are none, the bytes being there.
    let wrong: [&[u8]; 6] = [&[0, 0, 0, 0], &[0, 0, 5, 0], &[1, 0, 5, 0, 7], &[1, 0, 3, 0, 7], &[2, 0, 4, 0, 7, 0], &[0, 0, 3, 1]];
    assert_eq!(wrong.map(|first| place(&[first, &[0, 0, 3, 0]].concat())), [(14, 0); 6]);
    let behind_a_room = |rest: &[u8]| place(&[&[2, 0, 5, 0, 6, 0], rest].concat());
    assert_eq!([&[][..], &[0, 0, 3], &[1, 0, 5, 0, 7, 0, 0, 3, 0], &[6, 0, 1, 0]].map(behind_a_room), [(14, 6); 4]);
    // Of a card's records the book reads none: this room's card has no byte, and its own refusal is 14 at 0.
    assert_eq!(found(&[2, 0, 5, 0, 7, 0, 0, 0, 3, 0], 7), (14, 0, 0, 0));
    assert_eq!(found(&[2, 0, 5, 0, 6, 0, 0, 0, 3, 0], 7), (20, 0, 0, 0));
    // What is no card is no matter as long as another room is asked for.
    assert_eq!(found(&book_of(&[(6, &[1, 2, 3]), (7, &card), (8, &[])]), 7), (0, 0, 15, 62));
}

#[test]
fn rooms_that_do_not_rise_are_22_behind_every_14() {
    let [card, _] = two_cards();
    let place = |rooms: &[u16], cut: usize| {
        let rooms: Vec<(u16, &[u8])> = rooms.iter().map(|&room| (room, &[][..])).collect();
        let mut book = book_of(&rooms);
        book.truncate(book.len() - cut);
        let (number, place, ..) = found(&book, 7);
        // Putting in says the same, before the new card's own.
        assert_eq!(put(&mut book, 7, &card[1..]), if number == 20 { (14, 0, 0) } else { (number, place, 0) });
        (number, place)
    };
    assert_eq!(place(&[7, 7], 0), (22, 6));
    assert_eq!(place(&[7, 6], 0), (22, 6));
    assert_eq!(place(&[0, 0], 0), (22, 6));
    assert_eq!(place(&[1, 2, 2, 1], 0), (22, 12));
    assert_eq!(place(&[255, 256, 65_535], 0), (20, 0));
    assert_eq!(place(&[256, 255], 0), (22, 6));
    assert_eq!(place(&[7, 7], 1), (14, 12));
    assert_eq!(place(&[7, 6, 5], 4), (14, 18));
}

#[test]
fn a_book_ends_at_16_384_at_the_latest() {
    let place = |filling: usize| {
        let mut book = book_of(&[(1, &vec![0; filling])]);
        book.resize(20_000, 0);
        let (number, place, ..) = found(&book, 2);
        (number, place)
    };
    // The room's record has 6 bytes beside its card, the closing one 4.
    assert_eq!(place(16_373), (20, 0));
    assert_eq!(place(16_374), (20, 0));
    assert_eq!(place(16_375), (14, 16_381));
    assert_eq!(place(16_378), (14, 16_384));
    assert_eq!(place(16_379), (14, 0));
}

#[test]
fn a_card_found_is_tested_and_its_places_count_in_the_card() {
    let [card, longer] = two_cards();
    let mut steep = longer.clone();
    steep[10 + 2 * 16 + 8 + 3] = 1;
    let cut = &card[..61];
    let book = book_of(&[(3, &card), (5, &steep), (6, cut), (65_535, &longer)]);
    assert_eq!(found(&book, 3), (0, 0, 6, 62));
    assert_eq!(found(&book, 5), (9, 2, 0, 0));
    assert_eq!(found(&book, 6), (14, 58, 0, 0));
    assert_eq!(found(&book, 65_535), (0, 0, 68 + 84 + 67 + 6, 78));
    assert_eq!(found(&book, 4), (20, 0, 0, 0));
    let minute_1 = reading(&book[225..225 + 78], 1);
    assert_eq!(minute_1, reading(&longer, 1));
}

#[test]
fn a_put_moves_the_rooms_behind_and_leaves_what_lies_behind_the_end() {
    let [card, longer] = two_cards();
    let (damaged, other) = ([9, 9, 9], [8]);
    let mut book = book_of(&[(2, &damaged), (5, &card), (9, &other)]);
    book.extend(100..150);
    let before = book.clone();
    // A new room before all others, between two, behind all; a longer card for a shorter; the damaged ones stay.
    let mut at_0 = book.clone();
    assert_eq!(put(&mut at_0, 0, &card), (21, 0, 0));
    at_0.resize(300, 77);
    for (room, rooms) in [
        (0, vec![(0, &longer[..]), (2, &damaged), (5, &card), (9, &other)]),
        (3, vec![(2, &damaged), (3, &longer), (5, &card), (9, &other)]),
        (65_535, vec![(2, &damaged), (5, &card), (9, &other), (65_535, &longer)]),
        (5, vec![(2, &damaged), (5, &longer), (9, &other)]),
        (2, vec![(2, &longer), (5, &card), (9, &other)]),
    ] {
        let (mut put_into, made) = (at_0.clone(), book_of(&rooms));
        assert_eq!(put(&mut put_into, room, &longer), (0, 0, made.len() as u32));
        assert_eq!(put_into, [&made, &at_0[made.len()..]].concat());
    }
    // A shorter card for a longer: the old book's last bytes stay where they were.
    assert_eq!(put(&mut book, 5, &longer), (0, 0, before.len() as u32 - 50 + 16));
    let grown = book.clone();
    assert_eq!(put(&mut book, 5, &card), (0, 0, before.len() as u32 - 50));
    assert_eq!(book[..before.len() - 50], before[..before.len() - 50]);
    assert_eq!(book[before.len() - 50..], grown[before.len() - 50..]);
    // What is no card is refused as one, and before 21.
    assert_eq!(put(&mut book_of(&[]), 5, &card[..61]), (14, 58, 0));
    assert_eq!(put(&mut book_of(&[]), 5, &vec![0; 20_000]), (14, 0, 0));
}

#[test]
fn a_put_is_21_by_the_book_that_it_would_make() {
    let [card, longer] = two_cards();
    // A full book: a card that is no longer than the one there may still be put in its place.
    let filling = vec![0; 16_384 - 4 - 6 - 84];
    let full = book_of(&[(1, &longer), (2, &filling)]);
    assert_eq!(full.len(), 16_384);
    for behind in [0, 1, 3_000] {
        let full = [full.clone(), vec![5; behind]].concat();
        assert_eq!(put(&mut full.clone(), 1, &longer), (0, 0, 16_384));
        assert_eq!(put(&mut full.clone(), 1, &card), (0, 0, 16_368));
        assert_eq!(put(&mut full.clone(), 3, &card), (21, 0, 0));
        assert_eq!(put(&mut full.clone(), 2, &longer), (0, 0, 4 + 84 + 84));
    }
    for (size, wanted) in [(16_383, 0), (16_384, 0), (16_385, 21)] {
        let mut book = book_of(&[(1, &card), (2, &vec![0; size - 4 - 6 - 84])]);
        book.resize(17_000, 0);
        assert_eq!(put(&mut book, 1, &longer).0, wanted);
    }
    // The same by the buffer.
    for (length, wanted) in [(87, 21), (88, 0), (89, 0)] {
        let mut book = book_of(&[(1, &card)]);
        book.resize(length, 0);
        assert_eq!(put(&mut book, 1, &longer).0, wanted);
    }
}

#[test]
fn fourteen_full_cards_go_into_one_book() {
    let card = line_of(64);
    let mut book = vec![3; 14_620];
    book[..4].copy_from_slice(&[0, 0, 3, 0]);
    for (count, room) in [7, 14, 1, 3, 2, 13, 9, 8, 10, 4, 6, 5, 12, 11].into_iter().enumerate() {
        assert_eq!(put(&mut book, room, &card), (0, 0, 4 + 1_044 * (count as u32 + 1)));
    }
    for room in 1..=14 {
        assert_eq!(found(&book, room), (0, 0, 6 + 1_044 * (u32::from(room) - 1), 1_038));
    }
    assert_eq!(put(&mut book, 15, &card), (21, 0, 0));
}

/// What taking out answers, number, place and bytes, a refused one having left the buffer.
fn taken(book: &mut [u8], room: u16) -> (u32, u32, u32) {
    let before = book.to_vec();
    let answer = book_remove(book, room);
    if answer.is_err() {
        assert_eq!(book, before);
    }
    let (number, place) = number_and_place(answer);
    (number, place, answer.unwrap_or(0))
}

#[test]
fn a_room_taken_out_leaves_the_others_and_what_lies_behind_the_new_end() {
    // Rooms 7, 9 and 0x0109 with one byte, none and two, and a byte behind the book.
    let book = [3, 0, 5, 0, 7, 0, 0xAA, 2, 0, 5, 0, 9, 0, 4, 0, 5, 0, 9, 1, 0xBB, 0xCC, 0, 0, 3, 0, 0xEE];
    let mut first = book;
    assert_eq!(taken(&mut first, 7), (0, 0, 18));
    assert_eq!(first[..18], [2, 0, 5, 0, 9, 0, 4, 0, 5, 0, 9, 1, 0xBB, 0xCC, 0, 0, 3, 0]);
    assert_eq!(first[18..], [1, 0xBB, 0xCC, 0, 0, 3, 0, 0xEE]);
    let mut middle = book;
    assert_eq!(taken(&mut middle, 9), (0, 0, 19));
    assert_eq!(middle[..19], [3, 0, 5, 0, 7, 0, 0xAA, 4, 0, 5, 0, 9, 1, 0xBB, 0xCC, 0, 0, 3, 0]);
    assert_eq!(middle[19..], [0xBB, 0xCC, 0, 0, 3, 0, 0xEE]);
    let mut last = book;
    assert_eq!(taken(&mut last, 0x0109), (0, 0, 17));
    assert_eq!(last[..17], [3, 0, 5, 0, 7, 0, 0xAA, 2, 0, 5, 0, 9, 0, 0, 0, 3, 0]);
    assert_eq!(last[17..], [9, 1, 0xBB, 0xCC, 0, 0, 3, 0, 0xEE]);
    // Every room, one after the other: a book with no room is left, and the rest is what it was at some time.
    assert_eq!(taken(&mut last, 9), (0, 0, 11));
    assert_eq!(taken(&mut last, 9), (20, 0, 0));
    assert_eq!(taken(&mut last, 7), (0, 0, 4));
    assert_eq!(last[..4], [0, 0, 3, 0]);
    assert_eq!(last[17..], [9, 1, 0xBB, 0xCC, 0, 0, 3, 0, 0xEE]);
    assert_eq!(taken(&mut last, 7), (20, 0, 0));
}

#[test]
fn a_removal_is_14_then_22_then_20() {
    for behind in [&[][..], &[7], &[2, 0, 5, 0, 7, 0, 0, 0, 3, 0]] {
        assert_eq!(taken(&mut [&[0, 0, 3, 0], behind].concat(), 7), (20, 0, 0));
    }
    let short: [&[u8]; 4] = [&[], &[0], &[0, 0, 3], &[64, 0, 5, 0, 7]];
    assert_eq!(short.map(|bytes| taken(&mut bytes.to_vec(), 7)), [(14, 0, 0); 4]);
    let of = |rooms: &[u16], cut: usize| {
        let rooms: Vec<(u16, &[u8])> = rooms.iter().map(|&room| (room, &[][..])).collect();
        let mut book = book_of(&rooms);
        book.truncate(book.len() - cut);
        taken(&mut book, 7)
    };
    // Where the room is there and where it is not.
    assert_eq!([of(&[7, 7], 0), of(&[7, 6], 0), of(&[5, 5], 0), of(&[1, 7, 9, 9], 0)], [(22, 6, 0), (22, 6, 0), (22, 6, 0), (22, 18, 0)]);
    assert_eq!([of(&[7, 7], 1), of(&[7, 9], 4), of(&[5, 5], 2)], [(14, 12, 0); 3]);
    assert_eq!([of(&[6, 8], 0), of(&[0x0700], 0), of(&[6, 7, 8], 0)], [(20, 0, 0), (20, 0, 0), (0, 0, 16)]);
    // A book over the limit stays, though without that room it would be under it.
    for (filling, wanted) in [(16_368, (0, 0, 16_378)), (16_369, (14, 16_381, 0))] {
        let mut book = book_of(&[(6, &vec![0; filling]), (7, &[])]);
        book.resize(20_000, 0);
        assert_eq!(taken(&mut book, 7), wanted);
    }
}

#[test]
fn no_card_is_tested_where_a_room_is_taken_out() {
    let [card, longer] = two_cards();
    let mut steep = longer.clone();
    steep[10 + 2 * 16 + 8 + 3] = 1;
    let book = book_of(&[(3, &card), (5, &steep), (6, &card[..61])]);
    assert_eq!((found(&book, 5).0, found(&book, 6).0), (9, 14));
    for (room, left) in [(3, [(5, &steep[..]), (6, &card[..61])]), (5, [(3, &card), (6, &card[..61])]), (6, [(3, &card), (5, &steep)])] {
        let (mut taken_from, made) = (book.clone(), book_of(&left));
        assert_eq!(taken(&mut taken_from, room), (0, 0, made.len() as u32));
        assert_eq!(taken_from, [&made, &book[made.len()..]].concat());
    }
}

#[test]
fn the_next_card_uses_the_bytes_of_a_room_taken_out() {
    let [card, longer] = two_cards();
    for (filling, length) in [(50, 4 + 56 + 68 + 84), (16_384 - 4 - 6 - 84 - 68, 20_000)] {
        let mut book = book_of(&[(1, &card), (2, &vec![0; filling]), (9, &longer)]);
        book.resize(length, 0xEE);
        assert_eq!(put(&mut book, 3, &longer), (21, 0, 0));
        assert_eq!(taken(&mut book, 9), (0, 0, 4 + 68 + 6 + filling as u32));
        assert_eq!(put(&mut book, 3, &longer), (0, 0, 4 + 68 + 6 + filling as u32 + 84));
        assert_eq!((found(&book, 1), found(&book, 9)), ((0, 0, 6, 62), (20, 0, 0, 0)));
        assert_eq!(found(&book, 3), (0, 0, 68 + 6 + filling as u32 + 6, 78));
    }
}

#[test]
fn a_room_put_in_and_taken_out_again_leaves_the_same_book() {
    let [card, longer] = two_cards();
    for rooms in [&[][..], &[(2, &card[..])], &[(2, &card), (5, &[9, 9, 9]), (9, &longer)]] {
        let book = book_of(rooms);
        for room in [0, 3, 7, 65_535] {
            let mut buffer = [book.clone(), vec![0xEE; 100]].concat();
            let before = buffer.clone();
            assert_eq!(put(&mut buffer, room, &longer), (0, 0, book.len() as u32 + 84));
            assert_eq!(taken(&mut buffer, room), (0, 0, book.len() as u32));
            assert_eq!(buffer[..book.len()], book);
            assert_eq!(buffer[book.len() + 84..], before[book.len() + 84..]);
        }
    }
}

/// A card of given slopes on these minutes, without ordinates and slopes: which of its curvatures it is
/// refused for.
fn flat_with(minutes: &[u16; 3], curvatures: [i32; 3]) -> (u32, u32) {
    number_and_place(check(&sloped_bytes(minutes, &[0; 3], &[0; 3], &curvatures)))
}

/// Four gs a side: the third is 3M - M' at the left end, 3M - M° at the right, and at an inner knot between
/// gaps of 1 and 2, all times 2, M' - 9M + 2M°, of which 12 is allowed.
#[test]
fn a_card_of_given_slopes_may_jump_by_four_gs_a_side() {
    assert_eq!(flat_with(&[0, 1, 2], [1, -1, 1]), (0, 0));
    assert_eq!(flat_with(&[0, 60, 120], [-1, 1, -1]), (0, 0));
    assert_eq!(flat_with(&[0, 1, 2], [2, 1, 1]), (10, 0));
    assert_eq!(flat_with(&[0, 1, 2], [1, 1, 2]), (10, 2));
    assert_eq!(flat_with(&[0, 1, 3], [-2, -2, -2]), (0, 0));
    assert_eq!(flat_with(&[0, 1, 3], [-2, -2, -1]), (10, 1));
    // What 16g2 + 4g would let through.
    assert_eq!(flat_with(&[0, 1, 2], [0, -2, 0]), (10, 1));
    assert_eq!(number_and_place(check(&card_bytes(&[0, 1, 2], &[0; 3], &[0; 3], &[0, -2, 0], 0, 0))), (0, 0));
}

/// Document 000's Table 4, three minutes later and its slopes in card units, with the curvatures that are
/// printed there.
const TABLE_4: ([u16; 5], [i16; 5], [i32; 5], [i32; 5]) = (
    [0, 2, 3, 6, 7],
    [7, 11, 26, 56, 29],
    [2 * 4096, 15 * 4096, 10 * 4096, -27 * 4096, -30 * 4096],
    [-50_040, 62_873, -15_637, -43_126, -63_527],
);

fn table_4_card() -> Vec<u8> {
    sloped_bytes(&TABLE_4.0, &TABLE_4.1, &TABLE_4.2, &TABLE_4.3)
}

#[test]
fn table_4_is_a_card_of_given_slopes_and_no_other() {
    let mut curvatures = [7; 5];
    assert_eq!(fit_slopes(&TABLE_4.0, &TABLE_4.1, &TABLE_4.2, &mut curvatures), Ok(()));
    assert_eq!(curvatures, TABLE_4.3);
    let mut buffer = [0; 95];
    assert_eq!(write_slopes(&TABLE_4.0, &TABLE_4.1, &TABLE_4.2, &TABLE_4.3, &mut buffer), Ok(94));
    assert_eq!((&buffer[..94], buffer[94]), (&table_4_card()[..], 0));
    assert_eq!(buffer[..10], [6, 0, 6, 0, 5, 0, 0, 0, 0, 0]);
    assert_eq!(number_and_place(write_slopes(&TABLE_4.0, &TABLE_4.1, &TABLE_4.2, &TABLE_4.3, &mut buffer[..93])), (26, 0));
    let card = check(&table_4_card()).unwrap();
    assert_eq!((card.kind.head(), card.left, card.right, card.minutes.len()), (6, 0, 0, 5));
    // Its fourth derivative jumps from -4.19 to -8.16 times 24 at the second knot, and is not 0 at the first.
    assert_eq!(number_and_place(check(&card_bytes(&TABLE_4.0, &TABLE_4.1, &TABLE_4.2, &TABLE_4.3, 0, 0))), (10, 0));
    assert_eq!(number_and_place(check(&card_bytes(&TABLE_4.0, &TABLE_4.1, &TABLE_4.2, &TABLE_4.3, 1, 1))), (10, 1));
    let listed = "0 7 8192 -50040\n2 11 61440 62873\n3 26 40960 -15637\n6 56 -110592 -43126\n7 29 -122880 -63527\nok 5\n";
    assert_eq!(lister(&table_4_card()), listed);
}

/// Table 3's curve goes on in both orders, so that it is a card of either kind; with the third alone held one
/// unit more at its middle is accepted, two are not.
#[test]
fn table_3_is_a_card_of_either_kind() {
    let with = |curvature: i32| {
        let mut curvatures = CURVATURES;
        curvatures[2] = curvature;
        number_and_place(check(&sloped_bytes(&MINUTES, &ORDINATES, &SLOPES, &curvatures)))
    };
    assert_eq!([-108_801, -108_800, -108_799].map(with), [(0, 0); 3]);
    assert_eq!([-108_802, -108_798].map(with), [(10, 2); 2]);
    let sloped = sloped_bytes(&MINUTES, &ORDINATES, &SLOPES, &CURVATURES);
    assert_eq!(lister(&sloped), TABLE_3);
    for minute in 0..=33 {
        assert_eq!(reading(&sloped, minute), reading(&table_3_card(), minute));
    }
    assert_eq!(swing(&sloped), swing(&table_3_card()));
    assert_eq!([check(&sloped), check(&table_3_card())].map(|card| card.unwrap().kind.head()), [6, 1]);
    let (mut ours, mut theirs) = ([vec![7; 40], vec![7; 40], vec![7; 40]], [vec![7; 40], vec![7; 40], vec![7; 40]]);
    for (card, [values, slopes, curvatures]) in [(sloped, &mut ours), (table_3_card(), &mut theirs)] {
        assert_eq!(table(&card, 3, values, slopes, curvatures), Ok(30));
    }
    assert_eq!(ours, theirs);
}

#[test]
fn the_heads_number_tells_the_kind() {
    let headed = |head: u16, left: u16, right: u16| {
        number_and_place(check(&headed_bytes(head, &MINUTES, &ORDINATES, &SLOPES, &CURVATURES, left, right)))
    };
    assert_eq!([1, 6].map(|head| headed(head, 0, 0)), [(0, 0); 2]);
    assert_eq!([0, 2, 3, 4, 5, 7, 8, 257, 262, 1536].map(|head| headed(head, 0, 0)), [(14, 0); 10]);
    assert_eq!([(1, 0), (2, 0), (3, 0), (1, 1)].map(|(left, right)| headed(6, left, right)), [(15, 0); 4]);
    assert_eq!([(0, 1), (0, 2), (0, 256)].map(|(left, right)| headed(6, left, right)), [(15, 1); 3]);
    assert_eq!([(1, 0), (2, 0), (0, 1), (0, 2)].map(|(left, right)| headed(1, left, right)), [(0, 0); 4]);
    // A head of another length or cut short is 14 whatever its number; the knots' number is before the codes,
    // these before the other records.
    let mut card = table_4_card();
    card[0] = 5;
    assert_eq!(number_and_place(check(&card)), (14, 0));
    assert_eq!(number_and_place(check(&table_4_card()[..9])), (14, 0));
    assert_eq!(number_and_place(check(&headed_bytes(6, &[0, 1], &[0; 2], &[0; 2], &[0; 2], 1, 1))), (1, 0));
    assert_eq!(number_and_place(check(&[6, 0, 6, 0, 65, 0, 1, 0, 0, 0])), (2, 0));
    assert_eq!(number_and_place(check(&[6, 0, 6, 0, 64, 0, 1, 0, 0, 0])), (15, 0));
    assert_eq!(number_and_place(check(&[6, 0, 6, 0, 64, 0, 0, 0, 0, 0])), (14, 10));
}

/// What the fit to slopes answers; refused, it has written nothing.
fn fit_slopes_number(minutes: &[u16], ordinates: &[i16], slopes: &[i32]) -> (u32, u32) {
    let mut curvatures = vec![7; minutes.len()];
    let answer = fit_slopes(minutes, ordinates, slopes, &mut curvatures);
    assert!(answer.is_ok() || curvatures.iter().all(|&c| c == 7));
    number_and_place(answer)
}

#[test]
fn the_fit_to_slopes_goes_3_1_2_the_knots_the_slopes_the_curvatures() {
    let past = CARD_NUMBER_LIMIT + 1;
    assert_eq!(number_and_place(fit_slopes(&[0, 1], &[0; 2], &[past; 2], &mut [0; 3])), (3, 0));
    assert_eq!(number_and_place(fit_slopes(&[0, 1, 2], &[0; 3], &[past; 2], &mut [0; 3])), (3, 0));
    assert_eq!(fit_slopes_number(&[1, 0], &[0; 2], &[past; 2]), (1, 0));
    assert_eq!(fit_slopes_number(&[0; 65], &[0; 65], &[past; 65]), (2, 0));
    assert_eq!(fit_slopes_number(&[0, 1, 1], &[0; 3], &[past; 3]), (4, 2));
    assert_eq!(fit_slopes_number(&[0, 61, 61], &[0, 20_001, 0], &[past; 3]), (5, 1));
    assert_eq!(fit_slopes_number(&[0, 60, 120], &[0, 0, -20_001], &[-past; 3]), (6, 2));
    // On a line that rises by 256 a minute: at the limit, one past it, and the lowest place.
    let rising = |slopes: [i32; 3]| fit_slopes_number(&[0, 1, 2], &[0, 256, 512], &slopes);
    assert_eq!(rising([past - 1; 3]), (0, 0));
    assert_eq!(rising([past - 1, past - 1, past]), (9, 2));
    assert_eq!(rising([past - 1, -past, past]), (9, 1));
    // Between slopes of s, 0 and -s a minute apart the curvatures are -3.5s, 1.5s, -3.5s: at the limit by a
    // half, which is even.
    let steep = |s: i32| fit_slopes_number(&[0, 1, 2], &[0; 3], &[s, 0, -s]);
    assert_eq!([299_593, -299_593].map(steep), [(0, 0); 2]);
    assert_eq!([299_594, -299_594].map(steep), [(9, 0); 2]);
    // The slopes' 9 stands at its own place, though a curvature before it would be beyond too.
    assert_eq!(fit_slopes_number(&[0, 1, 2], &[0; 3], &[299_594, 0, -past]), (9, 2));
}

#[test]
fn the_writer_of_given_slopes_goes_3_1_2_the_knots_9_10_26() {
    let past = CARD_NUMBER_LIMIT + 1;
    let written = |minutes: &[u16], ordinates: &[i16], slopes: &[i32], curvatures: &[i32]| {
        number_and_place(write_slopes(minutes, ordinates, slopes, curvatures, &mut [0; 61]))
    };
    assert_eq!(written(&[0, 1], &[0; 2], &[past; 2], &[0; 3]), (3, 0));
    assert_eq!(written(&[0, 0], &[0; 2], &[past; 2], &[0; 2]), (1, 0));
    assert_eq!(written(&[0; 65], &[0; 65], &[past; 65], &[0; 65]), (2, 0));
    assert_eq!(written(&[0, 1, 0], &[0; 3], &[past; 3], &[0; 3]), (4, 2));
    assert_eq!(written(&[0, 1, 62], &[0; 3], &[past; 3], &[0; 3]), (5, 2));
    assert_eq!(written(&[0, 1, 2], &[0, HOLE, 0], &[past; 3], &[0; 3]), (6, 1));
    assert_eq!(written(&[0, 1, 2], &[0; 3], &[0, 0, past], &[0, past, 0]), (9, 1));
    assert_eq!(written(&[0, 1, 2], &[0; 3], &[0; 3], &[0, 0, 3]), (10, 2));
    assert_eq!(written(&[0, 1, 2], &[0; 3], &[0; 3], &[0; 3]), (26, 0));
}

/// What a fresh fit gives: how many changed, and both lists.
fn anew(card: &[u8]) -> (u32, Vec<i32>, Vec<i32>) {
    let (mut slopes, mut curvatures) = (vec![7; 6], vec![7; 6]);
    let Refitted { knots, changed } = refit(card, &mut slopes, &mut curvatures).unwrap();
    assert_eq!((knots, slopes[5], curvatures[5]), (5, 7, 7));
    (changed, slopes[..5].to_vec(), curvatures[..5].to_vec())
}

#[test]
fn a_fresh_fit_keeps_given_slopes() {
    assert_eq!(anew(&table_4_card()), (0, TABLE_4.2.to_vec(), TABLE_4.3.to_vec()));
    let mut off = TABLE_4.3;
    off[1] += 1;
    off[4] -= 1;
    assert_eq!(anew(&sloped_bytes(&TABLE_4.0, &TABLE_4.1, &TABLE_4.2, &off)), (2, TABLE_4.2.to_vec(), TABLE_4.3.to_vec()));
    // A slope that was changed stays, and the curvatures beside it show it.
    let (minutes, slopes) = ([0, 60, 120, 180, 240], [0, 0, 40, 0, 0]);
    let changed = anew(&sloped_bytes(&minutes, &[0; 5], &slopes, &[0; 5]));
    assert_eq!(changed, (2, slopes.to_vec(), vec![0, -1, 0, 1, 0]));
    let (mut few, mut many) = ([0; 4], [0; 5]);
    assert_eq!(number_and_place(refit(&table_4_card(), &mut few, &mut many)), (3, 0));
    assert_eq!(number_and_place(refit(&table_4_card(), &mut few, &mut [0; 4])), (26, 0));
}

#[test]
fn a_book_has_cards_of_both_kinds() {
    let mut book = book_of(&[]);
    book.resize(300, 9);
    assert_eq!(put(&mut book, 4, &table_4_card()), (0, 0, 104));
    assert_eq!(put(&mut book, 3, &table_3_card()), (0, 0, 204));
    assert_eq!((found(&book, 3), found(&book, 4)), ((0, 0, 6, 94), (0, 0, 106, 94)));
    assert_eq!(check(&book[106..200]).unwrap().kind, Kind::Sloped);
    let mut coded = table_4_card();
    coded[8] = 2;
    assert_eq!(put(&mut book, 5, &coded), (15, 1, 0));
    assert_eq!(found(&book_of(&[(5, &coded)]), 5), (15, 1, 0, 0));
    coded[2] = 5;
    assert_eq!(put(&mut book, 5, &coded), (14, 0, 0));
}

/// At uneven gaps each rounding counts. The bits are those of a program of its own, in another language.
#[test]
fn the_curvatures_of_uneven_gaps_by_their_bits() {
    let slopes = [-327_680, -2_384, 214_527, 620_000];
    let curvatures = eliminate_slopes(&UNEVEN.0, &UNEVEN.1, &slopes).unwrap();
    let bits: Vec<u64> = curvatures.into_iter().map(f64::to_bits).collect();
    assert_eq!(bits, [0x4010_129b_e2c5_df81, 0x400e_92da_83d6_703e, 0x4009_cb4a_438b_36dc, 0x4006_728f_bfb4_7532]);
    let plain = slopes.map(|slope| f64::from(slope) / 4096.0);
    let second = line(&gap(&UNEVEN.0, &UNEVEN.1, 0), &gap(&UNEVEN.0, &UNEVEN.1, 1), plain[0], plain[1], plain[2]);
    assert_eq!(second.k.to_bits(), 0x3fed_7edf_c351_8a70);
}
