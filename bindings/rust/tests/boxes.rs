//! Every call of boxes.

use johikape::{BoundingBox, GeoStatistics, Interval, Refusal, WraparoundInterval};

const NAN: f64 = f64::NAN;

/// The byte orders of well-known binary.
const HIGH_FIRST: u8 = 0;
const LOW_FIRST: u8 = 1;

/// x and y from 0 to 10.
fn square() -> BoundingBox {
    BoundingBox::xy((0.0, 10.0), (0.0, 10.0))
}

/// A part of well-known binary: its byte order, a type code and counts, and numbers.
fn wkb(order: u8, words: &[u32], numbers: &[f64]) -> Vec<u8> {
    let mut bytes = vec![order];
    for word in words {
        bytes.extend(ordered(order, word.to_be_bytes()));
    }
    for number in numbers {
        bytes.extend(ordered(order, number.to_be_bytes()));
    }
    bytes
}

/// Bytes in a byte order, of those with the high one first.
fn ordered<const COUNT: usize>(order: u8, mut bytes: [u8; COUNT]) -> [u8; COUNT] {
    if order == LOW_FIRST {
        bytes.reverse();
    }
    bytes
}

/// A point in so many collections.
fn nest(collections: usize) -> Vec<u8> {
    let heads = wkb(HIGH_FIRST, &[7, 1], &[]).repeat(collections);
    [heads, wkb(LOW_FIRST, &[1], &[10.0, 38.0])].concat()
}

#[test]
fn a_box_is_made_of_its_intervals() {
    let bbox = BoundingBox {
        x: WraparoundInterval::new(170.0, -170.0),
        y: Interval::new(1.0, 2.0),
        z: Some(Interval::new(3.0, 4.0)),
        m: None,
    };
    assert_eq!(
        bbox,
        BoundingBox::xy((170.0, -170.0), (1.0, 2.0)).with_z((3.0, 4.0))
    );
}

#[test]
fn a_box_is_empty_by_its_x_or_its_y() {
    let nothing = (f64::INFINITY, f64::NEG_INFINITY);
    assert!(BoundingBox::empty().is_empty());
    assert!(BoundingBox::xy(nothing, (0.0, 1.0)).is_empty());
    assert!(BoundingBox::xy((0.0, 1.0), nothing).is_empty());
    assert!(!square().with_z(nothing).is_empty());
}

#[test]
fn boxes_intersect_in_x_and_in_y() {
    assert!(square().intersects(&BoundingBox::xy((10.0, 20.0), (5.0, 6.0))));
    assert!(!square().intersects(&BoundingBox::xy((11.0, 20.0), (5.0, 6.0))));
    assert!(!square().intersects(&BoundingBox::xy((5.0, 6.0), (11.0, 20.0))));
    assert!(square().intersects(&BoundingBox::xy((170.0, 5.0), (5.0, 6.0))));
    assert!(!square().intersects(&BoundingBox::empty()));
}

#[test]
fn z_and_m_are_tested_only_where_both_boxes_know_them() {
    let low = square().with_z((0.0, 1.0)).with_m((0.0, 1.0));
    assert!(!low.intersects(&square().with_z((2.0, 3.0))));
    assert!(!low.intersects(&square().with_m((2.0, 3.0))));
    assert!(low.intersects(&square()));
    assert!(square().intersects(&low));
    assert!(!low.contains(&square().with_z((0.5, 1.5))));
    assert!(!low.contains(&square().with_m((0.5, 1.5))));
    assert!(low.contains(&square()));
    assert!(square().contains(&low));
}

#[test]
fn missing_is_not_empty() {
    let no_depth = square().with_z(Interval::empty());
    let deep = square().with_z((0.0, 1.0));
    assert!(!no_depth.intersects(&deep));
    assert!(square().intersects(&deep));
}

#[test]
fn a_box_contains_by_both_ends() {
    assert!(square().contains(&square()));
    assert!(square().contains(&BoundingBox::xy((1.0, 9.0), (1.0, 9.0))));
    assert!(!square().contains(&BoundingBox::xy((1.0, 11.0), (1.0, 9.0))));
    assert!(!square().contains(&BoundingBox::xy((1.0, 9.0), (-1.0, 9.0))));
}

#[test]
fn a_wrapped_x_contains_by_either_piece() {
    let strip = BoundingBox::xy((170.0, -170.0), (0.0, 1.0));
    assert!(strip.contains(&BoundingBox::xy((-178.0, -175.0), (0.0, 1.0))));
    assert!(strip.contains(&BoundingBox::xy((175.0, 178.0), (0.0, 1.0))));
    assert!(!strip.contains(&BoundingBox::xy((175.0, 178.0), (0.0, 2.0))));
    assert!(!strip.contains(&BoundingBox::xy((165.0, 178.0), (0.0, 1.0))));
}

#[test]
fn merging_keeps_z_and_m_only_where_both_know_them() {
    let a = square().with_z((0.0, 1.0)).with_m((5.0, 6.0));
    let b = BoundingBox::xy((20.0, 30.0), (-5.0, 5.0)).with_m((1.0, 2.0));
    let around = BoundingBox::xy((0.0, 30.0), (-5.0, 10.0)).with_m((1.0, 6.0));
    assert_eq!(a.merge(&b), around);
    assert_eq!(b.merge(&a), around);
}

#[test]
fn merging_a_wrapped_x() {
    let strip = BoundingBox::xy((170.0, -170.0), (0.0, 1.0));
    let middle = BoundingBox::xy((-100.0, 100.0), (0.0, 1.0));
    assert_eq!(
        strip.merge(&middle),
        BoundingBox::xy((-100.0, -170.0), (0.0, 1.0))
    );
}

#[test]
fn the_intersection_keeps_z_and_m_only_where_both_know_them() {
    let a = square().with_z((0.0, 2.0)).with_m((5.0, 6.0));
    let b = BoundingBox::xy((5.0, 20.0), (-5.0, 5.0)).with_z((1.0, 9.0));
    assert_eq!(
        a.intersection(&b),
        Ok(BoundingBox::xy((5.0, 10.0), (0.0, 5.0)).with_z((1.0, 2.0)))
    );
}

#[test]
fn the_intersection_is_refused_where_x_has_two_parts() {
    let plain = BoundingBox::xy((0.0, 30.0), (0.0, 1.0));
    let wrapped = BoundingBox::xy((20.0, 5.0), (0.0, 1.0));
    assert_eq!(plain.intersection(&wrapped), Err(Refusal::TwoParts));
    assert_eq!(wrapped.intersection(&plain), Err(Refusal::TwoParts));
}

#[test]
fn expanding_leaves_z_and_m() {
    let strip = BoundingBox::xy((20.0, 10.0), (0.0, 1.0))
        .with_z((2.0, 3.0))
        .with_m((4.0, 5.0));
    assert_eq!(
        strip.expand_by(4.0),
        BoundingBox::xy((16.0, 14.0), (-4.0, 5.0))
            .with_z((2.0, 3.0))
            .with_m((4.0, 5.0))
    );
    assert_eq!(strip.expand_by(-1.0), strip);
    assert_eq!(strip.expand_by(NAN), strip);
}

#[test]
fn nan_ends_meet_nothing_and_are_passed_over_by_a_merge() {
    let unsure = BoundingBox::xy((NAN, 5.0), (0.0, 10.0));
    assert!(!square().intersects(&unsure));
    assert!(!square().contains(&unsure));
    assert_eq!(square().merge(&unsure), square());
}

#[test]
fn an_array_has_the_lows_and_then_the_highs() {
    let strip = BoundingBox::xy((170.0, -170.0), (1.0, 2.0));
    assert_eq!(strip.to_geoparquet().unwrap(), [170.0, 1.0, -170.0, 2.0]);
    assert_eq!(
        strip.with_z((3.0, 4.0)).to_geoparquet().unwrap(),
        [170.0, 1.0, 3.0, -170.0, 2.0, 4.0]
    );
}

#[test]
fn a_box_and_an_array_come_back() {
    let boxes = [square(), square().with_z((-1.5, -1.5))];
    for there in boxes {
        let array = there.to_geoparquet().unwrap();
        assert_eq!(BoundingBox::from_geoparquet(&array), Ok(there));
    }
    let arrays: [&[f64]; 2] = [&[170.0, 1.0, -170.0, 2.0], &[1.0, 2.0, 3.0, 4.0, 5.0, 6.0]];
    for there in arrays {
        let bounds = BoundingBox::from_geoparquet(there).unwrap();
        assert_eq!(bounds.to_geoparquet().unwrap(), there);
    }
}

#[test]
fn a_box_that_no_array_holds_is_refused() {
    let known_m = square().with_m((31.5, 48.0));
    assert_eq!(known_m.to_geoparquet(), Err(Refusal::KnownM));
    let both = BoundingBox::xy((NAN, 1.0), (0.0, 1.0)).with_m((31.5, 48.0));
    assert_eq!(both.to_geoparquet(), Err(Refusal::KnownM));
    for bad in [
        BoundingBox::xy((NAN, 1.0), (0.0, 1.0)),
        BoundingBox::xy((0.0, f64::INFINITY), (0.0, 1.0)),
        BoundingBox::xy((0.0, 1.0), (1.0, 0.0)),
        square().with_z((1.0, 1.0_f64.next_down())),
        BoundingBox::empty(),
    ] {
        assert_eq!(bad.to_geoparquet(), Err(Refusal::BadNumbers), "{bad:?}");
    }
}

#[test]
fn an_array_that_is_no_box_is_refused() {
    for count in [0, 1, 2, 3, 5, 7, 8] {
        let array = vec![NAN; count];
        assert_eq!(
            BoundingBox::from_geoparquet(&array),
            Err(Refusal::BboxLength),
            "{count}"
        );
    }
    let arrays: [&[f64]; 4] = [
        &[0.0, NAN, 1.0, 1.0],
        &[f64::NEG_INFINITY, 0.0, 1.0, 1.0],
        &[0.0, 1.0, 1.0, 0.0],
        &[0.0, 0.0, 1.0, 1.0, 1.0, 0.0],
    ];
    for array in arrays {
        assert_eq!(
            BoundingBox::from_geoparquet(array),
            Err(Refusal::BadNumbers),
            "{array:?}"
        );
    }
}

/// The bits of every end of a box that knows z.
fn bits(bounds: &BoundingBox) -> [u64; 6] {
    let (x, y, z) = (bounds.x, bounds.y, bounds.z.unwrap());
    [x.lo, x.hi, y.lo, y.hi, z.lo, z.hi].map(f64::to_bits)
}

#[test]
fn boxes_of_equal_numbers_have_the_same_bits() {
    let minus = Interval { lo: -0.0, hi: -0.0 };
    let filled = BoundingBox {
        x: WraparoundInterval { lo: -0.0, hi: -0.0 },
        y: minus,
        z: Some(minus),
        m: None,
    };
    let zero = BoundingBox::xy((0.0, 0.0), (0.0, 0.0)).with_z((0.0, 0.0));
    let point = wkb(1, &[1001], &[-0.0, -0.0, -0.0]);
    let given = [
        BoundingBox::xy((-0.0, -0.0), (-0.0, -0.0)).with_z((-0.0, -0.0)),
        BoundingBox::xy(filled.x, minus).with_z(minus),
        filled.merge(&filled),
        filled.intersection(&filled).unwrap(),
        filled.expand_by(NAN),
        BoundingBox::from_geoparquet(&[-0.0; 6]).unwrap(),
        BoundingBox::from_wkb(&point).unwrap().0,
    ];
    for bounds in given {
        assert_eq!(bits(&bounds), bits(&zero), "{bounds:?}");
    }
    let array = filled.to_geoparquet().unwrap();
    assert!(array.iter().all(|number| number.to_bits() == 0));
}

/// The bits of every end of a box, those of z and m where they are known.
fn all_bits(bounds: &BoundingBox) -> Vec<u64> {
    let x = [bounds.x.lo, bounds.x.hi, bounds.y.lo, bounds.y.hi];
    let more = [bounds.z, bounds.m].into_iter().flatten();
    let more = more.flat_map(|known| [known.lo, known.hi]);
    x.into_iter().chain(more).map(f64::to_bits).collect()
}

#[test]
fn what_makes_a_box_has_plus_zero_for_each_end() {
    // -0 at one end of a filled box, 1 at the others.
    for place in 0..8 {
        let mut ends = [1.0; 8];
        ends[place] = -0.0;
        let [x_lo, x_hi, y_lo, y_hi, z_lo, z_hi, m_lo, m_hi] = ends;
        let x = WraparoundInterval { lo: x_lo, hi: x_hi };
        let y = Interval { lo: y_lo, hi: y_hi };
        let z = Interval { lo: z_lo, hi: z_hi };
        let m = Interval { lo: m_lo, hi: m_hi };
        let filled = |z, m| BoundingBox { x, y, z, m };
        let of_all = [
            BoundingBox::xy(x, y).with_z(z).with_m(m),
            BoundingBox::xy(x, y).with_m(m).with_z(z),
            filled(None, None).with_z(z).with_m(m),
            filled(Some(z), None).with_m(m),
            filled(None, Some(m)).with_z(z),
            filled(Some(z), Some(m)).with_z(z),
            filled(Some(z), Some(m)).with_m(m),
            GeoStatistics::from(filled(Some(z), Some(m))).bbox.unwrap(),
        ];
        let plus = ends.map(|end| if end == 0.0 { 0 } else { f64::to_bits(end) });
        for bounds in of_all {
            assert_eq!(all_bits(&bounds), plus, "{bounds:?}");
        }
        let of_x_and_y = [
            BoundingBox::xy(x, y),
            GeoStatistics::from(filled(None, None)).bbox.unwrap(),
        ];
        for bounds in of_x_and_y {
            assert_eq!(all_bits(&bounds), plus[..4], "{bounds:?}");
        }
    }
}

#[test]
fn a_point_low_byte_first() {
    let point = [
        1, 1, 0, 0, 0, 0, 0, 0, 0, 0, 0, 0x24, 0x40, 0, 0, 0, 0, 0, 0, 0x43, 0x40,
    ];
    let bbox = BoundingBox::xy((10.0, 10.0), (38.0, 38.0));
    assert_eq!(BoundingBox::from_wkb(&point), Ok((bbox, 1 << 1)));
}

#[test]
fn both_byte_orders_give_one_box_and_type_set() {
    let numbers = [170.0, 2.0, 3.0, 4.0, -170.0, 6.0, -7.0, 8.0];
    let bbox = BoundingBox::xy((-170.0, 170.0), (2.0, 6.0))
        .with_z((-7.0, 3.0))
        .with_m((4.0, 8.0));
    for order in [HIGH_FIRST, LOW_FIRST] {
        let line = wkb(order, &[3002, 2], &numbers);
        assert_eq!(BoundingBox::from_wkb(&line), Ok((bbox, 1 << 26)));
    }
}

#[test]
fn parts_have_byte_orders_of_their_own() {
    let parts = [
        wkb(LOW_FIRST, &[7, 3], &[]),
        wkb(HIGH_FIRST, &[1], &[1.0, 2.0]),
        wkb(LOW_FIRST, &[3, 2, 1], &[5.0, 6.0]),
        // The polygon's second ring.
        wkb(LOW_FIRST, &[1], &[7.0, -8.0])[1..].to_vec(),
        wkb(HIGH_FIRST, &[4, 1], &[]),
        wkb(LOW_FIRST, &[1], &[-3.0, 4.0]),
    ];
    let bbox = BoundingBox::xy((-3.0, 7.0), (-8.0, 6.0));
    assert_eq!(BoundingBox::from_wkb(&parts.concat()), Ok((bbox, 1 << 7)));
}

#[test]
fn each_type_has_its_bit_and_its_dimensions() {
    let nothing = Interval::empty();
    let boxes = [
        BoundingBox::empty(),
        BoundingBox::empty().with_z(nothing),
        BoundingBox::empty().with_m(nothing),
        BoundingBox::empty().with_z(nothing).with_m(nothing),
    ];
    for (thousands, bbox) in (0..).zip(boxes) {
        for kind in 2..=7 {
            let empty = wkb(LOW_FIRST, &[1000 * thousands + kind, 0], &[]);
            let types = 1 << (8 * thousands + kind);
            assert_eq!(BoundingBox::from_wkb(&empty), Ok((bbox, types)));
        }
    }
}

#[test]
fn nan_is_passed_over_and_infinities_are_not() {
    let empty = wkb(LOW_FIRST, &[1], &[NAN, NAN]);
    assert_eq!(
        BoundingBox::from_wkb(&empty),
        Ok((BoundingBox::empty(), 1 << 1))
    );
    let line = wkb(
        LOW_FIRST,
        &[2, 3],
        &[NAN, 5.0, 1.0, NAN, f64::INFINITY, -6.0],
    );
    let bbox = BoundingBox::xy((1.0, f64::INFINITY), (-6.0, 5.0));
    assert_eq!(BoundingBox::from_wkb(&line), Ok((bbox, 1 << 2)));
}

#[test]
fn bytes_too_few_or_left_over_are_refused() {
    let good = wkb(HIGH_FIRST, &[2, 2], &[1.0, 2.0, 3.0, 4.0]);
    for count in 0..good.len() {
        assert_eq!(
            BoundingBox::from_wkb(&good[..count]),
            Err(Refusal::WkbLength),
            "{count}"
        );
    }
    let left_over = [good, vec![0]].concat();
    let many = wkb(LOW_FIRST, &[2, u32::MAX], &[1.0, 2.0]);
    for bytes in [left_over, many] {
        assert_eq!(BoundingBox::from_wkb(&bytes), Err(Refusal::WkbLength));
    }
}

#[test]
fn of_more_than_65_536_bytes_none_is_read() {
    let point = wkb(LOW_FIRST, &[3001], &[1.0, 2.0, 3.0, 4.0]);
    let most = [wkb(LOW_FIRST, &[3004, 1771], &[]), point.repeat(1771)].concat();
    assert_eq!(most.len(), 65_536);
    let bbox = BoundingBox::xy((1.0, 1.0), (2.0, 2.0))
        .with_z((3.0, 3.0))
        .with_m((4.0, 4.0));
    assert_eq!(BoundingBox::from_wkb(&most), Ok((bbox, 1 << 28)));
    let line = wkb(LOW_FIRST, &[2, 4096], &[1.0; 8192]);
    assert_eq!(BoundingBox::from_wkb(&line), Err(Refusal::WkbLength));
    let bad = [u8::MAX; 65_537];
    assert_eq!(BoundingBox::from_wkb(&bad), Err(Refusal::WkbLength));
    assert_eq!(BoundingBox::from_wkb(&bad[1..]), Err(Refusal::WkbCode));
}

#[test]
fn a_wrong_byte_order_or_type_code_is_refused() {
    let mut bad = vec![vec![2], wkb(2, &[1], &[1.0, 2.0])];
    // None, curves, a TIN, dimensions that there are not, and EWKB's flags of z and of an SRID.
    for code in [0, 8, 1008, 16, 4001, 0x8000_0001, 0x2000_0001] {
        bad.push(wkb(LOW_FIRST, &[code], &[1.0, 2.0, 3.0, 4.0]));
    }
    // A whole that takes no such part, and one with other dimensions.
    for (whole, part) in [(4, 2), (5, 1), (6, 7), (1004, 1), (7, 1001), (3007, 2001)] {
        let head = wkb(LOW_FIRST, &[whole, 1], &[]);
        bad.push([head, wkb(LOW_FIRST, &[part], &[1.0, 2.0, 3.0])].concat());
    }
    for bytes in bad {
        assert_eq!(
            BoundingBox::from_wkb(&bytes),
            Err(Refusal::WkbCode),
            "{bytes:?}"
        );
    }
}

#[test]
fn a_collection_is_at_most_32_deep() {
    let bbox = BoundingBox::xy((10.0, 10.0), (38.0, 38.0));
    assert_eq!(BoundingBox::from_wkb(&nest(32)), Ok((bbox, 1 << 7)));
    assert_eq!(BoundingBox::from_wkb(&nest(33)), Err(Refusal::WkbDepth));
}
