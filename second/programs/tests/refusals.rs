//! Refusals 4 to 15, each alone and in pairs that show which comes first.

use crate::common::{
    accepted, chain, marked, refused, refused_columns, Columns, FINISH, HALVES, ROOT, TWO_LEVELS,
};

#[test]
fn identifier_0_gives_4_with_its_row() {
    assert_eq!(refused(&[ROOT, (10, 1, 420), (0, 1, 420)], &[]), (4, 2, 0));
}

#[test]
fn the_roots_identifier_0_gives_4() {
    assert_eq!(refused(&[(0, 0, 0), (10, 1, 420)], &[]), (4, 0, 0));
}

#[test]
fn an_identifier_gives_15_from_65536_on() {
    for identifier in [2, 255, 256, 32_767, 32_768, 65_534, 65_535] {
        accepted(&[ROOT, (identifier, 1, 420)], &[(identifier, 100)]);
        accepted(&[(identifier, 0, 0), (1, identifier, 420)], &[(1, 100)]);
    }
    // In 16 bits they would be 0, 1, 2, 10, 0, 10 and 65,535.
    let large = [65_536, 65_537, 65_538, 65_546, 1 << 31, (1 << 31) + 10];
    for identifier in large.into_iter().chain([u32::MAX]) {
        let rows = [ROOT, (10, 1, 420), (identifier, 1, 420)];
        assert_eq!(refused(&rows, &[(10, 100)]), (15, 2, 0));
        let rows = [(identifier, 0, 0), (10, identifier, 420)];
        assert_eq!(refused(&rows, &[(10, 100)]), (15, 0, 0));
    }
}

#[test]
fn a_parent_over_65535_is_no_row() {
    let rows = [ROOT, (10, 1, 420), (20, 65_546, 420)];
    assert_eq!(refused(&rows, &[]), (7, 2, 0));
}

#[test]
fn a_repeat_of_the_roots_identifier_gives_5() {
    assert_eq!(refused(&[ROOT, (1, 1, 420)], &[]), (5, 1, 0));
}

#[test]
fn a_root_with_a_parent_gives_6() {
    assert_eq!(refused(&[(1, 3, 0), (10, 1, 420)], &[]), (6, 0, 0));
}

#[test]
fn a_root_with_a_share_gives_6() {
    assert_eq!(refused(&[(1, 0, 840), (10, 1, 420)], &[]), (6, 0, 0));
}

#[test]
fn a_later_row_as_parent_gives_7() {
    let rows = [ROOT, (10, 20, 420), (20, 1, 420)];
    assert_eq!(refused(&rows, &[]), (7, 1, 0));
}

#[test]
fn a_second_row_without_parent_gives_7() {
    assert_eq!(refused(&[ROOT, (10, 0, 0)], &[]), (7, 1, 0));
}

#[test]
fn share_0_gives_8() {
    assert_eq!(refused(&[ROOT, (10, 1, 0)], &[]), (8, 1, 0));
}

#[test]
fn share_841_gives_8() {
    assert_eq!(refused(&[ROOT, (10, 1, 841)], &[]), (8, 1, 0));
    let rows = [ROOT, (10, 1, 840), (20, 10, 841)];
    assert_eq!(refused(&rows, &[]), (8, 2, 0));
}

#[test]
fn children_of_an_inner_class_over_the_whole_give_10_with_its_row() {
    let rows = [ROOT, (2, 1, 1), (3, 2, 840), (4, 2, 1)];
    assert_eq!(refused(&rows, &[]), (10, 1, 0));
}

#[test]
fn shares_are_summed_for_each_parent_alone() {
    let rows = [ROOT, (2, 1, 840), (3, 2, 840), (4, 3, 420), (5, 3, 420)];
    accepted(&rows, &[]);
}

#[test]
fn an_unknown_class_gives_11() {
    assert_eq!(refused(&HALVES, &[(10, 1), (77, 1)]), (11, 1, 0));
}

#[test]
fn a_class_over_65535_is_not_the_one_with_its_low_bits() {
    for class in [65_546, 65_556, (1 << 31) + 10, u32::MAX - 65_535 + 20] {
        assert_eq!(refused(&HALVES, &[(10, 1), (class, 1)]), (11, 1, 0));
    }
}

#[test]
fn an_arrival_for_the_root_gives_12() {
    assert_eq!(refused(&HALVES, &[(1, 100)]), (12, 0, 0));
}

#[test]
fn an_arrival_for_an_inner_class_gives_12() {
    assert_eq!(refused(&TWO_LEVELS, &[(3, 1), (2, 1)]), (12, 1, 0));
}

#[test]
fn an_arrival_of_length_0_gives_13() {
    assert_eq!(refused(&HALVES, &[(10, 0)]), (13, 0, 0));
}

#[test]
fn an_arrival_gives_13_from_length_9001_on() {
    for length in [9000, 8999, 8193, 8192, 4096] {
        accepted(&HALVES, &[(20, 1), (10, length)]);
    }
    // The low 16 or 31 bits of some of these would be a length that is accepted.
    let lengths = [9001, 9002, 16384, 65535, 65536, 65537, 74536, 1 << 31];
    for length in lengths.into_iter().chain([(1 << 31) + 9000, u32::MAX]) {
        assert_eq!(refused(&HALVES, &[(20, 1), (10, length)]), (13, 1, 0));
    }
}

#[test]
fn a_finish_with_a_length_gives_13() {
    assert_eq!(refused(&HALVES, &[(10, 1), (0, 1)]), (13, 1, 0));
}

#[test]
fn a_finish_after_the_last_packet_gives_14() {
    assert_eq!(refused(&HALVES, &[(10, 1), FINISH, FINISH]), (14, 2, 0));
}

#[test]
fn a_long_list_refused_at_its_end_leaves_every_slice_unchanged() {
    let mut events = vec![(10, 5); 500];
    events.extend(vec![FINISH; 501]);
    assert_eq!(refused(&HALVES, &events), (14, 1000, 0));
}

#[test]
fn order_1_before_2() {
    let mut columns = Columns::new(&HALVES, &[(10, 1)]);
    columns.shares.pop();
    columns.lengths.pop();
    assert_eq!(refused_columns(&columns, &marked(3, 1, 0)), (1, 0, 0));
}

#[test]
fn order_2_before_3() {
    let mut columns = Columns::new(&HALVES, &[(10, 1)]);
    columns.lengths.pop();
    assert_eq!(refused_columns(&columns, &marked(0, 0, 0)), (2, 0, 0));
}

#[test]
fn order_3_before_4() {
    let columns = Columns::new(&[(0, 0, 0), (10, 1, 1)], &[]);
    assert_eq!(refused_columns(&columns, &marked(1, 0, 0)), (3, 0, 0));
}

#[test]
fn order_4_before_6_at_the_root() {
    assert_eq!(refused(&[(0, 9, 9), (10, 1, 1)], &[]), (4, 0, 0));
}

#[test]
fn order_4_before_7_and_8() {
    assert_eq!(refused(&[ROOT, (0, 99, 841)], &[]), (4, 1, 0));
}

#[test]
fn order_an_earlier_rows_4_before_a_later_rows_15() {
    let rows = [ROOT, (0, 1, 420), (65_536, 1, 420)];
    assert_eq!(refused(&rows, &[]), (4, 1, 0));
}

#[test]
fn order_an_earlier_rows_15_before_a_later_rows_4() {
    let rows = [ROOT, (65_536, 1, 420), (0, 1, 420)];
    assert_eq!(refused(&rows, &[]), (15, 1, 0));
}

#[test]
fn order_15_before_6_at_the_root() {
    assert_eq!(refused(&[(65_536, 9, 9), (10, 1, 1)], &[]), (15, 0, 0));
}

#[test]
fn order_15_and_5_by_the_row() {
    // A row's own 15 hides its 5, and so does that of the earlier row with the same number.
    let rows = [ROOT, (65_536, 1, 420), (65_536, 1, 420)];
    assert_eq!(refused(&rows, &[]), (15, 1, 0));
    let rows = [ROOT, (65_536, 1, 420), (1, 1, 420)];
    assert_eq!(refused(&rows, &[]), (15, 1, 0));
    let rows = [ROOT, (1, 1, 420), (65_536, 1, 420)];
    assert_eq!(refused(&rows, &[]), (5, 1, 0));
}

#[test]
fn order_15_before_7_8_and_9() {
    assert_eq!(refused(&[ROOT, (65_536, 99, 420)], &[]), (15, 1, 0));
    assert_eq!(refused(&[ROOT, (65_536, 1, 841)], &[]), (15, 1, 0));
    let mut rows = chain(9);
    rows[9].0 = 65_536;
    assert_eq!(refused(&rows, &[]), (15, 9, 0));
}

#[test]
fn order_an_earlier_rows_7_before_a_later_rows_15() {
    let rows = [ROOT, (10, 99, 420), (65_536, 1, 420)];
    assert_eq!(refused(&rows, &[]), (7, 1, 0));
}

#[test]
fn order_a_later_rows_15_before_10() {
    let rows = [ROOT, (10, 1, 840), (20, 1, 1), (65_536, 1, 1)];
    assert_eq!(refused(&rows, &[]), (15, 3, 0));
}

#[test]
fn order_3_before_15() {
    let columns = Columns::new(&[(65_536, 0, 0), (10, 65_536, 1)], &[]);
    assert_eq!(refused_columns(&columns, &marked(1, 0, 0)), (3, 0, 0));
}

#[test]
fn order_15_before_11() {
    let rows = [ROOT, (65_536, 1, 420)];
    assert_eq!(refused(&rows, &[(77, 0)]), (15, 1, 0));
}

#[test]
fn order_5_before_7() {
    assert_eq!(refused(&[ROOT, (1, 99, 420)], &[]), (5, 1, 0));
}

#[test]
fn order_7_before_8() {
    assert_eq!(refused(&[ROOT, (10, 99, 841)], &[]), (7, 1, 0));
}

#[test]
fn order_8_before_9() {
    let mut rows = chain(9);
    rows[9].2 = 841;
    assert_eq!(refused(&rows, &[]), (8, 9, 0));
}

#[test]
fn order_an_earlier_rows_8_before_a_later_rows_4() {
    assert_eq!(refused(&[ROOT, (10, 1, 841), (0, 1, 1)], &[]), (8, 1, 0));
}

#[test]
fn order_a_later_rows_9_before_10() {
    let mut rows = chain(8);
    rows.extend([(11, 1, 1), (90, 80, 1)]);
    assert_eq!(refused(&rows, &[]), (9, 10, 0));
}

#[test]
fn order_10_at_the_lowest_parent_row() {
    // Row 1's children pass the whole first, at row 3; row 0's only at row 4.
    let rows = [ROOT, (2, 1, 840), (3, 2, 840), (4, 2, 1), (5, 1, 1)];
    assert_eq!(refused(&rows, &[]), (10, 0, 0));
}

#[test]
fn order_10_before_11() {
    let rows = [ROOT, (10, 1, 840), (20, 1, 1)];
    assert_eq!(refused(&rows, &[(77, 0)]), (10, 0, 0));
}

#[test]
fn order_11_before_13() {
    assert_eq!(refused(&HALVES, &[(77, 0)]), (11, 0, 0));
}

#[test]
fn order_12_before_13() {
    assert_eq!(refused(&TWO_LEVELS, &[(2, u32::MAX)]), (12, 0, 0));
}

#[test]
fn order_13_before_14() {
    assert_eq!(refused(&HALVES, &[(0, 5)]), (13, 0, 0));
}

#[test]
fn order_an_earlier_events_14_before_a_later_events_11() {
    assert_eq!(refused(&HALVES, &[FINISH, (77, 1)]), (14, 0, 0));
}

#[test]
fn order_an_earlier_events_13_before_a_later_events_12() {
    assert_eq!(refused(&HALVES, &[(10, u32::MAX), (1, 1)]), (13, 0, 0));
}
