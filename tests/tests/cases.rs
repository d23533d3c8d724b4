//! The gate holds the proved program `cases` to its stored output; this holds the stored output to the direct sums.

#[test]
fn stored_output_is_that_of_the_direct_sums() {
    assert!(include_str!("../../crates/cases/stdout") == wemsteky_tests::cases::text());
}
