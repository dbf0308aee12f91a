//! The example of the README.
#[path = "../examples/first.rs"]
#[allow(dead_code)]
mod first;

#[test]
fn four_threads_share_two_numbers() {
    assert_eq!(first::total(), 400);
}
