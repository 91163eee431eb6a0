//! What tests say of what they got. The message of a failure has the values, and the runner names
//! the test.

use std::fmt::Debug;
use std::process::Abort;

/// Ends the test unless both are equal.
pub fn same<T: PartialEq + Debug + Drop>(rt: &impl Abort, got: T, wanted: T) {
    assert_eq!(rt; got, wanted);
}

/// Ends the test unless both are equal. The message also has where they should be.
pub fn same_at<T: PartialEq + Debug + Drop, A: Debug + Drop>(
    rt: &impl Abort,
    got: T,
    wanted: T,
    at: A,
) {
    assert_eq!(rt; got, wanted, "{at:?}");
}

/// Ends the test unless it holds.
pub fn holds(rt: &impl Abort, it: bool) {
    assert!(rt; it);
}

/// Ends the test unless it holds. The message also has where it should.
pub fn holds_at<A: Debug + Drop>(rt: &impl Abort, it: bool, at: A) {
    assert!(rt; it, "{at:?}");
}
