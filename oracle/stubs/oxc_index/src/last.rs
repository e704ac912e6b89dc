//! The last index used, by the name of its type.

use std::cell::RefCell;
use std::collections::HashMap;

thread_local! {
    static LAST: RefCell<HashMap<&'static str, usize>> = RefCell::new(HashMap::new());
}

pub fn last_index(name: &str) -> Option<usize> {
    LAST.with_borrow(|m| m.get(name).copied())
}

pub fn forget_last() {
    LAST.with_borrow_mut(|m| m.clear());
}

pub(crate) fn keep(name: &'static str, index: usize) {
    LAST.with_borrow_mut(|m| m.insert(name, index));
}
