//! The stored sample and cases A to J, through the wrapper.

mod common;

use lucia_codegen::gen_code;

#[test]
fn every_stored_answer() {
    for (name, given, answer) in common::cases() {
        let tables = common::read(&given);
        assert_eq!(common::print(&tables, &gen_code(&tables)), answer, "case {name}");
    }
}
