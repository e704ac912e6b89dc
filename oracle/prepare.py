#!/usr/bin/env python3
"""Copies the Rust sources into gen/ (git-ignored) and makes the one edit.

Every file but codegen.rs is copied byte for byte. In codegen.rs one statement is replaced: in
place of handing the stream to `ControlFlowGraph::from_bytecode`, it is kept for printing, with the
label count. Files that the given sources lack (mod.rs, token.rs, ast/mod.rs, ast/ty.rs,
ast/effect.rs, utils.rs) come from standin/.

usage: prepare.py PATH, the folder that holds src/compiler
"""
import pathlib
import shutil
import sys

HERE = pathlib.Path(__file__).resolve().parent
GEN = HERE / "gen"

WANTED = """ast/assign ast/block ast/expr ast/function ast/ident ast/import ast/lit ast/member
ast/operator ast/params ast/pattern ast/program code codegen error index ir opcode semantic
value""".split()

BEFORE = b"""\
        self.ir[self.current_function_id].cfg = ControlFlowGraph::from_bytecode(
            self.code(),
            label_count.index(),
            function.params.params.len() + usize::from(function.params.variadic.is_some()),
        );
"""
# As many lines as before, so that a panic's line number is that of the source.
AFTER = b"""\
        crate::keep_stream(function_id.index(), self.code(), label_count.index());
        // The oracle's one edit, in as many lines:
        // the stream and its label count are kept
        // where the control flow graph
        // would be made of them.
"""


def main():
    sources = pathlib.Path(sys.argv[1]) / "src" / "compiler"
    if not (sources / "codegen.rs").is_file():
        sys.exit(f"prepare.py: no src/compiler/codegen.rs under {sys.argv[1]}")
    shutil.rmtree(GEN, ignore_errors=True)
    shutil.copytree(HERE / "standin", GEN)
    for name in WANTED:
        shutil.copyfile(sources / f"{name}.rs", GEN / "compiler" / f"{name}.rs")
    codegen = GEN / "compiler" / "codegen.rs"
    text = codegen.read_bytes()
    if text.count(BEFORE) != 1:
        sys.exit("prepare.py: the statement to replace isn't there exactly once")
    codegen.write_bytes(text.replace(BEFORE, AFTER))


if __name__ == "__main__":
    main()
