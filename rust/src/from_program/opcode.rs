//! Markers as lucia-lang's opcodes.

use lucia_lang::compiler::{
    index::{ConstId, GlobalNameId, LabelId, LocalNameId, UpvalueNameId},
    opcode::OpCode,
    value::ValueType,
};

use super::CodeMarker;
use crate::{code::Code, listing::Marker};

/// An instruction or label; nothing for an operand that stands for nothing.
pub(super) fn marker(marker: Marker) -> Option<CodeMarker> {
    if marker.code == Code::Label {
        return Some(CodeMarker::Label(LabelId::new(marker.operand as usize)));
    }
    let n = marker.operand as usize;
    let found = plain(marker.code)
        .or_else(|| jump(marker.code, LabelId::new(n)))
        .or_else(|| indexed(marker.code, n));
    found.map(CodeMarker::OpCode)
}

/// Opcodes without an operand.
fn plain(code: Code) -> Option<OpCode<LabelId>> {
    Some(match code {
        Code::Pop => OpCode::Pop,
        Code::GetAttr => OpCode::GetAttr,
        Code::GetItem => OpCode::GetItem,
        Code::GetMeta => OpCode::GetMeta,
        Code::SetAttr => OpCode::SetAttr,
        Code::SetItem => OpCode::SetItem,
        Code::SetMeta => OpCode::SetMeta,
        Code::Neg => OpCode::Neg,
        Code::Not => OpCode::Not,
        Code::Add => OpCode::Add,
        Code::Sub => OpCode::Sub,
        Code::Mul => OpCode::Mul,
        Code::Div => OpCode::Div,
        Code::Rem => OpCode::Rem,
        Code::Eq => OpCode::Eq,
        Code::Ne => OpCode::Ne,
        Code::Gt => OpCode::Gt,
        Code::Ge => OpCode::Ge,
        Code::Lt => OpCode::Lt,
        Code::Le => OpCode::Le,
        Code::GetLen => OpCode::GetLen,
        Code::ImportGlob => OpCode::ImportGlob,
        Code::Iter => OpCode::Iter,
        Code::Return => OpCode::Return,
        Code::LoadLocals => OpCode::LoadLocals,
        _ => return None,
    })
}

/// Opcodes with a target.
fn jump(code: Code, label: LabelId) -> Option<OpCode<LabelId>> {
    Some(match code {
        Code::Jump => OpCode::Jump(label),
        Code::JumpBackEdge => OpCode::JumpBackEdge(label),
        Code::Break => OpCode::Break(label),
        Code::Continue => OpCode::Continue(label),
        Code::JumpPopIfNull => OpCode::JumpPopIfNull(label),
        Code::PopJumpIfTrue => OpCode::PopJumpIfTrue(label),
        Code::PopJumpIfFalse => OpCode::PopJumpIfFalse(label),
        Code::JumpIfTrueOrPop => OpCode::JumpIfTrueOrPop(label),
        Code::JumpIfFalseOrPop => OpCode::JumpIfFalseOrPop(label),
        Code::RegisterHandler => OpCode::RegisterHandler(label),
        _ => return None,
    })
}

/// Opcodes with a count, an index or a type.
fn indexed(code: Code, n: usize) -> Option<OpCode<LabelId>> {
    Some(match code {
        Code::Copy => OpCode::Copy(n),
        Code::Swap => OpCode::Swap(n),
        Code::LoadLocal => OpCode::LoadLocal(LocalNameId::new(n)),
        Code::LoadGlobal => OpCode::LoadGlobal(GlobalNameId::new(n)),
        Code::LoadUpvalue => OpCode::LoadUpvalue(UpvalueNameId::new(n)),
        Code::LoadConst => OpCode::LoadConst(ConstId::new(n)),
        Code::StoreLocal => OpCode::StoreLocal(LocalNameId::new(n)),
        Code::StoreGlobal => OpCode::StoreGlobal(GlobalNameId::new(n)),
        Code::BuildTable => OpCode::BuildTable(n),
        Code::BuildList => OpCode::BuildList(n),
        Code::TypeCheck => OpCode::TypeCheck(value_type(n)?),
        Code::Import => OpCode::Import(ConstId::new(n)),
        Code::ImportFrom => OpCode::ImportFrom(ConstId::new(n)),
        Code::Call => OpCode::Call(n),
        Code::ReturnCall => OpCode::ReturnCall(n),
        Code::CheckEffect => OpCode::CheckEffect(n),
        Code::MarkAddStackSize => OpCode::MarkAddStackSize(n),
        _ => return None,
    })
}

fn value_type(n: usize) -> Option<ValueType> {
    use ValueType::*;
    [Null, Bool, Int, Float, Str, Bytes, Table, Function, Effect, UserData].get(n).copied()
}
