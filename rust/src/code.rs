//! Marker codes.

macro_rules! codes {
    ($($name:ident,)*) => {
        /// A marker's code: the opcodes in the Rust's order, and last `Label`.
        #[derive(Debug, Clone, Copy, PartialEq, Eq, Hash)]
        pub enum Code { $($name,)* }

        impl Code {
            /// All codes, by number.
            pub const ALL: [Self; 53] = [$(Self::$name,)*];

            /// The code's name.
            pub const fn name(self) -> &'static str {
                match self { $(Self::$name => stringify!($name),)* }
            }
        }
    };
}

#[rustfmt::skip]
codes! {
    Pop, Copy, Swap, LoadLocal, LoadGlobal, LoadUpvalue, LoadConst, StoreLocal, StoreGlobal,
    BuildTable, BuildList, GetAttr, GetItem, GetMeta, SetAttr, SetItem, SetMeta, Neg, Not, Add,
    Sub, Mul, Div, Rem, Eq, Ne, Gt, Ge, Lt, Le, TypeCheck, GetLen, Import, ImportFrom,
    ImportGlob, Iter, Call, Return, ReturnCall, LoadLocals, Jump, JumpBackEdge, Break, Continue,
    JumpPopIfNull, PopJumpIfTrue, PopJumpIfFalse, JumpIfTrueOrPop, JumpIfFalseOrPop,
    RegisterHandler, CheckEffect, MarkAddStackSize, Label,
}

impl Code {
    /// The code of a number, 0 to 52.
    pub fn from_number(number: u32) -> Option<Self> {
        Self::ALL.get(number as usize).copied()
    }

    pub const fn number(self) -> u32 {
        self as u32
    }

    /// Whether the operand is a label: an instruction's target.
    pub const fn is_target(self) -> bool {
        use Code::*;
        matches!(
            self,
            Jump | JumpBackEdge
                | Break
                | Continue
                | JumpPopIfNull
                | PopJumpIfTrue
                | PopJumpIfFalse
                | JumpIfTrueOrPop
                | JumpIfFalseOrPop
                | RegisterHandler
        )
    }

    /// Whether there is an operand.
    pub const fn has_operand(self) -> bool {
        use Code::*;
        let counts = matches!(self, Copy | Swap | BuildTable | BuildList | Call | ReturnCall);
        let loads = matches!(self, LoadLocal | LoadGlobal | LoadUpvalue | LoadConst);
        let stores = matches!(self, StoreLocal | StoreGlobal);
        let others = matches!(
            self,
            TypeCheck | Import | ImportFrom | CheckEffect | MarkAddStackSize | Label
        );
        counts || loads || stores || others || self.is_target()
    }
}
