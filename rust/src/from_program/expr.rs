//! Expressions and patterns as records, in the order of document 01's 'Records'.

use std::hash::Hash;

use lucia_lang::compiler::{
    ast::{
        AssignLeft, AssignLeftKind, BinOp, EffectHandler, Expr, ExprKind, Ident, ImportItem,
        ImportKind, MatchCase, MemberKind, Pattern, PatternKind, UnOp,
    },
    value::ValueType,
};
use text_size::TextRange;

use super::flat::{Flat, count};

fn operator(operator: BinOp) -> u32 {
    match operator {
        BinOp::Add => 0,
        BinOp::Sub => 1,
        BinOp::Mul => 2,
        BinOp::Div => 3,
        BinOp::Rem => 4,
        BinOp::And => 5,
        BinOp::Or => 6,
        BinOp::Eq => 7,
        BinOp::Ne => 8,
        BinOp::Lt => 9,
        BinOp::Le => 10,
        BinOp::Gt => 11,
        BinOp::Ge => 12,
        BinOp::Is => 13,
    }
}

fn value_type(value_type: ValueType) -> u32 {
    match value_type {
        ValueType::Null => 0,
        ValueType::Bool => 1,
        ValueType::Int => 2,
        ValueType::Float => 3,
        ValueType::Str => 4,
        ValueType::Bytes => 5,
        ValueType::Table => 6,
        ValueType::Function => 7,
        ValueType::Effect => 8,
        ValueType::UserData => 9,
    }
}

fn member<S>(member: &MemberKind<S>) -> u32 {
    match member {
        MemberKind::Bracket(_) => 0,
        MemberKind::Dot(_) => 1,
        MemberKind::DoubleColon(_) => 2,
        MemberKind::BracketMeta => 3,
        MemberKind::DotMeta => 4,
        MemberKind::DoubleColonMeta => 5,
    }
}

impl<'a, S: AsRef<[u8]> + Eq + Hash> Flat<'a, S> {
    pub(super) fn exprs(&mut self, exprs: &'a [Expr<S>]) {
        for expr in exprs {
            self.expr(expr);
        }
    }

    pub(super) fn expr(&mut self, expr: &'a Expr<S>) {
        let range = expr.range;
        if self.too_deep() {
            return self.leaf([1, 0, 0, 0], range);
        }
        match &expr.kind {
            ExprKind::Lit(lit) => self.lit(1, lit),
            ExprKind::Ident(ident) => self.ident(2, ident),
            ExprKind::Paren(inner) => self.node([3, 0, 0, 0], range, |f| f.expr(inner)),
            ExprKind::Block(block) => self.block(block),
            ExprKind::Unary { operator, argument } => {
                let detail = u32::from(*operator == UnOp::Neg);
                self.node([9, detail, 0, 0], range, |f| f.expr(argument));
            }
            ExprKind::Binary { operator: o, left, right } => {
                self.node([10, operator(*o), 0, 0], range, |f| {
                    f.expr(left);
                    f.expr(right);
                });
            }
            ExprKind::TypeCheck { left, right } => {
                self.node([11, value_type(*right), 0, 0], range, |f| f.expr(left));
            }
            ExprKind::Break => self.leaf([19, 0, 0, 0], range),
            ExprKind::Continue => self.leaf([20, 0, 0, 0], range),
            ExprKind::Return { argument } => {
                self.node([21, 0, 0, 0], range, |f| f.expr(argument));
            }
            _ => self.larger_expr(expr),
        }
    }

    /// Expressions with parts that are not exprs, or with many.
    fn larger_expr(&mut self, expr: &'a Expr<S>) {
        let range = expr.range;
        match &expr.kind {
            ExprKind::Fn { name, function, .. } => {
                self.node([5, u32::from(name.is_some()), 0, 0], range, |f| {
                    f.idents(name.as_deref());
                    f.function(function);
                });
            }
            ExprKind::Effect { name, effect, .. } => {
                let string = self.text(&effect.name);
                self.node([6, 0, string, 0], range, |f| {
                    f.ident(2, name);
                    f.params(&effect.params);
                });
            }
            ExprKind::Table { properties } => self.node([7, 0, 0, 0], range, |f| {
                for property in properties {
                    f.expr(&property.key);
                    f.expr(&property.value);
                }
            }),
            ExprKind::List { items } => self.node([8, 0, 0, 0], range, |f| f.exprs(items)),
            ExprKind::Member { table, property, safe } => {
                let safe = if safe.is_some() { 8 } else { 0 };
                self.node([12, member(property) + safe, 0, 0], range, |f| {
                    f.expr(table);
                    f.property(property);
                });
            }
            ExprKind::Import { path, path_str, kind } => self.import(path, path_str, kind, range),
            _ => self.flow_expr(expr),
        }
    }

    /// Expressions with blocks, cases or handlers.
    fn flow_expr(&mut self, expr: &'a Expr<S>) {
        let range = expr.range;
        match &expr.kind {
            ExprKind::Call { callee, arguments, trailing_lambda, handlers } => {
                self.node([13, 0, 0, 0], range, |f| {
                    f.expr(callee);
                    f.exprs(arguments);
                    trailing_lambda.iter().for_each(|function| f.function(function));
                    handlers.iter().for_each(|handler| f.handler(handler));
                });
            }
            ExprKind::If { test, consequent, alternate } => {
                self.node([14, u32::from(alternate.is_some()), 0, 0], range, |f| {
                    f.expr(test);
                    f.block(consequent);
                    alternate.iter().for_each(|alternate| f.expr(alternate));
                });
            }
            ExprKind::Match { expr, cases } => self.node([15, 0, 0, 0], range, |f| {
                f.expr(expr);
                cases.iter().for_each(|case| f.case(case));
            }),
            ExprKind::Loop { body } => self.node([16, 0, 0, 0], range, |f| f.block(body)),
            ExprKind::While { test, body } => self.node([17, 0, 0, 0], range, |f| {
                f.expr(test);
                f.block(body);
            }),
            ExprKind::For { left, right, body } => {
                self.node([18, 0, count(left), 0], range, |f| {
                    f.idents(left);
                    f.expr(right);
                    f.block(body);
                });
            }
            _ => self.assignment(expr),
        }
    }

    fn assignment(&mut self, expr: &'a Expr<S>) {
        let range = expr.range;
        match &expr.kind {
            ExprKind::GloAssign { left, right } => self.node([23, 0, 0, 0], range, |f| {
                f.ident(2, &left.ident);
                f.expr(right);
            }),
            ExprKind::Assign { left, right } => self.node([24, 0, 0, 0], range, |f| {
                f.left(left);
                f.expr(right);
            }),
            ExprKind::AssignOp { operator: o, left, right } => {
                self.node([25, operator(*o), 0, 0], range, |f| {
                    f.left(left);
                    f.expr(right);
                });
            }
            ExprKind::AssignUnpack { left, right } => {
                self.node([26, 0, count(left), 0], range, |f| {
                    left.iter().for_each(|left| f.left(left));
                    f.expr(right);
                });
            }
            ExprKind::AssignMulti { left, right } => {
                self.node([27, 0, count(left), 0], range, |f| {
                    left.iter().for_each(|left| f.left(left));
                    f.exprs(right);
                });
            }
            _ => unreachable!("every other kind is taken above"),
        }
    }

    /// A Bracket's expr, a Dot's or DoubleColon's Ident; a Meta has none.
    fn property(&mut self, property: &'a MemberKind<S>) {
        match property {
            MemberKind::Bracket(expr) => self.expr(expr),
            MemberKind::Dot(ident) | MemberKind::DoubleColon(ident) => self.ident(2, ident),
            MemberKind::BracketMeta | MemberKind::DotMeta | MemberKind::DoubleColonMeta => (),
        }
    }

    fn left(&mut self, left: &'a AssignLeft<S>) {
        match &left.kind {
            AssignLeftKind::Ident(ident) => {
                self.node([34, 0, 0, 0], left.range, |f| f.ident(2, &ident.ident));
            }
            AssignLeftKind::Member { ident, property } => {
                self.node([34, 1 + member(property), 0, 0], left.range, |f| {
                    f.ident(2, ident);
                    f.property(property);
                });
            }
        }
    }

    fn handler(&mut self, handler: &'a EffectHandler<S>) {
        self.node([32, 0, 0, 0], handler.range, |f| {
            f.ident(2, &handler.effect);
            f.params(&handler.params);
            f.block(&handler.body);
        });
    }

    fn case(&mut self, case: &'a MatchCase<S>) {
        self.node([33, 0, count(&case.patterns), 0], case.range, |f| {
            case.patterns.iter().for_each(|pattern| f.pattern(pattern));
            f.expr(&case.body);
        });
    }

    fn pattern(&mut self, pattern: &'a Pattern<S>) {
        let range = pattern.range;
        if self.too_deep() {
            return self.leaf([35, 0, 0, 0], range);
        }
        match &pattern.kind {
            PatternKind::Lit(lit) => self.lit(35, lit),
            PatternKind::Ident(ident) => self.ident(36, ident),
            PatternKind::Table { pairs, others } => {
                self.node([37, u32::from(others.is_some()), 0, 0], range, |f| {
                    for pair in pairs {
                        f.lit(1, &pair.key);
                        f.pattern(&pair.value);
                    }
                });
            }
            PatternKind::List { items, others } => {
                self.node([38, u32::from(others.is_some()), 0, 0], range, |f| {
                    items.iter().for_each(|item| f.pattern(item));
                });
            }
        }
    }

    fn import(
        &mut self,
        path: &'a [Ident<S>],
        path_str: &'a S,
        kind: &'a ImportKind<S>,
        range: TextRange,
    ) {
        let detail = match kind {
            ImportKind::Simple(alias) => u32::from(alias.is_some()),
            ImportKind::Nested(_) => 2,
            ImportKind::Glob => 3,
        };
        let string = self.text(path_str);
        self.node([22, detail, count(path), string], range, |f| {
            f.idents(path);
            match kind {
                ImportKind::Simple(alias) => f.idents(alias.as_deref()),
                ImportKind::Nested(items) => items.iter().for_each(|item| f.item(item)),
                ImportKind::Glob => (),
            }
        });
    }

    fn item(&mut self, item: &'a ImportItem<S>) {
        self.node([39, u32::from(item.alias.is_some()), 0, 0], item.range, |f| {
            f.ident(2, &item.name);
            f.idents(&item.alias);
        });
    }
}
