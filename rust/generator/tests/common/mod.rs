//! What several tests ask of a design.

use second::{Expr, Statement};

/// The outermost expression has depth 1.
pub fn depth_of(expr: &Expr) -> usize {
    let parts: Vec<&Expr> = match expr {
        Expr::Number(_) | Expr::Bool(_) | Expr::Local(_) => vec![],
        Expr::Operator(_, parts) => parts.iter().collect(),
        Expr::If {
            condition,
            then,
            otherwise,
        } => vec![condition, then, otherwise],
        Expr::When { guard, body } => vec![guard, body],
        Expr::Block(statements) => statements
            .iter()
            .map(|(Statement::Let(part) | Statement::Do(part))| part)
            .collect(),
        Expr::Call { arguments, .. } => arguments.iter().collect(),
        Expr::Display(part) => vec![part],
    };
    1 + parts.into_iter().map(depth_of).max().unwrap_or(0)
}
