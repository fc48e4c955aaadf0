//! "Operators: `+ - * / %` 0 to 4; `< <= > >= == !=` 0 to 5."

use crate::ops::{Cmp, Math};

pub const MATH: [Math; 5] = [Math::Add, Math::Sub, Math::Mul, Math::Div, Math::Rem];

pub const CMP: [Cmp; 6] = [Cmp::Lt, Cmp::Le, Cmp::Gt, Cmp::Ge, Cmp::Eq, Cmp::Ne];

pub fn math(operator: Math) -> u8 {
    MATH.iter().position(|each| *each == operator).unwrap() as u8
}

pub fn cmp(operator: Cmp) -> u8 {
    CMP.iter().position(|each| *each == operator).unwrap() as u8
}
