// From the repository cool-japan/oxieml, commit fd90575a01, file src/eval.rs.
// Apache License, Version 2.0; the licence is in NOTICE at the root of this repository.
// This file was modified: evaluation by batches is left out, `Complex64` is ours, with document 01's exp and ln, the clamp is the
// settings', and a strict evaluation answers `ExpOverflow`.
// REPLACED.md lists every change.

//! Numerical evaluation of EML trees.
//!
//! Provides real, complex, and batch evaluation using a stack-machine
//! post-order traversal to avoid recursion depth issues on deep trees.

use crate::error::EmlError;
use crate::settings::Settings;
use crate::standins::Complex64;
use crate::tree::{EmlNode, EmlTree};

/// Evaluation context holding variable bindings.
#[derive(Clone, Debug)]
pub struct EvalCtx {
    vars: Vec<f64>,
    settings: Settings,
}

/// Threshold for imaginary part to consider result as real.
const IMAG_THRESHOLD: f64 = 1e-12;

impl EvalCtx {
    /// Create a new evaluation context with the given variable values.
    pub fn new(vars: &[f64], settings: &Settings) -> Self {
        Self {
            vars: vars.to_vec(),
            settings: *settings,
        }
    }

    /// Get the value of variable at the given index.
    pub fn get(&self, index: usize) -> Option<f64> {
        self.vars.get(index).copied()
    }

    /// Number of variables in this context.
    pub fn num_vars(&self) -> usize {
        self.vars.len()
    }

    /// Borrow the underlying variable slice.
    ///
    /// Exposed to let the stack-machine evaluator consume `&[f64]` directly
    /// without re-copying via `get(i)` loops (which would force an `unwrap`
    /// or `ok_or` ceremony on every lookup).
    pub fn as_slice(&self) -> &[f64] {
        &self.vars
    }

    /// The record that the context was made with.
    pub fn settings(&self) -> &Settings {
        &self.settings
    }
}

impl EmlTree {
    /// Evaluate the tree with real-valued inputs.
    ///
    /// Internally uses complex arithmetic when needed (e.g., `ln` of negative
    /// numbers). Returns the real part if the imaginary part is below threshold,
    /// otherwise returns `Err(EmlError::ComplexResult)`.
    pub fn eval_real(&self, ctx: &EvalCtx) -> Result<f64, EmlError> {
        let complex_vars: Vec<Complex64> =
            ctx.vars.iter().map(|&v| Complex64::new(v, 0.0)).collect();
        let result = self.eval_complex(&complex_vars, &ctx.settings)?;

        if result.im.abs() < IMAG_THRESHOLD {
            let re = result.re;
            if re.is_nan() {
                return Err(EmlError::NanEncountered);
            }
            Ok(re)
        } else {
            Err(EmlError::ComplexResult(result.im.abs()))
        }
    }

    /// Evaluate the tree with complex-valued inputs.
    ///
    /// Uses a stack-machine post-order traversal for numerical stability
    /// and to avoid stack overflow on deeply nested trees.
    pub fn eval_complex(
        &self,
        vars: &[Complex64],
        settings: &Settings,
    ) -> Result<Complex64, EmlError> {
        // Build a flattened post-order instruction list, then evaluate with a stack.
        let mut instructions = Vec::new();
        flatten_postorder(&self.root, &mut instructions);

        let mut stack: Vec<Complex64> = Vec::with_capacity(instructions.len());

        for inst in &instructions {
            match inst {
                Instruction::PushOne => {
                    stack.push(Complex64::new(1.0, 0.0));
                }
                Instruction::PushConst(v) => {
                    stack.push(Complex64::new(*v, 0.0));
                }
                Instruction::PushVar(idx) => {
                    let idx = *idx;
                    if idx >= vars.len() {
                        return Err(EmlError::VarOutOfBounds(idx, vars.len()));
                    }
                    stack.push(vars[idx]);
                }
                Instruction::Eml => {
                    let right = stack.pop().ok_or(EmlError::NanEncountered)?;
                    let left = stack.pop().ok_or(EmlError::NanEncountered)?;
                    let result = eml_complex(left, right, settings)?;
                    stack.push(result);
                }
            }
        }

        debug_assert_eq!(stack.len(), 1);
        Ok(stack[0])
    }
}

/// Internal instruction for the stack-machine evaluator.
#[derive(Clone, Debug)]
enum Instruction {
    PushOne,
    PushConst(f64),
    PushVar(usize),
    Eml,
}

/// Flatten an EML tree into post-order instructions.
fn flatten_postorder(node: &EmlNode, out: &mut Vec<Instruction>) {
    match node {
        EmlNode::Const(v) => out.push(Instruction::PushConst(*v)),
        EmlNode::One => out.push(Instruction::PushOne),
        EmlNode::Var(idx) => out.push(Instruction::PushVar(*idx)),
        EmlNode::Eml { left, right } => {
            flatten_postorder(left, out);
            flatten_postorder(right, out);
            out.push(Instruction::Eml);
        }
    }
}

/// Compute `eml(left, right) = exp(left) - ln(right)` for complex values.
fn eml_complex(
    left: Complex64,
    right: Complex64,
    settings: &Settings,
) -> Result<Complex64, EmlError> {
    // Document 02 [9]. Both children have their values here, so an error in either came before.
    if settings.strict && (left.re > settings.clamp || left.re < -settings.clamp) {
        return Err(EmlError::ExpOverflow(left.re));
    }

    // Clamp real part of left to prevent exp overflow
    let clamped_left = if left.re > settings.clamp {
        Complex64::new(settings.clamp, left.im)
    } else if left.re < -settings.clamp {
        Complex64::new(-settings.clamp, left.im)
    } else {
        left
    };

    let exp_part = clamped_left.exp();
    let ln_part = right.ln();

    let result = exp_part - ln_part;

    if result.re.is_nan() || result.im.is_nan() {
        return Err(EmlError::NanEncountered);
    }

    Ok(result)
}
