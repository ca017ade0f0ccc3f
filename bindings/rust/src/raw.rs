//! The exported calls as C has them.
//!
//! A call marked safe takes every argument and touches no memory but the places behind its references. The others
//! take slices as a pointer and a length; `calls` makes them safe.

use crate::{Interval, Settings};

unsafe extern "C" {
    pub safe fn eml_exp(x: f64) -> f64;
    pub safe fn eml_ln(x: f64) -> f64;
    pub safe fn eml_sin(x: f64) -> f64;
    pub safe fn eml_cos(x: f64) -> f64;
    pub safe fn eml_atan(x: f64) -> f64;
    pub safe fn eml_complex_exp(re: f64, im: f64, real: &mut f64, imag: &mut f64);
    pub safe fn eml_complex_ln(re: f64, im: f64, real: &mut f64, imag: &mut f64);
    pub safe fn eml_max(a: f64, b: f64) -> f64;
    pub safe fn eml_min(a: f64, b: f64) -> f64;
    pub safe fn eml_abs(x: f64) -> f64;
    pub safe fn eml_sign_bit(x: f64) -> bool;
    pub safe fn eml_next_up(x: f64) -> f64;
    pub safe fn eml_next_down(x: f64) -> f64;
    pub safe fn eml_of_bits(b: u64) -> f64;
    pub safe fn eml_bits_of(x: f64) -> u64;
    pub safe fn eml_interval_new(lo: f64, hi: f64, low: &mut f64, high: &mut f64);
    pub safe fn eml_interval_point(v: f64, low: &mut f64, high: &mut f64);
    pub safe fn eml_interval_is_empty(lo: f64, hi: f64) -> bool;
    pub safe fn eml_interval_width(lo: f64, hi: f64) -> f64;
    pub safe fn eml_interval_midpoint(lo: f64, hi: f64) -> f64;
    pub safe fn eml_interval_contains(lo: f64, hi: f64, x: f64) -> bool;
    pub safe fn eml_interval_split(
        lo: f64,
        hi: f64,
        low: &mut f64,
        middle: &mut f64,
        high: &mut f64,
    );
    pub safe fn eml_interval_intersect(
        lo: f64,
        hi: f64,
        other: f64,
        another: f64,
        low: &mut f64,
        high: &mut f64,
    );
    pub safe fn eml_interval_hull(
        lo: f64,
        hi: f64,
        other: f64,
        another: f64,
        low: &mut f64,
        high: &mut f64,
    );
    pub safe fn eml_interval_exp(lo: f64, hi: f64, low: &mut f64, high: &mut f64);
    pub safe fn eml_interval_ln(lo: f64, hi: f64, low: &mut f64, high: &mut f64);
    pub safe fn eml_interval_exp_inv(lo: f64, hi: f64, low: &mut f64, high: &mut f64);
    pub safe fn eml_interval_ln_inv(lo: f64, hi: f64, low: &mut f64, high: &mut f64);
    pub safe fn eml_usual_settings() -> Settings;
    pub safe fn eml_test_settings(settings: Settings) -> u8;

    pub fn eml_read(file: *const u8, length: usize) -> u8;
    pub fn eml_read_records(
        nodes: *const u8,
        nodes_length: usize,
        constraints: *const u8,
        constraints_length: usize,
    ) -> u8;
    pub fn eml_num_vars(file: *const u8, length: usize, out: &mut u64) -> u8;
    pub fn eml_num_vars_records(
        nodes: *const u8,
        nodes_length: usize,
        constraints: *const u8,
        constraints_length: usize,
        out: &mut u64,
    ) -> u8;
    pub fn eml_domain_new(
        lo: *const f64,
        lo_length: usize,
        hi: *const f64,
        hi_length: usize,
        num_vars: usize,
        out_lo: *mut f64,
        out_lo_length: usize,
        out_hi: *mut f64,
        out_hi_length: usize,
    ) -> u8;
    pub fn eml_domain_is_empty(
        lo: *const f64,
        lo_length: usize,
        hi: *const f64,
        hi_length: usize,
        out: &mut bool,
    ) -> u8;
    pub fn eml_canonical_ln(nodes: *mut u8, length: usize, count: usize, x: usize) -> u8;
    pub fn eml_canonical_sub(nodes: *mut u8, length: usize, count: usize, x: usize, y: usize)
    -> u8;
    pub fn eml_eval_real(
        nodes: *const u8,
        length: usize,
        node: usize,
        point: *const f64,
        point_length: usize,
        settings: Settings,
        kind: &mut u8,
        value: &mut f64,
        index: &mut usize,
        count: &mut usize,
    ) -> u8;
    pub fn eml_check(
        nodes: *const u8,
        nodes_length: usize,
        constraints: *const u8,
        constraints_length: usize,
        point: *const f64,
        point_length: usize,
        settings: Settings,
        passes: &mut bool,
    ) -> u8;
    pub fn eml_residual(
        nodes: *const u8,
        nodes_length: usize,
        constraints: *const u8,
        constraints_length: usize,
        point: *const f64,
        point_length: usize,
        settings: Settings,
        out: &mut f64,
    ) -> u8;
    pub fn eml_to_nnf(
        nodes: *const u8,
        nodes_length: usize,
        constraints: *const u8,
        constraints_length: usize,
        out: *mut u8,
        out_length: usize,
        records: &mut usize,
    ) -> u8;
    pub fn eml_propagate(
        nodes: *const u8,
        nodes_length: usize,
        constraints: *const u8,
        constraints_length: usize,
        settings: Settings,
        lo: *mut f64,
        lo_length: usize,
        hi: *mut f64,
        hi_length: usize,
        answer: &mut u8,
    ) -> u8;
    pub fn eml_propagate_intervals(
        nodes: *const u8,
        nodes_length: usize,
        constraints: *const u8,
        constraints_length: usize,
        settings: Settings,
        boxes: *mut Interval,
        boxes_length: usize,
        answer: &mut u8,
    ) -> u8;
    pub fn eml_solve_file(
        file: *const u8,
        length: usize,
        limit: usize,
        tolerance: f64,
        settings: Settings,
        stop: &mut u8,
        exact: &mut bool,
        residual: &mut f64,
        halvings: &mut usize,
        count: &mut usize,
        point: *mut f64,
        point_length: usize,
    ) -> u8;
    pub fn eml_solve(
        nodes: *const u8,
        nodes_length: usize,
        constraints: *const u8,
        constraints_length: usize,
        lo: *const f64,
        lo_length: usize,
        hi: *const f64,
        hi_length: usize,
        limit: usize,
        tolerance: f64,
        settings: Settings,
        stop: &mut u8,
        exact: &mut bool,
        residual: &mut f64,
        halvings: &mut usize,
        count: &mut usize,
        point: *mut f64,
        point_length: usize,
    ) -> u8;
}

/// Calls that differ in their names only.
macro_rules! alike {
    ($($name:ident),* as $arguments:tt) => {
        alike!(@each $($name $arguments)*);
    };
    (@each $($name:ident ($($argument:ident: $kind:ty),*))*) => {
        unsafe extern "C" {
            $(pub fn $name($($argument: $kind),*) -> u8;)*
        }
    };
}

alike!(
    eml_lt, eml_le, eml_gt, eml_ge as (
        nodes: *mut u8,
        length: usize,
        count: usize,
        x: usize,
        y: usize,
        out: *mut u8,
        out_length: usize
    )
);
alike!(
    eml_decide_forall, eml_decide_exists as (
        nodes: *const u8,
        nodes_length: usize,
        constraints: *const u8,
        constraints_length: usize,
        var: usize,
        lo: f64,
        hi: f64,
        num_vars: usize,
        settings: Settings,
        verdict: &mut u8,
        count: &mut usize,
        point: *mut f64,
        point_length: usize
    )
);
