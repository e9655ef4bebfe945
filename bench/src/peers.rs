//! Other solvers through their C libraries, each behind a shim of the same three calls (`peer.h`). One that isn't built
//! in is absent.

use oracle::plan::Plan;
use std::ffi::c_void;

use crate::sides::{Arrays, Seen};

/// `Plan` of `peer.h`.
#[repr(C)]
pub struct Lent {
    columns: usize,
    rows: usize,
    entries: usize,
    costs: *const f64,
    lowers: *const f64,
    uppers: *const f64,
    starts: *const usize,
    cols: *const usize,
    coeffs: *const f64,
    ops: *const u8,
    rhs: *const f64,
}

/// A peer's simplex, the primal or the dual one, by its shim's calls.
pub struct Method {
    /// The peer's name, then the method's.
    pub name: &'static str,
    dual: bool,
    new: unsafe extern "C" fn(*const Lent) -> *mut c_void,
    solve: unsafe extern "C" fn(*mut c_void, i32, *mut f64, *mut usize) -> i32,
    delete: unsafe extern "C" fn(*mut c_void),
}

/// Both methods of a peer.
macro_rules! peer {
    ($feature:literal, $peer:ident, $new:ident, $solve:ident, $delete:ident, $primal:literal, $dual:literal) => {
        #[cfg(feature = $feature)]
        extern "C" {
            fn $new(plan: *const Lent) -> *mut c_void;
            fn $solve(made: *mut c_void, dual: i32, objective: *mut f64, steps: *mut usize) -> i32;
            fn $delete(made: *mut c_void);
        }
        #[cfg(feature = $feature)]
        static $peer: [Method; 2] = {
            const fn method(name: &'static str, dual: bool) -> Method {
                Method {
                    name,
                    dual,
                    new: $new,
                    solve: $solve,
                    delete: $delete,
                }
            }
            [method($primal, false), method($dual, true)]
        };
        #[cfg(not(feature = $feature))]
        static $peer: [Method; 0] = [];
    };
}
peer!(
    "glpk",
    GLPK,
    bench_glpk_new,
    bench_glpk_solve,
    bench_glpk_delete,
    "GLPK primal",
    "GLPK dual"
);
peer!(
    "clp",
    CLP,
    bench_clp_new,
    bench_clp_solve,
    bench_clp_delete,
    "Clp primal",
    "Clp dual"
);
peer!(
    "lpsolve",
    LPSOLVE,
    bench_lpsolve_new,
    bench_lpsolve_solve,
    bench_lpsolve_delete,
    "lp_solve primal",
    "lp_solve dual"
);

pub const NAMES: [&str; 3] = ["GLPK", "Clp", "lp_solve"];

/// Every method of the peers that are built in.
pub fn methods() -> impl Iterator<Item = &'static Method> {
    GLPK.iter().chain(&CLP).chain(&LPSOLVE)
}

/// A plan as a peer's problem object.
pub struct Peer {
    method: &'static Method,
    made: *mut c_void,
}

impl Peer {
    pub fn new(method: &'static Method, plan: &Plan) -> Peer {
        let arrays = Arrays::of(plan);
        let lent = Lent {
            columns: plan.columns as usize,
            rows: plan.rows as usize,
            entries: plan.entries as usize,
            costs: plan.cost.as_ptr(),
            lowers: plan.lower.as_ptr(),
            uppers: plan.upper.as_ptr(),
            starts: arrays.starts.as_ptr(),
            cols: arrays.cols.as_ptr(),
            coeffs: plan.coef.as_ptr(),
            ops: arrays.ops.as_ptr(),
            rhs: plan.rhs.as_ptr(),
        };
        // SAFETY: the arrays have the lengths that the sizes say, and the shim copies them.
        let made = unsafe { (method.new)(&lent) };
        Peer { method, made }
    }

    /// Solves from the slack basis; number 0 is optimal, 255 is anything else.
    pub fn solve(&mut self) -> Seen {
        let (mut objective, mut steps) = (0.0, 0);
        let dual = self.method.dual.into();
        // SAFETY: the object is this one's own, and the two numbers are borrowed for the call.
        let optimal = unsafe { (self.method.solve)(self.made, dual, &mut objective, &mut steps) };
        Seen {
            number: if optimal == 1 { 0 } else { 255 },
            steps,
            objective,
        }
    }
}

impl Drop for Peer {
    fn drop(&mut self) {
        // SAFETY: the object was made by `new` and is deleted once.
        unsafe { (self.method.delete)(self.made) }
    }
}
