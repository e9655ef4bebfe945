//! Plans solved from their start: the library, the oracle and every peer.

use oracle::plan::Plan;

use crate::peers::{self, Peer};
use crate::race::{Case, Made, Repeated, Set, Side, LIBRARY, ORACLE};
use crate::sides::{self, bits, Library};

/// Which sides a set of plans has.
#[derive(Clone, Copy, PartialEq)]
pub enum Beside {
    Oracle,
    Peers,
}

/// The plan once on every side; an error says how they differ.
fn case(plan: &Plan, beside: Beside) -> Result<Case<'_>, String> {
    let mut library = Library::new(plan);
    let seen = library.solve(plan);
    // On 23 and 25 the oracle would need the copies that its feature `plain` leaves out.
    if !seen.optimal() {
        return Err(format!("{seen:?}: not a plan for the benchmark"));
    }
    let (told, values) = sides::oracle(plan);
    if seen != told || bits(library.written(seen)) != bits(&values) {
        return Err(format!("library {seen:?}, oracle {told:?}"));
    }
    let mut all = vec![
        Side::new(
            seen.steps,
            Repeated(move || {
                library.solve(plan);
            }),
        ),
        Side::new(
            told.steps,
            Repeated(|| {
                std::hint::black_box(sides::oracle(plan));
            }),
        ),
    ];
    let methods = peers::methods().filter(|_| beside == Beside::Peers);
    for method in methods {
        let mut peer = Peer::new(method, plan);
        let said = peer.solve();
        if !said.optimal() || !seen.near(said, 1e-6) {
            return Err(format!("library {seen:?}, {} {said:?}", method.name));
        }
        let solve = Repeated(move || {
            peer.solve();
        });
        all.push(Side::new(said.steps, solve));
    }
    Ok(Case {
        id: format!(
            "{}, {} rows, {} columns, {} entries",
            plan.id, plan.rows, plan.columns, plan.entries
        ),
        sides: all,
    })
}

/// Every plan; or how some differ.
pub fn set(name: impl Into<String>, plans: &[Plan], beside: Beside) -> Made<'_> {
    let mut names = vec![LIBRARY, ORACLE];
    if beside == Beside::Peers {
        names.extend(peers::methods().map(|method| method.name));
    }
    let mut set = Set::new(name, &names);
    let mut differ = vec![];
    for plan in plans {
        match case(plan, beside) {
            Ok(case) => set.cases.push(case),
            Err(how) => differ.push(format!("{}: {how}", plan.id)),
        }
    }
    set.made(differ)
}
