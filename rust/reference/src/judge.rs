//! Judging a foreign plan by the rules of request j. Its numbers may be as large
//! as nine groups hold, so sums and products take 128 bits.

use crate::foreign::Plan;
use crate::plan::MILLION;
use crate::record::Table;
use crate::refusal::{Refusal, Rule};
use crate::timing::Timing;

/// Twice the work of 64 nodes that run as long as they can.
const LARGEST_OVER: u64 =
    2 * Table::LARGEST_COUNT as u64 * (Table::LARGEST_EXECUTION + Table::LARGEST_COST);

/// Refusal 24 where the plan is another task's, then 25 with the number of the
/// first broken rule.
pub fn judge(table: &Table, timing: &Timing, plan: &Plan) -> Result<(), Refusal> {
    if plan.id != table.id || plan.nodes.all().len() != table.count {
        return Err(Rule::PlanCount.into());
    }
    let case = Case {
        table,
        timing,
        plan,
    };
    match Case::RULES.iter().position(|holds| !holds(&case)) {
        Some(at) => Err(Refusal::at(Rule::UnfitPlan, at + 1)),
        None => Ok(()),
    }
}

/// A task, its cost paid, and a plan with as many nodes.
struct Case<'a> {
    table: &'a Table,
    timing: &'a Timing,
    plan: &'a Plan,
}

impl Case<'_> {
    /// In the order in which they are tried.
    const RULES: [fn(&Self) -> bool; 8] = [
        Self::over_is_in_range,
        Self::segments_are_the_cut,
        Self::numerators_fill_the_period,
        Self::deadlines_are_sums,
        Self::offsets_follow_the_parents,
        Self::deadlines_are_long_enough,
        Self::segments_are_not_too_dense,
        Self::densities_are_rounded_up,
    ];

    fn over_is_in_range(&self) -> bool {
        (1..=LARGEST_OVER).contains(&self.plan.over)
    }

    fn segments_are_the_cut(&self) -> bool {
        let own = self.timing.segments().iter();
        let own = own.map(|segment| [segment.threads, segment.length]);
        let foreign = self.plan.segments.all().iter();
        foreign
            .map(|&[threads, length, _]| [threads, length])
            .eq(own)
    }

    fn numerators_fill_the_period(&self) -> bool {
        numerators(self.plan.segments.all()) == self.period() * self.over()
    }

    fn deadlines_are_sums(&self) -> bool {
        let Timing { first, after, .. } = self.timing;
        let runs = first.iter().zip(after);
        self.nodes().zip(runs).all(|([_, deadline, _], run)| {
            let run = usize::from(*run.0)..usize::from(*run.1);
            deadline == numerators(&self.plan.segments.all()[run])
        })
    }

    fn offsets_follow_the_parents(&self) -> bool {
        let mut nodes = self.nodes().zip(self.table.parents);
        nodes.all(|([offset, ..], parents)| offset == self.latest_end(parents))
    }

    /// The greatest offset plus deadline among the nodes of a set, 0 without any.
    fn latest_end(&self, mut set: u64) -> u128 {
        let mut latest = 0;
        while set != 0 {
            let node = &self.plan.nodes.all()[set.trailing_zeros() as usize];
            let [offset, deadline, _] = wide(node);
            latest = latest.max(offset + deadline);
            set &= set - 1;
        }
        latest
    }

    /// At least half the execution.
    fn deadlines_are_long_enough(&self) -> bool {
        let mut nodes = self.executions().zip(self.nodes());
        nodes.all(|(execution, [_, deadline, _])| execution * self.over() <= 2 * deadline)
    }

    /// At most twice work over period.
    fn segments_are_not_too_dense(&self) -> bool {
        let twice_work = 2 * u128::from(self.timing.work);
        let mut segments = self.plan.segments.all().iter().map(wide);
        segments.all(|[threads, length, numerator]| {
            threads * length * self.over() * self.period() <= twice_work * numerator
        })
    }

    /// A join's is 0 over 1.
    fn densities_are_rounded_up(&self) -> bool {
        let mut nodes = self.executions().zip(self.nodes());
        nodes.all(|(execution, [_, deadline, density])| {
            let millionths = execution * self.over() * u128::from(MILLION);
            density == millionths.div_ceil(deadline.max(1))
        })
    }

    fn over(&self) -> u128 {
        self.plan.over.into()
    }

    fn period(&self) -> u128 {
        self.table.period.into()
    }

    fn executions(&self) -> impl Iterator<Item = u128> + '_ {
        self.table.executions.iter().copied().map(u128::from)
    }

    fn nodes(&self) -> impl Iterator<Item = [u128; 3]> + '_ {
        self.plan.nodes.all().iter().map(wide)
    }
}

fn wide(triple: &[u64; 3]) -> [u128; 3] {
    triple.map(u128::from)
}

fn numerators(segments: &[[u64; 3]]) -> u128 {
    let numerators = segments.iter().map(wide);
    numerators.map(|[_, _, numerator]| numerator).sum()
}
