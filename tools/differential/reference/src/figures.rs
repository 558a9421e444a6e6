//! The figures that margins (request Q-2) are made of, out of the source itself: a task's completion is what
//! `task_completion_time` gives, a resource's limit and peak are what check 5 writes into its message. It
//! writes one only where the peak exceeds the limit, so each figure is asked for on a model changed in the other:
//! every limit lowered below zero shows the peaks, two bookings of a great usage show the limits.

use crate::model::{self, Model};
use crate::models::{Activity, Assignment, Constraint, ResourceRequirement, Task};
use crate::scheduler::feasibility_by_check::{by_check, FeasibilityInput};

/// No id is spelled so.
const PROBE: &str = "probe";
/// Above every limit, and below 2^31 with every load.
const GREAT: i32 = 2_000_000;

/// Tasks in their order with their completions; booked resources by id with limit and peak.
pub struct Figures {
    pub tasks: Vec<(i64, i64)>,
    pub resources: Vec<(i64, i64, i64)>,
}

/// The booked resources, by id, each once.
fn booked(model: &Model) -> Vec<String> {
    let mut ids: Vec<String> = model
        .schedule
        .assignments
        .iter()
        .map(|a| a.resource_id.clone())
        .collect();
    ids.sort_by_key(|id| crate::number(id));
    ids.dedup();
    ids
}

/// The peaks and limits in check 5's messages, by id.
fn said(model: &Model) -> Vec<(i64, i64, i64)> {
    let input = FeasibilityInput {
        tasks: &model.tasks,
        resources: &model.resources,
        constraints: &model.constraints,
    };
    let mut all: Vec<_> = by_check::capacity(&model.schedule, &input)
        .iter()
        .map(|v| {
            let (_, figures) = v.message.split_once(" peak load ").expect("the peak");
            let (peak, limit) = figures.split_once(" exceeds capacity ").expect("the limit");
            (
                crate::number(&v.entity_id),
                crate::number(peak),
                crate::number(limit),
            )
        })
        .collect();
    all.sort();
    all
}

/// The figures of an accepted sheet. Panics where check 5 is silent about a booked resource.
pub fn figures(rows: &[i64]) -> Figures {
    let mut lowered = model::model(rows);
    let completed = |task: &Task| {
        let completion = lowered.schedule.task_completion_time(&task.id)?;
        Some((crate::number(&task.id), completion))
    };
    let tasks = lowered.tasks.iter().filter_map(completed).collect();
    let ids = booked(&lowered);
    for id in &ids {
        lowered.constraints.push(Constraint::capacity(id, -1));
    }
    let peaks = said(&lowered);

    let mut loaded = model::model(rows);
    let requirement = ResourceRequirement::new(PROBE)
        .with_usage(GREAT)
        .with_candidates(ids.clone());
    let mut activity = Activity::new(PROBE, PROBE, 0);
    activity.resource_requirements.push(requirement);
    let mut task = Task::new(PROBE);
    task.activities.push(activity);
    loaded.tasks.push(task);
    for id in ids.iter().chain(&ids) {
        // Two: of an unknown resource each takes one unit, and its limit is 1.
        let booking = Assignment::new(PROBE, PROBE, id, 0, 1);
        loaded.schedule.add_assignment(booking);
    }
    let limits = said(&loaded);

    let both = peaks.iter().zip(&limits);
    let resources: Vec<_> = both.map(|(p, l)| (p.0, l.2, p.1)).collect();
    let named: Vec<i64> = ids.iter().map(|id| crate::number(id)).collect();
    assert!(peaks.iter().map(|p| p.0).eq(named.iter().copied()));
    assert!(limits.iter().map(|l| l.0).eq(named.iter().copied()));
    Figures { tasks, resources }
}
