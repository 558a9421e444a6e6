//! The reference, iyulab/u-schedule at commit e52bfc1324, over sheets of rows.

#![allow(dead_code)]

include!(concat!(env!("OUT_DIR"), "/source.rs"));

pub mod figures;
pub mod handed;
pub mod model;

use models::{Constraint, Violation, ViolationType};
use scheduler::{feasibility, feasibility_by_check};

/// A finding: check, type, entity, severity (the rules, "The call").
pub type Finding = [i64; 4];

/// The rules' number of a type.
fn type_number(violation_type: &ViolationType) -> i64 {
    match violation_type {
        ViolationType::DeadlineMiss => 1,
        ViolationType::CapacityExceeded => 2,
        ViolationType::PrecedenceViolation => 3,
        ViolationType::ResourceUnavailable => 4,
        ViolationType::SkillMismatch => 5,
        ViolationType::RequirementUnfilled => 6,
        ViolationType::TimeWindowViolation => 7,
        ViolationType::SynchronizeViolation => 8,
        ViolationType::UnknownActivity => 9,
        ViolationType::DurationTooShort => 10,
        ViolationType::EarlyStart => 11,
        ViolationType::Custom(_) => panic!("no check makes a custom violation"),
    }
}

/// What of a violation a finding carries.
fn line(violation: &Violation) -> (i64, &str, i32) {
    (
        type_number(&violation.violation_type),
        &violation.entity_id,
        violation.severity,
    )
}

/// The violations of `check_schedule`, and nothing else: what the benchmark times.
pub fn violations(model: &model::Model) -> Vec<Violation> {
    let input = feasibility::FeasibilityInput {
        tasks: &model.tasks,
        resources: &model.resources,
        constraints: &model.constraints,
    };
    feasibility::check_schedule(&model.schedule, &input)
}

/// The findings of an accepted sheet, check 5's in the order of their resources. Panics on a sheet that
/// the rules refuses, on any overflow in the build with overflow checks, and if the nine checks called
/// one by one do not give what `check_schedule` gives.
pub fn findings(rows: &[i64]) -> Vec<Finding> {
    let model = model::model(rows);
    let input = feasibility_by_check::FeasibilityInput {
        tasks: &model.tasks,
        resources: &model.resources,
        constraints: &model.constraints,
    };
    let mut made = feasibility_by_check::by_check::check_schedule_by_check(&model.schedule, &input);
    let from = made.iter().position(|m| m.0 >= 5).unwrap_or(made.len());
    let to = made.iter().position(|m| m.0 >= 6).unwrap_or(made.len());
    made[from..to].sort_by_key(|m| number(&m.2.entity_id));

    // Capacity lines alone come in hash order.
    let whole = violations(&model);
    let mut whole: Vec<_> = whole.iter().map(line).collect();
    let mut parts: Vec<_> = made.iter().map(|m| line(&m.2)).collect();
    assert_eq!(
        whole.len(),
        parts.len(),
        "the nine checks one by one differ from check_schedule"
    );
    whole[from..to].sort();
    parts[from..to].sort();
    assert_eq!(
        whole, parts,
        "the nine checks one by one differ from check_schedule"
    );

    let finding = |(check, place, v): &(i64, usize, Violation)| {
        [
            *check,
            type_number(&v.violation_type),
            entity(&model, *place, v),
            i64::from(v.severity),
        ]
    };
    made.iter().map(finding).collect()
}

fn number(id: &str) -> i64 {
    id.parse().expect("ids are decimal numbers")
}

/// The entity's number; that of a synchronize is its constraint place, its ids being checked here.
fn entity(model: &model::Model, place: usize, violation: &Violation) -> i64 {
    if violation.violation_type != ViolationType::SynchronizeViolation {
        return number(&violation.entity_id);
    }
    match &model.constraints[place] {
        Constraint::Synchronize { activity_ids } => {
            assert_eq!(activity_ids.join(","), violation.entity_id)
        }
        _ => panic!("a synchronize finding of another constraint"),
    }
    place as i64
}
