//! The nine checks one by one, in the order in which `check_schedule` calls them.

use super::*;

/// The violations with the number of the check that made each, and for check 9 the place of the
/// constraint: a constraint is judged without the others, so each is judged alone.
pub fn check_schedule_by_check(
    schedule: &Schedule,
    input: &FeasibilityInput,
) -> Vec<(i64, usize, Violation)> {
    let res_by_id: HashMap<&str, &Resource> =
        input.resources.iter().map(|r| (r.id.as_str(), r)).collect();
    let mut all = Vec::new();
    let mut add = |check: i64, place: usize, judge: &dyn Fn(&mut Vec<Violation>)| {
        let mut v = Vec::new();
        judge(&mut v);
        all.extend(v.into_iter().map(|violation| (check, place, violation)));
    };
    add(1, 0, &|v| check_assignments(schedule, input, &res_by_id, v));
    add(2, 0, &|v| check_time_only(schedule, input, v));
    add(3, 0, &|v| check_parts(schedule, input, v));
    add(4, 0, &|v| {
        check_requirements(schedule, input, &res_by_id, v)
    });
    add(5, 0, &|v| check_capacity(schedule, input, &res_by_id, v));
    add(6, 0, &|v| check_calendars(schedule, input, &res_by_id, v));
    add(7, 0, &|v| check_precedence(schedule, input, &res_by_id, v));
    add(8, 0, &|v| check_deadlines(schedule, input, v));
    for place in 0..input.constraints.len() {
        let one = FeasibilityInput {
            tasks: input.tasks,
            resources: input.resources,
            constraints: &input.constraints[place..place + 1],
        };
        add(9, place, &|v| check_constraints(schedule, &one, v));
    }
    all
}

/// Check 5 alone.
pub fn capacity(schedule: &Schedule, input: &FeasibilityInput) -> Vec<Violation> {
    let res_by_id = input.resources.iter().map(|r| (r.id.as_str(), r)).collect();
    let mut all = Vec::new();
    check_capacity(schedule, input, &res_by_id, &mut all);
    all
}
