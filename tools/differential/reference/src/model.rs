//! The reference's models from the rows of an accepted sheet (the rules, "The call"). The benchmark times
//! this too, so it is no dearer than it must be: owners are found by a hash of one multiplication, and
//! every vector and table that grows with the sheet is given its size at once. What remains is the
//! names, which are strings in the reference.

use std::collections::HashMap;
use std::hash::{BuildHasherDefault, Hasher};

use crate::models::{
    Activity, ActivityDuration, Assignment, Calendar, Constraint, Overlap, Part, Resource,
    ResourceRequirement, ResourceTiming, Schedule, Split, Task, TimeOnlySpan, TimeWindow,
};

/// What a `?` column holds for none.
pub const NONE: i64 = i64::MIN;

/// A sheet as the reference takes it.
pub struct Model {
    pub tasks: Vec<Task>,
    pub resources: Vec<Resource>,
    pub constraints: Vec<Constraint>,
    pub schedule: Schedule,
}

fn option(column: i64) -> Option<i64> {
    (column != NONE).then_some(column)
}

fn name(id: i64) -> String {
    id.to_string()
}

/// The hash of an id: its product with an odd number.
#[derive(Default)]
struct Spread(u64);

impl Hasher for Spread {
    fn finish(&self) -> u64 {
        self.0
    }

    fn write(&mut self, _: &[u8]) {
        unreachable!("ids are i64");
    }

    fn write_i64(&mut self, id: i64) {
        self.0 = (id as u64).wrapping_mul(0x9E37_79B9_7F4A_7C15);
    }
}

/// Where the row of an id stands among those of its kind.
type Places = HashMap<i64, usize, BuildHasherDefault<Spread>>;

fn places(count: usize) -> Places {
    Places::with_capacity_and_hasher(count, BuildHasherDefault::default())
}

/// How many rows there are of each kind.
fn counts(rows: &[i64]) -> [usize; 25] {
    let mut counts = [0; 25];
    for r in rows.chunks_exact(10) {
        counts[r[0] as usize] += 1;
    }
    counts
}

/// Puts a window or closure into a calendar, which is there from its first window on.
fn add_window(calendar: &mut Option<Calendar>, closed: bool, start: i64, end: i64) {
    let calendar = calendar.get_or_insert_with(|| Calendar::new(""));
    let window = TimeWindow::new(start, end);
    if closed {
        calendar.blocked_periods.push(window);
    } else {
        calendar.time_windows.push(window);
    }
}

/// The owners first, for they may come after what they own.
struct Owners {
    tasks: Vec<Task>,
    task_at: Places,
    activities: Vec<(usize, Activity)>,
    activity_at: Places,
    resources: Vec<Resource>,
    resource_at: Places,
    constraints: Vec<Constraint>,
}

fn owners(rows: &[i64], counts: &[usize; 25]) -> Owners {
    let mut o = Owners {
        tasks: Vec::with_capacity(counts[1]),
        task_at: places(counts[1]),
        activities: Vec::with_capacity(counts[2]),
        activity_at: places(counts[2]),
        resources: Vec::with_capacity(counts[11]),
        resource_at: places(counts[11]),
        constraints: Vec::with_capacity(counts[17..=21].iter().sum()),
    };
    for r in rows.chunks_exact(10) {
        match r[0] {
            1 => {
                let mut task = Task::new(name(r[1]));
                task.deadline = option(r[2]);
                task.release_time = option(r[3]);
                o.task_at.insert(r[1], o.tasks.len());
                o.tasks.push(task);
            }
            11 => {
                let resource = Resource::new(name(r[1]), name(r[2])).with_capacity(r[3] as i32);
                o.resource_at.insert(r[1], o.resources.len());
                o.resources.push(resource);
            }
            17 => o.constraints.push(Constraint::precedence_with_delay(
                name(r[1]),
                name(r[2]),
                r[3],
            )),
            18 => o
                .constraints
                .push(Constraint::capacity(name(r[1]), r[2] as i32)),
            19 => o
                .constraints
                .push(Constraint::time_window(name(r[1]), r[2], r[3])),
            20 => o
                .constraints
                .push(Constraint::no_overlap(name(r[1]), Vec::new())),
            21 => o.constraints.push(Constraint::synchronize(Vec::new())),
            _ => {}
        }
    }
    for r in rows.chunks_exact(10).filter(|r| r[0] == 2) {
        let mut activity = Activity::new(name(r[1]), name(r[2]), r[3] as i32)
            .with_duration(ActivityDuration::new(r[4], r[5], r[6]));
        activity.resumable = r[7] == 1;
        activity.release_time = option(r[8]);
        o.activity_at.insert(r[1], o.activities.len());
        o.activities.push((o.task_at[&r[2]], activity));
    }
    // Requirements before what they own: a candidate or a wanted skill may stand above its requirement.
    for r in rows.chunks_exact(10).filter(|r| r[0] == 5) {
        let requirement = ResourceRequirement::new(name(r[2]))
            .with_quantity(r[3] as i32)
            .with_usage(r[4] as i32);
        let at = o.activity_at[&r[1]];
        o.activities[at].1.resource_requirements.push(requirement);
    }
    o
}

/// The models of an accepted sheet. Panics on a sheet that the rules refuses.
pub fn model(rows: &[i64]) -> Model {
    let rows = &*crate::handed::handed(rows);
    let counts = counts(rows);
    let mut o = owners(rows, &counts);
    let mut schedule = Schedule::new();
    schedule.assignments.reserve_exact(counts[23]);
    schedule.time_only.reserve_exact(counts[24]);
    for r in rows.chunks_exact(10) {
        match r[0] {
            3..=10 | 16 => {
                let at = o.activity_at[&r[1]];
                let a = &mut o.activities[at].1;
                match r[0] {
                    3 => {
                        a.overlap =
                            Some(Overlap::new(f64::from_bits(r[2] as u64)).with_finish_after(r[3]))
                    }
                    4 => {
                        let split = Split::new(r[2] as i32)
                            .with_min_part(r[3])
                            .with_part_overhead(r[4]);
                        a.split = Some(split);
                    }
                    5 => {}
                    6 => a.resource_requirements[r[2] as usize]
                        .candidates
                        .push(name(r[3])),
                    7 => a.resource_requirements[r[2] as usize]
                        .required_skills
                        .push(name(r[3])),
                    8 => a.predecessors.push(name(r[2])),
                    9 => {
                        let speed = ResourceTiming::Speed(f64::from_bits(r[3] as u64));
                        a.resource_timings.insert(name(r[2]), speed);
                    }
                    10 => {
                        let duration = ActivityDuration::new(r[3], r[4], r[5]);
                        a.resource_timings
                            .insert(name(r[2]), ResourceTiming::Duration(duration));
                    }
                    _ => add_window(&mut a.calendar, r[2] == 1, r[3], r[4]),
                }
            }
            12..=15 => {
                let resource = &mut o.resources[o.resource_at[&r[1]]];
                match r[0] {
                    12 => resource.skills.push(name(r[2])),
                    13 => resource.companions.push(name(r[2])),
                    14 => {
                        resource.transport_ms.insert(name(r[2]), r[3]);
                    }
                    _ => add_window(&mut resource.calendar, r[2] == 1, r[3], r[4]),
                }
            }
            22 => match &mut o.constraints[r[1] as usize] {
                Constraint::NoOverlap { activity_ids, .. }
                | Constraint::Synchronize { activity_ids } => {
                    activity_ids.push(name(r[2]));
                }
                _ => panic!("a member of a constraint that has none"),
            },
            23 => {
                let mut booking = Assignment::new(name(r[1]), name(r[2]), name(r[3]), r[4], r[5]);
                booking.setup_ms = r[6];
                booking.part = option(r[7]).map(|index| Part {
                    index: index as i32,
                    work_ms: r[8],
                });
                schedule.add_assignment(booking);
            }
            24 => schedule
                .time_only
                .push(TimeOnlySpan::new(name(r[1]), name(r[2]), r[3], r[4])),
            _ => {}
        }
    }
    for (task, activity) in o.activities {
        o.tasks[task].activities.push(activity);
    }
    Model {
        tasks: o.tasks,
        resources: o.resources,
        constraints: o.constraints,
        schedule,
    }
}
