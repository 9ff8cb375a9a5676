//! The choice between two plan books by the archive: on jobs drawn by hand, on books that lie in the same memory, with the planner's own
//! plans; the caller between inaccessible pages notices every access outside the lent memory, and the archive makes none.

mod common;

use common::{assert_ends_the_process, assert_faultless_in_threads, older_samples, planned, samples};
use trench_archive::call::{Against, BookChooser, GuardedChooser, choose, choose_place};
use trench_check::book::job_bytes;
use trench_check::choice;
use trench_check::choose::{Chooser, try_pairs};
use trench_check::foreign::{self, STYLES, Style};
use trench_check::generate::{full_star, spread_star};
use trench_check::graph::Survey;
use trench_check::leases::full_lease;
use trench_check::pair_cases::some_job;
use trench_check::random::Random;
use trench_check::refusal::Refusal;

/// The deeds of `stray_choose` and `stray_choose_place`, by number: 0 to 8 read, 9 to 17 write; of each, three before what is lent,
/// three of its first bytes, three behind it; of each three, the job's, the first book's, the second's.
mod deed {
    pub const READ_BEFORE: usize = 0;
    pub const READ_BEHIND: usize = 6;
    pub const WRITE_BEFORE: usize = 9;
    pub const WRITE_INTO: usize = 12;
    pub const WRITE_BEHIND: usize = 15;
}

/// What is told of a deed, which is the job's length: by the choice, and by the place.
fn told(deed: usize, against: Against) -> [Option<String>; 2] {
    let (job, first, second) = (vec![1; deed], [1, 2, 3, 4], [5, 6, 7]);
    let chooser = || GuardedChooser::new(BookChooser::Stray, against);
    let (answered, placed) = (chooser().choose(&job, &first, &second), chooser().place(&job, &first, &second));
    assert_eq!((answered.answer, placed.answer), (-4, 0));
    [answered.strayed, placed.strayed]
}

#[test]
fn changed_bytes_are_noticed() {
    let around = Some("bytes changed outside the lent ones: 1".to_string());
    for (i, what) in ["the job", "the first book", "the second book"].into_iter().enumerate() {
        let changed = Some(format!("{what} was changed"));
        assert_eq!(told(deed::WRITE_BEFORE + i, Against::Back), [around.clone(), around.clone()], "before {what}");
        assert_eq!(told(deed::WRITE_BEHIND + i, Against::Front), [around.clone(), around.clone()], "behind {what}");
        assert_eq!(told(deed::WRITE_INTO + i, Against::Back), [changed.clone(), changed], "{what}");
        assert_eq!(told(deed::READ_BEFORE + i, Against::Back), [None, None], "a read inside the page goes unnoticed");
    }
}

/// Run by `accesses_of_the_pages_end_the_process` in a process of their own.
mod ending {
    use super::*;

    #[test]
    #[ignore = "ends the process"]
    fn read_before_job() {
        told(deed::READ_BEFORE, Against::Front);
    }

    #[test]
    #[ignore = "ends the process"]
    fn read_before_first() {
        told(deed::READ_BEFORE + 1, Against::Front);
    }

    #[test]
    #[ignore = "ends the process"]
    fn read_before_second() {
        told(deed::READ_BEFORE + 2, Against::Front);
    }

    #[test]
    #[ignore = "ends the process"]
    fn read_behind_job() {
        told(deed::READ_BEHIND, Against::Back);
    }

    #[test]
    #[ignore = "ends the process"]
    fn read_behind_first() {
        told(deed::READ_BEHIND + 1, Against::Back);
    }

    #[test]
    #[ignore = "ends the process"]
    fn read_behind_second() {
        told(deed::READ_BEHIND + 2, Against::Back);
    }
}

#[test]
fn accesses_of_the_pages_end_the_process() {
    for part in ["job", "first", "second"] {
        assert_ends_the_process(&format!("ending::read_before_{part}"));
        assert_ends_the_process(&format!("ending::read_behind_{part}"));
    }
}

/// The archive's answer and place.
fn answered(job: &[u8], first: &[u8], second: &[u8]) -> (i32, usize) {
    (choose(job, first, second), choose_place(job, first, second))
}

/// The archive's plan is true, and is handed back against every other, as the first by demand 3; a plan that digs more is not.
#[test]
fn our_plan_against_others() {
    let mut more = 0;
    for n in 0..300 {
        let random = &mut Random::nth(31, n);
        let survey = Survey::of(match n % 10 {
            0 => full_star(random),
            1 => full_lease(random),
            _ => some_job(random),
        });
        let job = job_bytes(&survey.job);
        let ours = planned(&job).expect("a plan");
        let bytes = ours.bytes();
        assert_eq!(answered(&job, &bytes, &bytes), (1, 0), "against itself, in the same memory");
        for style in STYLES {
            let routes = foreign::routes(random, &survey, style);
            let book = foreign::book(&survey, &routes);
            assert_eq!(answered(&job, &bytes, &book.bytes()), (1, 0), "ours first, {style:?} second");
            let due = if ours.trench < book.trench { 2 } else { 1 };
            assert_eq!(answered(&job, &book.bytes(), &bytes), (due, 0), "{style:?} first, ours second");
            more += usize::from(due == 2);
        }
    }
    assert!(more > 300, "{more} plans that dig more");
}

/// Parts of one piece of memory, one inside the other and side by side, are as good as any: nothing is written.
#[test]
fn books_in_the_same_memory() {
    let survey = Survey::of(spread_star(&mut Random::new(32), 6));
    let job = job_bytes(&survey.job);
    let ours = planned(&job).expect("a plan").bytes();
    let all = [&job[..], &ours, &ours].concat();
    let (of_job, first) = (&all[..job.len()], &all[job.len()..job.len() + ours.len()]);
    assert_eq!(answered(of_job, first, &all[job.len() + ours.len()..]), (1, 0));
    assert_eq!(answered(of_job, first, first), (1, 0));
    assert_eq!(answered(of_job, first, &all[job.len()..]), (-12, 2), "the second with another book behind it");
    assert_eq!(answered(of_job, of_job, first), (-12, 1), "the job is no plan");
    assert_eq!(answered(&all, first, first), (-5, job.len()), "bytes behind the job");
    assert_eq!(answered(&[], &[], &[]), (-3, 0), "nothing at all");
}

/// Every sample: its plan is true, a plan of another sample is of another job or other runs, and one of the older kinds is refused.
#[test]
fn samples_with_their_plans() {
    let read = |path: &std::path::Path| std::fs::read(path).expect("a sample");
    let other = job_bytes(&spread_star(&mut Random::new(33), 3));
    let other = planned(&other).expect("a plan").bytes();
    for path in samples("job") {
        let job = read(&path);
        let Ok(ours) = planned(&job) else {
            let Refusal { number, place } = choice::choose(&job, &other, &[]).expect_err("a job that is refused");
            assert_eq!(answered(&job, &other, &[]), (-number, place), "{}", path.display());
            continue;
        };
        let (bytes, older) = (ours.bytes(), ours.clone().as_older().bytes());
        assert_eq!(answered(&job, &bytes, &bytes), (1, 0), "{}", path.display());
        assert_eq!(answered(&job, &other, &bytes), (-15, 1), "{}", path.display());
        assert_eq!(answered(&job, &bytes, &other), (-15, 2), "{}", path.display());
        assert_eq!(answered(&job, &older, &bytes), (-16, 1), "{}", path.display());
        assert_eq!(answered(&job, &bytes, &older), (-16, 2), "{}", path.display());
    }
    for path in older_samples("plan") {
        let job = job_bytes(&spread_star(&mut Random::new(33), 3));
        assert_eq!(answered(&job, &read(&path), &other), (-15, 1), "{}", path.display());
    }
}

/// A stored job of which a run goes nowhere is refused before any book is looked at, with the plan that was stored for it too.
#[test]
fn a_stored_job_with_its_plan() {
    let read = |name: &str| std::fs::read(common::root().join("samples").join(name)).expect("a sample");
    for (job, plan, place) in [
        ("refused-17-stored.job", "older/earlier-groups-3-inside.plan", 119),
        ("example-01-point.job", "older/earlier-example-01-point.plan", 5),
        ("example-01-point.job", "older/example-01-point.plan", 5),
    ] {
        let (job, plan) = (read(job), read(plan));
        assert_eq!(answered(&job, &plan, &plan), (-17, place));
        assert_eq!(answered(&job, &plan[..plan.len() - 1], &[]), (-17, place), "the plan cut short");
    }
}

/// The contractor's plans of job 7, beside ours, give what `samples/README.md` says.
#[test]
fn contractors() {
    let read = |name: &str| std::fs::read(common::root().join("samples").join(name)).expect("a sample");
    let (job, ours) = (read("job-7.job"), read("job-7.plan"));
    let beside = |name: &str| {
        let plan = read(&format!("contractor-{name}.plan"));
        (answered(&job, &ours, &plan), answered(&job, &plan, &ours))
    };
    assert_eq!(beside("1-more"), ((1, 0), (2, 0)));
    assert_eq!(beside("2-trench"), ((-16, 2), (-16, 1)));
    assert_eq!(beside("3-detour"), ((-16, 2), (-16, 1)));
    assert_eq!(beside("4-another-job"), ((-15, 2), (-15, 1)));
    assert_eq!(samples("plan").iter().filter(|path| path.to_string_lossy().contains("contractor-")).count(), 4);
}

/// A book longer than any that is read, and one of staircases that is as long as a star's can be.
#[test]
fn long_books() {
    let survey = Survey::of(full_star(&mut Random::new(34)));
    let job = job_bytes(&survey.job);
    let routes = foreign::routes(&mut Random::new(34), &survey, Style::Stairs);
    let book = foreign::book(&survey, &routes).bytes();
    let longer = [&book[..], &vec![0x43; 70_000]].concat();
    assert_eq!(answered(&job, &book, &book), (1, 0));
    assert_eq!(answered(&job, &book, &longer), (-12, 2));
    assert_eq!(answered(&job, &longer, &book), (-12, 1));
}

#[test]
fn several_threads_at_once() {
    assert_faultless_in_threads(|from| {
        try_pairs(&mut GuardedChooser::new(BookChooser::Archive, Against::Back), 12, from, 1_200, 8)
    });
}
