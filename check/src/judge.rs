//! The judge of plan books: reads a job and a plan, and says in words everything that is wrong with the plan. A plan book that
//! reading refuses is judged no further: of one that is read, the records, their counts and their turns are right. Our plans have to
//! be least; of anyone's it is asked whether they are true (02, C-17), however much they dig.

use crate::edges::EdgeSet;
use crate::graph::Survey;
use crate::job::{Job, Point, Run};
use crate::pits;
use crate::plan_book::{Kinds, PlanBook, RouteRecord};
use crate::planner;
use crate::refusal;

/// The greatest length of a plan.
pub const LONGEST_PLAN: usize = 36_886;

/// A job with all that a plan of it is held against, worked out once.
pub struct Judge {
    survey: Survey,
    groups: usize,
    /// For each run the run number of its group's centre.
    centres: Vec<u16>,
    /// What the routes may dig; none where they may dig any length.
    least: Option<i64>,
}

/// Everything that is wrong with a plan of a job, both given as bytes; nothing where the plan is right.
pub fn judge(job: &[u8], plan: &[u8]) -> Vec<String> {
    match refusal::surveyed(job) {
        Ok(survey) => Judge::new(survey).faults(plan),
        Err(refused) => vec![format!("no plan is due: the job is {refused} ({})", refusal::words(refused.number))],
    }
}

impl Judge {
    /// The judge of our plans for this job, which is well formed, and of which every group is a star.
    pub fn new(survey: Survey) -> Judge {
        let plan = planner::plan_surveyed(&survey).expect("every group is a star");
        Judge { least: Some(plan.trench), ..Judge::of_anyones(survey) }
    }

    /// The judge of anyone's plans for such a job, which need not be least.
    pub fn of_anyones(survey: Survey) -> Judge {
        let centres = survey.graph.centres().expect("every group is a star");
        let centres = centres.iter().map(|&centre| survey.job.runs[centre].number).collect();
        Judge { groups: survey.graph.groups().len(), centres, least: None, survey }
    }

    /// The job.
    pub fn job(&self) -> &Job {
        &self.survey.job
    }

    /// Everything that is wrong with these bytes as a plan of the job.
    pub fn faults(&self, bytes: &[u8]) -> Vec<String> {
        let mut faults = Vec::new();
        if bytes.len() > LONGEST_PLAN {
            faults.push(format!("the plan has {} bytes, more than {LONGEST_PLAN}", bytes.len()));
        }
        match PlanBook::read(bytes) {
            Ok(book) => faults.extend(self.faults_of_book(&book)),
            Err(refused) => faults.push(refused.to_string()),
        }
        faults
    }

    /// Everything that is wrong with a plan book that was read.
    pub fn faults_of_book(&self, book: &PlanBook) -> Vec<String> {
        let mut faults = Vec::new();
        if book.kinds == Kinds::Older {
            faults.push("the plan has the older kinds".to_string());
        }
        let mut same = |what: &str, said: i64, due: i64| {
            if said != due {
                faults.push(format!("{what} is {said} and should be {due}"));
            }
        };
        same("the head's job number", book.job.into(), self.survey.job.number.into());
        same("the head's number of runs", book.runs.into(), self.survey.job.runs.len() as i64);
        if book.kinds == Kinds::Newer {
            same("the head's number of groups", book.last.into(), self.groups as i64);
        }
        let drawn: Vec<&[Point]> = book.routes.iter().map(|route| &route.corners[..]).collect();
        same("pits", book.pits.into(), pits::of_corners(&drawn).count() as i64);
        let mut union = Some(EdgeSet::none(&self.survey.grid));
        for (i, (run, route)) in self.survey.job.runs.iter().zip(&book.routes).enumerate() {
            if book.kinds == Kinds::Newer && route.centre != self.centres[i] {
                let (said, due) = (route.centre, self.centres[i]);
                faults.push(format!("run {}: its group's centre is {said} and should be {due}", run.number));
            }
            let dug = self.faults_of_route(run, self.survey.graph.meets(i), route, &mut faults);
            union = union.zip(dug).map(|(union, dug)| union.union(&dug));
        }
        if let Some(union) = union.filter(|_| book.routes.len() == self.survey.job.runs.len()) {
            self.faults_of_union(book, union.length(&self.survey.grid), &mut faults);
        }
        faults
    }

    fn faults_of_union(&self, book: &PlanBook, length: i64, faults: &mut Vec<String>) {
        let (trench, saved) = (i64::from(book.trench), i64::from(book.saved));
        if trench != length {
            faults.push(format!("trench is {trench}, but the routes dig {length}"));
        }
        if saved != self.survey.job.distance() - length {
            faults.push(format!("saved is {saved}, but the routes save {}", self.survey.job.distance() - length));
        }
        if let Some(least) = self.least.filter(|&least| least != length) {
            faults.push(format!("the routes dig {length}, but {least} would do"));
        }
    }

    /// Adds what is wrong with one route. Gives the edges that it digs, where its corners draw a path of the grid.
    fn faults_of_route(
        &self,
        run: &Run,
        meets: usize,
        route: &RouteRecord,
        faults: &mut Vec<String>,
    ) -> Option<EdgeSet> {
        let mut wrong = |text: String| faults.push(format!("run {}: {text}", run.number));
        if route.run != run.number {
            wrong(format!("its route record names run {}", route.run));
        }
        if usize::from(route.meets) != meets {
            wrong(format!("meets is {} and should be {meets}", route.meets));
        }
        let corners = &route.corners;
        let (first, last) = (corners[0], corners[corners.len() - 1]);
        if first != run.first {
            wrong(format!("its first corner {} is not its first point {}", show(first), show(run.first)));
        }
        if last != run.second {
            wrong(format!("its last corner {} is not its second point {}", show(last), show(run.second)));
        }
        let drawn = self.faults_of_corners(corners, &mut wrong);
        let length: i64 = corners.windows(2).map(|pair| pair[0].distance(pair[1])).sum();
        if length != run.distance() {
            wrong(format!("its route is {length} long, but its points are {} apart", run.distance()));
        }
        drawn
    }

    /// Adds which corners are no vertices. Gives the edges between the corners where all of them are.
    fn faults_of_corners(&self, corners: &[Point], wrong: &mut impl FnMut(String)) -> Option<EdgeSet> {
        let grid = &self.survey.grid;
        for &corner in corners.iter().filter(|&&corner| grid.vertex(corner).is_none()) {
            wrong(format!("its corner {} is no crossing of survey lines", show(corner)));
        }
        grid.path(corners).map(|path| EdgeSet::along(grid, &path))
    }
}

fn show(p: Point) -> String {
    format!("{},{}", p.x, p.y)
}
