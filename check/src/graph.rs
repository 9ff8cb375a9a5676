//! The intersection graph (000, 2.3; 01, "Lines, boxes, meeting"): which runs meet, the groups that they form (02, C-16), and
//! whether each is a star.

use crate::edges::EdgeSet;
use crate::grid::Grid;
use crate::job::Job;

/// A job with its grid and its intersection graph, worked out once.
#[derive(Clone, Debug)]
pub struct Survey {
    /// The job.
    pub job: Job,
    /// Its Hanan grid.
    pub grid: Grid,
    /// Which of its runs meet.
    pub graph: Graph,
}

impl Survey {
    /// The survey of a job.
    pub fn of(job: Job) -> Survey {
        let grid = Grid::hanan(&job);
        let graph = Graph::of(&job, &grid);
        Survey { job, grid, graph }
    }
}

/// Which runs of a job meet, by their indexes in the job.
#[derive(Clone, Debug, PartialEq, Eq)]
pub struct Graph {
    meets: Vec<Vec<bool>>,
}

impl Graph {
    /// The graph by the definition itself: two different runs meet when some grid edge lies in both boxes.
    pub fn of(job: &Job, grid: &Grid) -> Graph {
        let inside: Vec<EdgeSet> = job.runs.iter().map(|run| EdgeSet::inside(grid, &run.area())).collect();
        Graph::by(job.runs.len(), |i, j| inside[i].meets(&inside[j]))
    }

    /// The graph of so many runs by another test, which is asked of every two different ones.
    pub fn by(count: usize, meet: impl Fn(usize, usize) -> bool) -> Graph {
        Graph { meets: (0..count).map(|i| (0..count).map(|j| i != j && meet(i, j)).collect()).collect() }
    }

    /// Whether the runs of these indexes meet.
    pub fn meet(&self, i: usize, j: usize) -> bool {
        self.meets[i][j]
    }

    /// A run's meets figure: the number of runs that it meets.
    pub fn meets(&self, i: usize) -> usize {
        self.meets[i].iter().filter(|&&met| met).count()
    }

    /// The meets figures of all runs, in job order.
    pub fn figures(&self) -> Vec<usize> {
        (0..self.meets.len()).map(|i| self.meets(i)).collect()
    }

    /// The groups (02, C-16): two runs are in one when a chain of meetings joins them. Each is its runs, rising; they stand in the
    /// order of their first runs. Found by labels: each run starts with its own index, and two runs that meet take the lesser
    /// label, until nothing changes.
    pub fn groups(&self) -> Vec<Vec<usize>> {
        let count = self.meets.len();
        let mut labels: Vec<usize> = (0..count).collect();
        loop {
            let before = labels.clone();
            for i in 0..count {
                for j in (0..count).filter(|&j| self.meet(i, j)) {
                    labels[i] = labels[i].min(labels[j]);
                }
            }
            if labels == before {
                break;
            }
        }
        let group = |label: usize| -> Vec<usize> { (0..count).filter(|&i| labels[i] == label).collect() };
        (0..count).map(group).filter(|group| !group.is_empty()).collect()
    }

    /// Whether run c meets every other run of a group and no two others meet.
    fn is_centre(&self, group: &[usize], c: usize) -> bool {
        let others: Vec<usize> = group.iter().copied().filter(|&i| i != c).collect();
        others.iter().all(|&i| self.meet(c, i)) && others.iter().all(|&i| others.iter().all(|&j| !self.meet(i, j)))
    }

    /// The index of the centre of a group, or none where it is no star. A run alone is its own centre. Of two runs that meet, both
    /// would do, and the one of lower number is the centre: run numbers rise, so it stands first.
    pub fn centre(&self, group: &[usize]) -> Option<usize> {
        group.iter().copied().find(|&c| self.is_centre(group, c))
    }

    /// The groups, each with its centre; none where some group is no star. There are none of a job without runs (02, C-11).
    pub fn stars(&self) -> Option<Vec<(Vec<usize>, usize)>> {
        self.groups().into_iter().map(|group| self.centre(&group).map(|centre| (group, centre))).collect()
    }

    /// For each run, in job order, the index of the centre of its group; none where some group is no star.
    pub fn centres(&self) -> Option<Vec<usize>> {
        let stars = self.stars()?;
        let of = |i: usize| stars.iter().find(|(group, _)| group.contains(&i)).expect("every run is in a group").1;
        Some((0..self.meets.len()).map(of).collect())
    }
}
