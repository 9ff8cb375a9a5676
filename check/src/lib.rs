//! A second reading of documents 000 (geometry), 01 (bytes, limits, order) and 02 (later requests), which shares no code with
//! the proved planner: an independent planner of leases and its forecast, a reader and a judge of plans, the choice between two of
//! them, a writer of jobs, the least of all cuts on survey lines or not, generators of jobs, of plan books, of lists of runs and of
//! pairs of plan books, and the comparison of a planner, a reader, a writer and a chooser with all of these.

#![forbid(unsafe_code)]

pub mod book;
pub mod book_cases;
pub mod book_damage;
pub mod cases;
pub mod choice;
pub mod choose;
pub mod compare;
pub mod cuts;
pub mod damage;
pub mod edges;
pub mod enumerate;
pub mod facts;
pub mod forecast;
pub mod foreign;
pub mod generate;
pub mod graph;
pub mod grid;
pub mod grouped;
pub mod in_out;
pub mod job;
pub mod job_list;
pub mod judge;
pub mod leases;
pub mod line;
pub mod list_cases;
pub mod list_line;
pub mod listing;
pub mod pair_cases;
pub mod pits;
pub mod plan_book;
pub mod planner;
pub mod random;
pub mod read_back;
pub mod refusal;
pub mod report;
pub mod text;
pub mod untrue;
pub mod write_job;
