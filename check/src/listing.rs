//! The listing of a plan or a refusal (01, "Listing"; 02, C-16), written and read back.

use crate::job::Point;
use crate::line;
use crate::plan_book::{BOTH_KINDS, Kinds, PlanBook, RouteRecord};
use crate::refusal::Refusal;

/// What the head's last field is called in the listing.
fn last_field(kinds: Kinds) -> &'static str {
    if kinds == Kinds::Newer { "groups" } else { "centre" }
}

/// The listing of a plan: the head, then a line a route. A book of the older kinds is listed as it was before there were groups.
pub fn of_plan(book: &PlanBook) -> String {
    let PlanBook { kinds, job, runs, trench, saved, pits, last, .. } = book;
    let named = last_field(*kinds);
    let mut text = format!("job {job} runs {runs} {named} {last} trench {trench} saved {saved} pits {pits}\n");
    for route in &book.routes {
        text += &format!("route {} meets {}", route.run, route.meets);
        if *kinds == Kinds::Newer {
            text += &format!(" centre {}", route.centre);
        }
        text += &format!(" corners {}:", route.count);
        for Point { x, y } in &route.corners {
            text += &format!(" {x},{y}");
        }
        text.push('\n');
    }
    text
}

/// The listing of a refusal.
pub fn of_refusal(refusal: Refusal) -> String {
    format!("{refusal}\n")
}

/// The plan whose listing this is, or what keeps the text from being one. What is read is listed as the same text.
pub fn read_plan(text: &str) -> Result<PlanBook, String> {
    let mut lines = text.lines();
    let head: Vec<&str> = lines.next().unwrap_or("").split(' ').collect();
    let wrong = || format!("the first line is no head: {}", head.join(" "));
    let ["job", job, "runs", runs, named, last, "trench", trench, "saved", saved, "pits", pits] = head[..] else {
        return Err(wrong());
    };
    let kinds = BOTH_KINDS.into_iter().find(|&kinds| last_field(kinds) == named).ok_or_else(wrong)?;
    let mut book = PlanBook {
        kinds,
        job: number(job)?,
        runs: number(runs)?,
        trench: number(trench)?,
        saved: number(saved)?,
        pits: number(pits)?,
        last: number(last)?,
        routes: Vec::new(),
        total: 0,
    };
    for words in lines {
        let route = read_route(kinds, words)?;
        book.total += route.corners.len() as u16;
        book.routes.push(route);
    }
    if of_plan(&book) == text { Ok(book) } else { Err("the text is not as a listing is written".to_string()) }
}

fn read_route(kinds: Kinds, words: &str) -> Result<RouteRecord, String> {
    let wrong = || format!("no route line: {words}");
    let (record, corners) = words.split_once(':').ok_or_else(wrong)?;
    let record: Vec<&str> = record.split(' ').collect();
    let (run, meets, centre, count) = match (kinds, &record[..]) {
        (Kinds::Newer, ["route", run, "meets", meets, "centre", centre, "corners", count]) => {
            (run, meets, centre, count)
        }
        (Kinds::Older, ["route", run, "meets", meets, "corners", count]) => (run, meets, &"0", count),
        _ => return Err(wrong()),
    };
    let corners = corners.split_whitespace().map(line::point).collect::<Result<_, _>>()?;
    let [run, meets, count, centre] = [number(run)?, number(meets)?, number(count)?, number(centre)?];
    Ok(RouteRecord { run, meets, count, centre, corners })
}

fn number<T: std::str::FromStr>(word: &str) -> Result<T, String> {
    word.parse().map_err(|_| format!("`{word}` is no number here"))
}
