//! Verifies and checks by a native copy of the code, and tells how long its steps take.
#![allow(warnings)]

mod question;
mod report;

use lift_base::StdSink;
use lift_cert::Bound;
use lift_collapse::Collapse;
use lift_model::Links;
use region_tree::Room;
use rstd::alloc::Global;
use std::hint::black_box;
use std::io::Read;
use std::time::Instant;

/// The value of an option, or a default.
fn option<'a>(words: &'a [String], name: &str, default: &'a str) -> &'a str {
    match words.iter().position(|word| word == name) {
        Some(place) => words.get(place + 1).map_or(default, |word| word),
        None => default,
    }
}

/// What a step gives, and the milliseconds that it took.
fn timed<T>(step: impl FnOnce() -> T) -> (T, f64) {
    let start = Instant::now();
    let result = step();
    (result, start.elapsed().as_secs_f64() * 1e3)
}

/// The least milliseconds of several calls.
fn least(runs: usize, mut step: impl FnMut()) -> f64 {
    (0..runs)
        .map(|_| timed(&mut step).1)
        .fold(f64::MAX, f64::min)
}

/// What is there, or the end of the program.
fn found<T, E>(result: Result<T, E>, what: &str) -> T {
    result.unwrap_or_else(|_| {
        eprintln!("{what}: refused");
        std::process::exit(1)
    })
}

fn bound_of(text: &str) -> Bound {
    let (num, den) = text.split_once('/').unwrap_or((text, "1"));
    Bound {
        num: found(num.parse(), "bound"),
        den: found(den.parse(), "bound"),
    }
}

fn main() {
    let words: Vec<String> = std::env::args().collect();
    let command = words.get(1).map_or("", |word| word);
    let mut text = Vec::new();
    found(std::io::stdin().read_to_end(&mut text), "input");
    let alloc = Global::default();
    if command == "check" {
        let leaves = found(cert_check::check_text(alloc, &text), "report");
        println!(
            "sound accept {} reject {} unknown {}",
            leaves.accept, leaves.reject, leaves.unknown
        );
        return;
    }
    let goal = option(&words, "--goal", "goal").as_bytes();
    let (model, read) = timed(|| found(drn_read::read_model(alloc, &text, goal), "model"));
    let depth = found(option(&words, "--depth", "0").parse(), "depth");
    let region = option(&words, "--region", "").as_bytes();
    let (grid, root) = found(
        lift_grid::read_region(alloc, region, model.names(), depth),
        "region",
    );
    let (links, link) = timed(|| found(Links::build(alloc, &model), "links"));
    let w = found(option(&words, "--precision", "24").parse(), "precision");
    let (case, admit) = timed(|| {
        found(
            lift_rows::admit_linked(&model, &root, grid, w, &links),
            "rows",
        )
    });
    let mut room = found(Room::make(alloc, &case, &links), "room");
    if command == "verify" {
        let bound = bound_of(option(&words, "--bound", "1/2"));
        let mut sink = StdSink::new(std::io::stdout().lock());
        let question = question::Question {
            case: &case,
            links: &links,
            bound,
        };
        let (written, walk) =
            timed(|| report::write_report_buffered(&question, None, &mut room, &mut sink));
        found(written, "output");
        eprintln!("read {read:.2} links {link:.2} admit {admit:.2} walk {walk:.2}");
        return;
    }
    let runs = std::env::var("RUNS")
        .ok()
        .and_then(|text| text.parse().ok())
        .unwrap_or(5);
    let link = least(runs, || drop(black_box(Links::build(alloc, &model))));
    let sides = room.sides().to_vec();
    let mut weights = room.weights().to_vec();
    let fill = least(runs, || {
        corner_lift::fill(&case, &links, &sides, &mut weights)
    });
    let states = model.states() as usize;
    let rows = (0..model.states()).map(|s| links.places(s).len()).sum();
    let (mut lane, mut work) = (vec![0i64; states], vec![0u32; 2 * states]);
    let (mut allowed, mut ranks, mut picks) =
        (vec![0u32; rows], vec![0u32; states], vec![0u32; states]);
    let upper = least(runs, || {
        rounded_iter::least_upper(&case, &links, &weights, &mut lane, &mut work)
    });
    let collapse = least(runs, || drop(black_box(Collapse::build(alloc, &model, &links))));
    let mut collapsed = found(Collapse::build(alloc, &model, &links), "collapse");
    let top = 1i64 << case.w();
    let (mut table, mut spread) = (0.0, 0.0);
    if let Some(collapsed) = &mut collapsed {
        table = least(runs, || collapsed.fill(&case, &sides));
        spread = least(runs, || {
            black_box(collapsed.least_upper_within(&case, top, &mut lane));
        });
    }
    let value = least(runs, || {
        rounded_iter::least_value(&case, &links, &weights, &mut lane, &mut work)
    });
    let reject = least(runs, || {
        black_box(lower_cert::greatest_reject_above(
            &case,
            &links,
            &weights,
            0,
            &mut lane,
            &mut allowed,
            &mut ranks,
            &mut picks,
            &mut work,
        ));
    });
    println!("read {read:.3} links {link:.3} fill {fill:.3} upper {upper:.4} value {value:.4} reject {reject:.4}");
    println!("collapse {collapse:.3} fill {table:.3} upper {spread:.4}");
}
