//! How fast the library is, beside unverified Rust of the same algorithm.
//!
//! All three do the same work on the same inputs, in turns, and the best time of
//! many counts. Before anything is timed, their answers and bytes are compared.

mod contender;
mod data;
mod filled;
mod tasks;
mod timing;

use contender::Contender;
use data::Kind;
use std::collections::HashMap;
use tasks::Task;

fn main() {
    let contenders = contender::all();
    println!(
        "{:<38} {:>9} {:>9} {:>9}   {:>9} {:>9}",
        "", "library", "straight", "fast", "lib/strai", "lib/fast"
    );
    for kind in Kind::COINS {
        measure_all(&contenders, kind.name(), tasks::over_coins(kind));
    }
    let two_sizes = vec![tasks::over_two_sizes(Kind::Arcade)];
    measure_all(&contenders, Kind::Arcade.name(), two_sizes);
    measure_all(&contenders, Kind::Tickets.name(), tasks::over_tickets());
    measure_all(&contenders, Kind::Rich.name(), tasks::over_rich_pages());
    for pages in [16, 64, 256, 1_024] {
        let on = format!("{pages} pages");
        measure_all(&contenders, &on, vec![tasks::append(pages)]);
    }
    measure_all(&contenders, "1024 pages", tasks::mostly_free(1_024));
    measure_all(&contenders, "1024 pages", tasks::freezes(1_024));
    measure_all(&contenders, "1024 pages", tasks::moves(1_024));
    measure_all(&contenders, "1024 pages", tasks::repairs(1_024));
}

/// Times each task for each contender and prints a row of the table; behind it
/// the library's time to that of the task that it is set beside.
fn measure_all(contenders: &[Contender; 3], on: &str, tasks: Vec<Task>) {
    let mut times = HashMap::new();
    for task in tasks {
        let [library, straightforward, fast] = timing::best_of_many(contenders, &task);
        times.insert(task.name, library);
        let beside = task.beside.map_or(String::new(), |other| {
            format!("   {:.2} times {other}", library / times[other])
        });
        println!(
            "{:<38} {library:>9.2} {straightforward:>9.2} {fast:>9.2}   {:>9.2} {:>9.2}{beside}",
            format!("{} {on}, {}", task.name, task.unit),
            library / straightforward,
            library / fast
        );
    }
}
