//! How the cases are timed. The sides take turns, and the best turn of each counts. All cases are gone through several times, so that
//! what else the machine does for a while spoils no row.
//!
//! Before each call record and logical end are set back by two plain assignments, inside the timed loop and alike on all sides, so that
//! the call does the same work again. Text and lengths are not set back, and no buffer is cleared first: a put stores the same
//! characters again, and with compress a newline cuts its line to the length that it has had since the first call. All sides are lent
//! the same memory.

use std::hint::black_box;
use std::time::{Duration, Instant};

use crate::book::{Book, File, Scene};
use crate::careful::Careful;
use crate::cases::Case;
use crate::layer::Layer;
use crate::ours::Ours;
use crate::scripts::Call;

/// How often all cases are gone through, and the turns of each side each time.
const PASSES: usize = 4;
const TURNS: usize = 8;

/// About how long a turn is.
const TURN: Duration = Duration::from_millis(2);

/// Nanoseconds for a call: ours, careful, careful in runs.
pub struct Times {
    pub ours: f64,
    pub careful: f64,
    pub in_runs: f64,
}

/// Makes a call so many times, and says how long that took.
fn repeat<R>(
    scene: &mut Scene,
    count: u64,
    mut call: impl FnMut(&mut File, &mut Book) -> R,
) -> Duration {
    let start = (scene.file, scene.end);
    scene.lend(|file, book| {
        let begun = Instant::now();
        for _ in 0..count {
            (*file, book.end) = *black_box(&start);
            let result = call(black_box(file), black_box(book));
            black_box(&result);
        }
        let took = begun.elapsed();
        (*file, book.end) = start;
        took
    })
}

/// All of a slice, with its length hidden from the compiler. Where the slice as a whole is hidden, its address and its length are stored
/// apart and, on the side that passes both in memory, loaded at once, which waits.
fn hidden<T>(slice: &[T]) -> &[T] {
    &slice[..black_box(slice.len())]
}

/// A turn of one side.
fn turn<L: Layer>(case: &Case, scene: &mut Scene, output: &mut [u8], count: u64) -> Duration {
    let row: &[u32] = &case.row;
    match &case.call {
        Call::PutCharacter(byte) => repeat(scene, count, |file, book| {
            L::put_character(file, book, black_box(*byte), hidden(row))
        }),
        Call::PutString(bytes) => repeat(scene, count, |file, book| {
            L::put_string(file, book, hidden(bytes), hidden(row))
        }),
        Call::PutInteger(value) => repeat(scene, count, |file, book| {
            L::put_integer(file, book, black_box(*value), hidden(row))
        }),
        Call::GetString { terminators, size } => repeat(scene, count, |file, book| {
            L::get_string(
                file,
                book,
                hidden(terminators),
                &mut output[..black_box(*size)],
                hidden(row),
            )
        }),
        Call::GetInteger => repeat(scene, count, |file, book| {
            L::get_integer(file, book, hidden(row))
        }),
        Call::Newline => repeat(scene, count, |file, book| {
            L::newline(file, book, hidden(row))
        }),
        Call::View { page, line, marker } => repeat(scene, count, |file, book| {
            // the view is looked at here, since it cannot outlive the loan
            black_box(&L::line_view(
                file,
                book,
                black_box(*page),
                black_box(*line),
                hidden(marker),
            ));
        }),
        _ => unreachable!("no case makes this call"),
    }
}

/// One side of a case: how many calls make a turn, and the best time of a call so far.
struct Side {
    turn: fn(&Case, &mut Scene, &mut [u8], u64) -> Duration,
    count: u64,
    best: f64,
}

impl Side {
    fn new<L: Layer>() -> Side {
        Side {
            turn: turn::<L>,
            count: 1,
            best: f64::INFINITY,
        }
    }

    /// Finds how many calls make a turn.
    fn fit(&mut self, case: &Case, scene: &mut Scene, output: &mut [u8]) {
        let mut took = Duration::ZERO;
        while took < TURN / 8 {
            self.count *= 2;
            took = (self.turn)(case, scene, output, self.count);
        }
        let turns = TURN.as_secs_f64() / took.as_secs_f64();
        self.count = (self.count as f64 * turns) as u64 + 1;
    }

    fn run(&mut self, case: &Case, scene: &mut Scene, output: &mut [u8]) {
        let took = (self.turn)(case, scene, output, self.count);
        self.best = self.best.min(took.as_nanos() as f64 / self.count as f64);
    }
}

/// A case that is being timed: the memory that it lends, and its sides.
struct Timed<'t> {
    case: &'t Case,
    scene: Scene,
    output: Vec<u8>,
    sides: [Side; 3],
}

impl Timed<'_> {
    fn new(case: &Case) -> Timed<'_> {
        let mut timed = Timed {
            case,
            scene: case.scene.clone(),
            output: vec![0; 4096],
            sides: [
                Side::new::<Ours>(),
                Side::new::<Careful<false>>(),
                Side::new::<Careful<true>>(),
            ],
        };
        for side in &mut timed.sides {
            side.fit(case, &mut timed.scene, &mut timed.output);
        }
        timed
    }

    fn pass(&mut self) {
        for _ in 0..TURNS {
            for side in &mut self.sides {
                side.run(self.case, &mut self.scene, &mut self.output);
            }
        }
    }

    fn times(self) -> Times {
        let [ours, careful, in_runs] = self.sides.map(|side| side.best);
        Times {
            ours,
            careful,
            in_runs,
        }
    }
}

/// Times all cases on all sides.
pub fn time(cases: &[Case]) -> Vec<Times> {
    let mut all: Vec<Timed> = cases.iter().map(Timed::new).collect();
    for _ in 0..PASSES {
        all.iter_mut().for_each(Timed::pass);
    }
    all.into_iter().map(Timed::times).collect()
}
