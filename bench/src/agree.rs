//! Whether the sides agree: the same random calls on each, and the same results, outputs, records and books after every one. Times of
//! sides that differ mean nothing.

use crate::book::Scene;
use crate::careful::Careful;
use crate::layer::{Layer, Told};
use crate::ours::Ours;
use crate::random::Random;
use crate::scripts::{random_call, random_row, random_scene, Call};

/// What a call told, and the bytes that it wrote or showed.
type Reply = (Told, Vec<u8>);

/// The output lent to gets and whole, before the call.
const UNTOUCHED: u8 = 0xee;

fn show<L: Layer>(scene: &mut Scene, page: usize, line: usize, marker: &[u8]) -> Reply {
    scene.lend(|file, book| {
        let view = L::line_view(file, book, page, line, marker);
        let (number, bytes) = L::shown(view, book, marker);
        let apart = L::view_number(file, book, page, line);
        assert_eq!(number, apart, "the number of a view of {}", L::NAME);
        (
            Told {
                number,
                ..Told::default()
            },
            bytes.to_vec(),
        )
    })
}

fn write_whole<L: Layer>(value: i32, width: i32, size: usize) -> Reply {
    let mut output = vec![UNTOUCHED; size];
    let (number, count) = L::whole(value, width, &mut output);
    (
        Told {
            number,
            count,
            ..Told::default()
        },
        output,
    )
}

/// Makes a call on a side.
pub fn make<L: Layer>(call: &Call, scene: &mut Scene, row: &[u32]) -> Reply {
    let mut output = Vec::new();
    if let Call::GetString { size, .. } = call {
        output.resize(*size, UNTOUCHED);
    }
    let result = scene.lend(|file, book| match call {
        Call::Establish => Some(L::establish(file, book)),
        Call::Open => Some(L::open(file, book)),
        Call::Close => Some(L::close(file, book)),
        Call::Choose(split) => Some(L::choose(file, book, *split)),
        Call::Reset => Some(L::reset(file, book)),
        Call::Backspace => Some(L::backspace(file, book)),
        Call::PutCharacter(byte) => Some(L::put_character(file, book, *byte, row)),
        Call::PutString(bytes) => Some(L::put_string(file, book, bytes, row)),
        Call::PutInteger(value) => Some(L::put_integer(file, book, *value, row)),
        Call::GetCharacter => Some(L::get_character(file, book, row)),
        Call::GetString { terminators, .. } => {
            Some(L::get_string(file, book, terminators, &mut output, row))
        }
        Call::GetInteger => Some(L::get_integer(file, book, row)),
        Call::Space => Some(L::space(file, book, row)),
        Call::Newline => Some(L::newline(file, book, row)),
        Call::Newpage => Some(L::newpage(file, book, row)),
        Call::Set(to) => Some(L::set(file, book, *to, row)),
        Call::SetCharacterNumber(number) => Some(L::set_character_number(file, book, *number, row)),
        Call::View { .. } | Call::Whole { .. } => None,
    });
    match (result, call) {
        (Some(result), _) => (L::told(&result), output),
        (None, Call::View { page, line, marker }) => show::<L>(scene, *page, *line, marker),
        (None, Call::Whole { value, width, size }) => write_whole::<L>(*value, *width, *size),
        (None, _) => unreachable!("every other call has a result"),
    }
}

/// Makes a call on all sides; the reply and the scene after it, or what differs.
pub fn make_on_all(call: &Call, scene: &Scene, row: &[u32]) -> Result<(Told, Scene), String> {
    let mut sides = [scene.clone(), scene.clone(), scene.clone()];
    let ours = make::<Ours>(call, &mut sides[0], row);
    let careful = make::<Careful<false>>(call, &mut sides[1], row);
    let in_runs = make::<Careful<true>>(call, &mut sides[2], row);
    let [left, other, another] = sides;
    if careful != ours || other != left {
        return Err(differs::<Careful<false>>(call, scene, row, &ours, &careful));
    }
    if in_runs != ours || another != left {
        return Err(differs::<Careful<true>>(call, scene, row, &ours, &in_runs));
    }
    Ok((ours.0, left))
}

fn differs<L: Layer>(
    call: &Call,
    scene: &Scene,
    row: &[u32],
    ours: &Reply,
    other: &Reply,
) -> String {
    format!(
        "{} and {} differ at {call:?} with {row:08x?}\non {scene:?}\n{}: {ours:?}\n{}: {other:?}",
        Ours::NAME,
        L::NAME,
        Ours::NAME,
        L::NAME
    )
}

/// How often each number was handed back over all calls.
#[derive(Default)]
pub struct Tally {
    pub calls: u64,
    pub numbers: [u64; 17],
}

/// Plays so many random scripts on all sides.
pub fn agree(scripts: u64) -> Result<Tally, String> {
    let mut tally = Tally::default();
    for seed in 0..scripts {
        let mut random = Random::new(seed);
        let mut scene = random_scene(&mut random);
        for _ in 0..random.between(1, 25) {
            let call = random_call(&mut random, &scene);
            let row = random_row(&mut random, &scene);
            let (told, left) = make_on_all(&call, &scene, &row)?;
            tally.calls += 1;
            tally.numbers[usize::from(told.number)] += 1;
            scene = left;
        }
    }
    Ok(tally)
}
