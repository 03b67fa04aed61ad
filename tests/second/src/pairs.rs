//! The second scene of a pair: alike, nearly alike, of another shape, or quite another book.

use crate::book::{in_bounds, line_index, line_length, page_length, shape_is_good, text_index};
use crate::book::{Position, Shape};
use crate::random::Random;
use crate::scenes::{cover_lent, random_moods, random_scene, random_text, sizes_of};
use crate::scenes::{spoil_scene, Scene};

/// A scene to be compared with another one. Beside a record that is not open a bad book comes
/// often, and beside a bad book a record that is not open, so that both refusals are due.
pub fn other_scene(random: &mut Random, scene: &Scene) -> Scene {
    let mut other = scene_near(random, scene);
    if random.chance(if scene.file.opened { 8 } else { 50 }) {
        spoil_scene(random, &mut other);
        cover_lent(&mut other);
    }
    if random.chance(5) {
        other.file.opened = false;
    }
    other
}

/// A scene alike, nearly alike or quite another. Where a scene has no shape, nothing is near it.
fn scene_near(random: &mut Random, scene: &Scene) -> Scene {
    let mut other = match random.weighted([15, 15, 20, 50]) {
        0 => return random_scene(random),
        _ if !shape_is_good(scene.file.shape) => return scene.clone(),
        1 => scene.clone(),
        2 => reshaped(random, scene),
        _ => edited(random, scene.clone()),
    };
    if random.chance(25) {
        other = edited(random, other);
    }
    if random.chance(50) {
        change_unseen(random, &mut other);
    }
    if random.chance(40) {
        change_record(random, &mut other);
    }
    other
}

/// Another position, another choice, and other moods with the same rights: they make no
/// difference.
fn change_record(random: &mut Random, scene: &mut Scene) {
    let (read_mood, write_mood) = random_moods(random, scene.file.rights);
    scene.file.read_mood = read_mood;
    scene.file.write_mood = write_mood;
    scene.file.split = random.chance(50);
    scene.file.position = scene.random_position(random);
}

/// Other characters in places that are not shown: past a line's length and after the end.
fn change_unseen(random: &mut Random, scene: &mut Scene) {
    for _ in 0..random.between(1, 8) {
        let place = any_place(random, scene.file.shape);
        let end = scene.logical_end;
        let seen = scene.asked(|shape, book| {
            place.character <= line_length(shape, book, place.page, place.line) && end.beyond(place)
        });
        if !seen {
            let byte = random.byte();
            write_text(scene, place, &[byte]);
        }
    }
}

/// Any place of a shape.
fn any_place(random: &mut Random, shape: Shape) -> Position {
    Position::new(
        random.between(1, shape.pages),
        random.between(1, shape.lines),
        random.between(1, shape.characters),
    )
}

/// Writes characters from a place on, as far as they stay on its line.
fn write_text(scene: &mut Scene, place: Position, bytes: &[u8]) {
    for (character, byte) in (place.character..).zip(bytes) {
        let index = text_index(scene.file.shape, Position { character, ..place });
        if let Some(slot) = index.and_then(|index| scene.text.get_mut(index)) {
            *slot = *byte;
        }
    }
}

/// The same scene with a few edits, and its logical end and position in bounds again.
fn edited(random: &mut Random, mut scene: Scene) -> Scene {
    for _ in 0..random.pick([1, 1, 1, 2, 3, 6]) {
        edit(random, &mut scene);
    }
    mend(random, &mut scene);
    scene
}

/// One edit: of a few characters, a length, or the logical end.
fn edit(random: &mut Random, scene: &mut Scene) {
    let end = scene.logical_end;
    let mut place = any_place(random, scene.file.shape);
    if random.chance(50) {
        place.page = end.page.clamp(1, scene.file.shape.pages.max(1));
        place.line = end.line.clamp(1, scene.file.shape.lines.max(1));
    }
    match random.weighted([35, 25, 15, 10, 15]) {
        0 => edit_characters(random, scene, place),
        1 => change_line_length(random, scene, place),
        2 => change_page_length(random, scene, place.page),
        3 => scene.logical_end = scene.random_place(random),
        _ => move_end_on_line(random, scene),
    }
}

/// One or a few characters of a line, inside its length most often.
fn edit_characters(random: &mut Random, scene: &mut Scene, mut place: Position) {
    let length = scene.asked(|shape, book| line_length(shape, book, place.page, place.line));
    if random.chance(85) {
        place.character = random.between(1, length);
    }
    let count = random.pick([1, 1, 2, 5]);
    let style = scene.style;
    let mut bytes = random_text(random, style, count);
    if random.chance(30) {
        bytes.fill(b' ');
    }
    write_text(scene, place, &bytes);
}

/// A line a little shorter, empty, or longer; blanks often stand in what is added, so that a
/// blank is compared with nothing.
fn change_line_length(random: &mut Random, scene: &mut Scene, place: Position) {
    let shape = scene.file.shape;
    let Some(index) = line_index(shape, place.page, place.line) else {
        return;
    };
    let before = scene.line_lengths.get(index).map_or(0, |&n| u32::from(n));
    let by = random.between(1, 3);
    let after = match random.below(5) {
        0 => 0,
        1 => before.saturating_sub(by),
        _ => (before + by).min(shape.characters),
    };
    if let Some(length) = scene.line_lengths.get_mut(index) {
        *length = u8::try_from(after).unwrap_or(u8::MAX);
    }
    let added = Position {
        character: before + 1,
        ..place
    };
    if random.chance(70) {
        write_text(scene, added, &vec![b' '; by as usize]);
    }
}

/// A page one line shorter or longer, so that one book shows a line that the other lacks.
fn change_page_length(random: &mut Random, scene: &mut Scene, page: u32) {
    let lines = u8::try_from(scene.file.shape.lines).unwrap_or(u8::MAX);
    let index = (page as usize).saturating_sub(1);
    if let Some(length) = scene.page_lengths.get_mut(index) {
        *length = match random.below(2) {
            0 => length.saturating_sub(1),
            _ => length.saturating_add(1).min(lines),
        };
    }
}

/// The logical end a little further on its line, often over blanks, or back, or to its start.
fn move_end_on_line(random: &mut Random, scene: &mut Scene) {
    let end = scene.logical_end;
    let by = random.between(1, 3);
    let character = match random.below(4) {
        0 => 1,
        1 => end.character.saturating_sub(by).max(1),
        _ => end.character + by,
    };
    if random.chance(60) {
        write_text(scene, end, &vec![b' '; by as usize]);
    }
    scene.logical_end = Position { character, ..end };
}

/// Brings the logical end back in bounds, as near as it can be, and the position before it.
fn mend(random: &mut Random, scene: &mut Scene) {
    let end = scene.logical_end;
    scene.logical_end = scene.asked(|shape, book| {
        let page = end.page.clamp(1, shape.pages.saturating_add(1));
        let line = end.line.clamp(1, page_length(shape, book, page) + 1);
        let length = line_length(shape, book, page, line);
        Position::new(page, line, end.character.clamp(1, length + 1))
    });
    let position = scene.file.position;
    let fits = scene.asked(|shape, book| in_bounds(shape, book, position));
    if !fits || position.beyond(scene.logical_end) {
        scene.file.position = scene.random_position(random);
    }
}

/// A number one more, one less or the same, and at least 1.
fn nearby(random: &mut Random, number: u32) -> u32 {
    (number + random.between(0, 2)).saturating_sub(1).max(1)
}

/// The same pages, lines and characters in a book of another shape, as far as they go in.
fn reshaped(random: &mut Random, scene: &Scene) -> Scene {
    let old = scene.file.shape;
    let new = Shape {
        pages: nearby(random, old.pages),
        lines: nearby(random, old.lines),
        characters: nearby(random, old.characters),
    };
    if !shape_is_good(new) {
        return scene.clone();
    }
    let mut other = scene.clone();
    other.file.shape = new;
    other.lent = sizes_of(new);
    other.text = random_text(random, scene.style, other.lent.0);
    other.line_lengths = vec![0; other.lent.1];
    other.page_lengths = vec![0; other.lent.2];
    for page in 1..=new.pages.min(old.pages) {
        copy_page(scene, &mut other, page);
    }
    mend(random, &mut other);
    other
}

/// Copies one page into a book of another shape.
fn copy_page(from: &Scene, to: &mut Scene, page: u32) {
    let (old, new) = (from.file.shape, to.file.shape);
    let cut = |lengths: &[u8], index: usize, most: u32| {
        let length = lengths.get(index).copied().unwrap_or(0);
        length.min(u8::try_from(most).unwrap_or(u8::MAX))
    };
    let index = (page - 1) as usize;
    to.page_lengths[index] = cut(&from.page_lengths, index, new.lines);
    for line in 1..=new.lines.min(old.lines) {
        let indexes = (line_index(old, page, line), line_index(new, page, line));
        if let (Some(old_index), Some(new_index)) = indexes {
            to.line_lengths[new_index] = cut(&from.line_lengths, old_index, new.characters);
        }
        let start = Position::new(page, line, 1);
        let text = text_index(old, start).and_then(|start| from.text.get(start..));
        let text = text.unwrap_or_default().iter();
        let line_of_text: Vec<u8> = text.take(old.characters as usize).copied().collect();
        write_text(to, start, &line_of_text);
    }
}
