//! A scene in letters.

use std::io::{self, Write};

use super::scene::{Arrow, Kind, Lane, Scene};

/// How many letters a lane takes.
const LANE_LETTERS: usize = 11;

/// The letters of a row, with the lines of all lanes that there are in it.
fn lines(scene: &Scene, row: usize) -> Vec<char> {
    let mut letters = vec![' '; LANE_LETTERS * scene.lanes.len()];
    for (place, lane) in scene.lanes.iter().enumerate() {
        letters[middle(place)] = line(lane, row);
    }
    letters
}

fn middle(place: usize) -> usize {
    LANE_LETTERS * place + LANE_LETTERS / 2
}

fn line(lane: &Lane, row: usize) -> char {
    match lane.crashes {
        _ if row < lane.begins => ' ',
        Some(crash) if row > crash => '┊',
        _ => '│',
    }
}

/// An arrow between two lanes.
fn level(letters: &mut [char], arrow: &Arrow) {
    let (from, to) = (middle(arrow.from), middle(arrow.to));
    let is_right = from < to;
    for letter in &mut letters[from.min(to) + 1..from.max(to)] {
        *letter = match letter {
            '│' | '┊' => '┼',
            _ => '─',
        };
    }
    letters[from] = if is_right { '├' } else { '┤' };
    letters[if is_right { to - 1 } else { to + 1 }] = if is_right { '▶' } else { '◀' };
}

fn row_letters(scene: &Scene, row: usize) -> String {
    let mut letters = lines(scene, row);
    for arrow in scene.arrows.iter().filter(|arrow| arrow.ends == Some(row)) {
        level(&mut letters, arrow);
    }
    for arrow in scene.arrows.iter().filter(|arrow| arrow.begins == row && arrow.ends != Some(row)) {
        letters[middle(arrow.from)] = '●';
    }
    for mark in scene.marks.iter().filter(|mark| mark.row == row) {
        letters[middle(mark.lane)] = match mark.kind {
            Kind::Crash => '╳',
            Kind::Role => '◆',
            Kind::Note => '●',
            Kind::Refusal => '✗',
        };
    }
    letters.into_iter().collect()
}

fn heading(scene: &Scene, said: impl Fn(&Lane) -> String) -> String {
    scene.lanes.iter().map(|lane| format!("{:^LANE_LETTERS$}", said(lane))).collect()
}

/// Writes the picture: a row for each event, and what happens in it at the end of the row.
pub fn write(scene: &Scene, out: &mut impl Write) -> io::Result<()> {
    let width = scene.rows.last().map_or(1, |row| row.line.to_string().len());
    for said in [heading(scene, |lane| lane.actor.name()), heading(scene, |lane| lane.roles.join(", "))] {
        writeln!(out, "{}", format!("{:width$} {said}", "").trim_end())?;
    }
    for (index, row) in scene.rows.iter().enumerate() {
        writeln!(out, "{:>width$} {}  {}", row.line, row_letters(scene, index + 1), row.says)?;
    }
    let never = scene.arrows.iter().filter(|arrow| arrow.ends.is_none());
    for arrow in never {
        let (from, to) = (&scene.lanes[arrow.from].actor, &scene.lanes[arrow.to].actor);
        let line = scene.rows[arrow.begins - 1].line;
        writeln!(out, "{} of line {line}, from {} to {}, is never taken", arrow.label, from.name(), to.name())?;
    }
    Ok(())
}
