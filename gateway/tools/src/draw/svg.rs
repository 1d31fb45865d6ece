//! A scene as an SVG.

use std::fmt::Write as _;
use std::io::{self, Write};

use super::scene::{Actor, Arrow, Carried, Kind, Lane, Mark, Scene};

/// Where the first lane stands: before it are the numbers of lines.
const LEFT_PIXELS: f64 = 84.0;
/// What the master does by itself stands behind its lane.
const RIGHT_PIXELS: f64 = 190.0;
/// Where row 0 is: above it are the names.
const TOP_PIXELS: f64 = 62.0;
const BOTTOM_PIXELS: f64 = 30.0;
/// How wide a letter is at most, in the mean.
const LETTER_PIXELS: f64 = 6.1;
/// The shortest label.
const LEAST_LETTERS: usize = 14;

const STYLE: &str = "text{font:11px sans-serif;fill:#222}.name{font-weight:bold;font-size:13px;text-anchor:middle}\
    .role{fill:#fff;font-size:10px;font-weight:bold;text-anchor:middle}.line{fill:#888;font-size:10px;text-anchor:end}\
    .label{paint-order:stroke;stroke:#fff;stroke-width:4px;stroke-linejoin:round}.end{text-anchor:end}\
    .lane{stroke:#999;stroke-width:1.5}.down{stroke:#ccc;stroke-dasharray:2 4}.arrow{stroke-width:1.5;fill:none}\
    .request{stroke:#444}.message{stroke:#1f4e9c}.order{stroke:#a06000}.answer{stroke:#1b7f3b}.refused{stroke:#c1272d;stroke-dasharray:4 3}\
    .t-request{fill:#222}.t-message{fill:#1f4e9c}.t-order{fill:#8a5200}.t-answer{fill:#14662e}.t-refused{fill:#c1272d}\
    .cross{stroke:#c1272d;stroke-width:3}";

/// Where things stand.
struct Plan {
    lanes: Vec<f64>,
    row: f64,
    width: f64,
    height: f64,
}

/// The space before a lane, by who stands there and on its left.
fn space(left: Actor, right: Actor) -> f64 {
    match (left, right) {
        (Actor::Client(_), Actor::Client(_)) => 90.0,
        (Actor::Client(_), _) => 230.0,
        _ => 150.0,
    }
}

impl Plan {
    fn of(scene: &Scene) -> Plan {
        let mut lanes = Vec::new();
        let mut x = LEFT_PIXELS;
        for (place, lane) in scene.lanes.iter().enumerate() {
            if place > 0 {
                x += space(scene.lanes[place - 1].actor, lane.actor);
            }
            lanes.push(x);
        }
        let rows = scene.rows.len();
        let row = if rows <= 60 { 26.0 } else { 20.0 };
        let height = TOP_PIXELS + row * (rows as f64 + 1.0) + BOTTOM_PIXELS;
        Plan { lanes, row, width: x + RIGHT_PIXELS, height }
    }

    fn x(&self, lane: usize) -> f64 {
        self.lanes[lane]
    }

    fn y(&self, row: usize) -> f64 {
        TOP_PIXELS + self.row * row as f64
    }

    fn bottom(&self) -> f64 {
        self.height - BOTTOM_PIXELS
    }
}

fn escaped(text: &str) -> String {
    text.chars().fold(String::new(), |mut escaped, letter| {
        match letter {
            '&' => escaped.push_str("&amp;"),
            '<' => escaped.push_str("&lt;"),
            '>' => escaped.push_str("&gt;"),
            '"' => escaped.push_str("&quot;"),
            // XML 1.0 has no other ones.
            letter if letter.is_control() || matches!(letter, '\u{fffe}' | '\u{ffff}') => escaped.push('\u{fffd}'),
            letter => escaped.push(letter),
        }
        escaped
    })
}

/// The text, cut where it is longer than that space.
fn cut(text: &str, space: f64) -> String {
    let most = ((space / LETTER_PIXELS) as usize).max(LEAST_LETTERS);
    if text.chars().count() <= most {
        return text.into();
    }
    text.chars().take(most - 1).chain(['…']).collect()
}

fn class(arrow: &Arrow) -> &'static str {
    match arrow.carried {
        _ if arrow.is_refused => "refused",
        Carried::Request => "request",
        Carried::Message => "message",
        Carried::Order => "order",
        Carried::Answer => "answer",
    }
}

fn number(value: f64) -> String {
    let text = format!("{value:.1}");
    text.strip_suffix(".0").map(str::to_owned).unwrap_or(text)
}

fn line(out: &mut String, class: &str, (x1, y1): (f64, f64), (x2, y2): (f64, f64), more: &str) {
    let (x1, y1, x2, y2) = (number(x1), number(y1), number(x2), number(y2));
    let _ = writeln!(out, "<line class=\"{class}\" x1=\"{x1}\" y1=\"{y1}\" x2=\"{x2}\" y2=\"{y2}\"{more}/>");
}

fn text(out: &mut String, class: &str, (x, y): (f64, f64), said: &str) {
    let _ = writeln!(out, "<text class=\"{class}\" x=\"{}\" y=\"{}\">{}</text>", number(x), number(y), escaped(said));
}

fn badge_width(said: &str) -> f64 {
    10.0 + 6.0 * said.chars().count() as f64
}

fn badge(out: &mut String, (x, y): (f64, f64), said: &str) {
    let width = badge_width(said);
    let color = if said.starts_with("no more") { "#777" } else { "#5b3f99" };
    let (left, top, wide) = (number(x - width / 2.0), number(y - 7.0), number(width));
    let _ = writeln!(out, "<rect x=\"{left}\" y=\"{top}\" width=\"{wide}\" height=\"14\" rx=\"7\" fill=\"{color}\"/>");
    text(out, "role", (x, y + 3.5), said);
}

fn lane(out: &mut String, plan: &Plan, place: usize, lane: &Lane) {
    let x = plan.x(place);
    text(out, "name", (x, 22.0), &lane.actor.name());
    for (at, role) in lane.roles.iter().enumerate() {
        let shift = 22.0 * (2.0 * at as f64 + 1.0 - lane.roles.len() as f64);
        badge(out, (x + shift, 38.0), role);
    }
    if lane.begins > plan.rows() {
        return;
    }
    let end = lane.crashes.map_or(plan.bottom(), |row| plan.y(row));
    line(out, "lane", (x, plan.y(lane.begins).max(TOP_PIXELS - 12.0)), (x, end), "");
    if lane.crashes.is_some() {
        line(out, "lane down", (x, end), (x, plan.bottom()), "");
    }
}

impl Plan {
    fn rows(&self) -> usize {
        ((self.height - TOP_PIXELS - BOTTOM_PIXELS) / self.row) as usize
    }
}

/// The head of an arrow that comes from the first point to the second one.
fn head(out: &mut String, class: &str, (x1, y1): (f64, f64), (x2, y2): (f64, f64)) {
    let length = (x2 - x1).hypot(y2 - y1).max(1.0);
    let (dx, dy) = ((x2 - x1) / length, (y2 - y1) / length);
    let (bx, by) = (x2 - 9.0 * dx, y2 - 9.0 * dy);
    let points = [(x2, y2), (bx - 4.0 * dy, by + 4.0 * dx), (bx + 4.0 * dy, by - 4.0 * dx)];
    let points: Vec<String> = points.iter().map(|(x, y)| format!("{},{}", number(*x), number(*y))).collect();
    let _ = writeln!(out, "<polygon class=\"t-{class}\" points=\"{}\"/>", points.join(" "));
}

fn arrow(out: &mut String, plan: &Plan, arrow: &Arrow) {
    let class = class(arrow);
    let begin = (plan.x(arrow.from), plan.y(arrow.begins));
    let whole = plan.x(arrow.to) - begin.0;
    match arrow.ends {
        Some(row) => {
            let end = (plan.x(arrow.to), plan.y(row));
            line(out, &format!("arrow {class}"), begin, end, "");
            head(out, class, begin, end);
        }
        None => {
            // It ends in the air.
            let end = (begin.0 + whole * 0.45, begin.1 + plan.row * 0.8);
            line(out, &format!("arrow {class}"), begin, end, " stroke-dasharray=\"6 3\"");
            let (x, y) = (number(end.0), number(end.1));
            let _ = writeln!(out, "<circle class=\"arrow {class}\" cx=\"{x}\" cy=\"{y}\" r=\"3.5\"/>");
        }
    }
}

/// The label of an arrow stands above its begin; of an answer, above its end: so those of clients stand below each other.
fn label(out: &mut String, plan: &Plan, arrow: &Arrow) {
    let class = class(arrow);
    let (near, far) = match arrow.carried {
        Carried::Answer => (plan.x(arrow.to), plan.x(arrow.from)),
        _ => (plan.x(arrow.from), plan.x(arrow.to)),
    };
    let said = cut(&arrow.label, (far - near).abs() - 16.0);
    let y = plan.y(arrow.begins) - 4.0;
    if near < far {
        text(out, &format!("label t-{class}"), (near + 8.0, y), &said);
    } else {
        text(out, &format!("label end t-{class}"), (near - 8.0, y), &said);
    }
}

fn mark(out: &mut String, plan: &Plan, scene: &Scene, mark: &Mark) {
    let (x, y) = (plan.x(mark.lane), plan.y(mark.row));
    match mark.kind {
        Kind::Crash => {
            line(out, "cross", (x - 7.0, y - 7.0), (x + 7.0, y + 7.0), "");
            line(out, "cross", (x - 7.0, y + 7.0), (x + 7.0, y - 7.0), "");
            text(out, "label t-refused", (x + 12.0, y + 4.0), &mark.text);
        }
        Kind::Role => {
            // It stands opposite to the message by which it becomes that.
            let is_left = scene
                .arrows
                .iter()
                .any(|arrow| arrow.to == mark.lane && arrow.ends == Some(mark.row) && plan.x(arrow.from) > x);
            let shift = badge_width(&mark.text) / 2.0 + 8.0;
            badge(out, (if is_left { x - shift } else { x + shift }, y), &mark.text);
        }
        Kind::Note => {
            let _ = writeln!(out, "<circle cx=\"{}\" cy=\"{}\" r=\"4\" fill=\"#a06000\"/>", number(x), number(y));
            text(out, "label t-order", (x + 10.0, y + 4.0), &mark.text);
        }
        Kind::Refusal => text(out, "label t-refused", (x + 10.0, y + 4.0), &format!("✗ {}", mark.text)),
    }
}

/// Writes the picture.
pub fn write(scene: &Scene, out: &mut impl Write) -> io::Result<()> {
    let plan = Plan::of(scene);
    let (width, height) = (number(plan.width), number(plan.height));
    let mut told = format!(
        "<svg xmlns=\"http://www.w3.org/2000/svg\" width=\"{width}\" height=\"{height}\" viewBox=\"0 0 {width} {height}\">\n\
         <style>{STYLE}</style>\n<rect width=\"100%\" height=\"100%\" fill=\"#fff\"/>\n"
    );
    scene.lanes.iter().enumerate().for_each(|(place, one)| lane(&mut told, &plan, place, one));
    for (index, row) in scene.rows.iter().enumerate() {
        text(&mut told, "line", (28.0, plan.y(index + 1) + 4.0), &row.line.to_string());
    }
    scene.arrows.iter().for_each(|one| arrow(&mut told, &plan, one));
    scene.marks.iter().for_each(|one| mark(&mut told, &plan, scene, one));
    scene.arrows.iter().for_each(|one| label(&mut told, &plan, one));
    told.push_str("</svg>\n");
    out.write_all(told.as_bytes())
}
