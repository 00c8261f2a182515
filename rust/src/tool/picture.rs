//! The picture of a state's memory as an SVG: 64 pages, each in the colour of its region, with its
//! objects filled where used; beside them the frames with their region variables.

use super::pages::{Page, View};
use crate::state::{PAGES, PAGE_BYTES};
use crate::types::Live;

const COLUMNS: usize = 8;
const CELL: usize = 90;
const GAP: usize = 10;
/// The height of a page's label.
const LABEL: usize = 15;
const LEFT: usize = 20;
const TOP: usize = 64;
const TEXT_LEFT: usize = LEFT + COLUMNS * (CELL + GAP) + 20;
const WIDTH: usize = TEXT_LEFT + 440;
const LINE: usize = 18;

/// Region colours: hues far apart, one after the other.
fn colour(region: Live, light: usize) -> String {
    format!("hsl({} 65% {light}%)", (usize::from(region.0) * 137 + 210) % 360)
}

fn escaped(text: &str) -> String {
    text.replace('&', "&amp;").replace('<', "&lt;").replace('>', "&gt;")
}

fn text_at(x: usize, y: usize, class: &str, text: &str) -> String {
    format!("<text x=\"{x}\" y=\"{y}\" class=\"{class}\">{}</text>\n", escaped(text))
}

fn rectangle(place: (usize, usize), size: (usize, usize), style: &str, title: &str) -> String {
    let ((x, y), (width, height)) = (place, size);
    let title = if title.is_empty() { String::new() } else { format!("<title>{title}</title>") };
    format!(
        "<rect x=\"{x}\" y=\"{y}\" width=\"{width}\" height=\"{height}\" {style}>{title}</rect>\n"
    )
}

/// Where a page's square lies.
fn corner(page: usize) -> (usize, usize) {
    (LEFT + page % COLUMNS * (CELL + GAP), TOP + page / COLUMNS * (CELL + LABEL + GAP))
}

fn empty_page(number: usize) -> String {
    let (x, y) = corner(number);
    let (label, style) = match number {
        0 => ("0 not granted", "fill=\"#dddddd\""),
        _ => ("", "fill=\"none\" stroke=\"#cccccc\" stroke-dasharray=\"3 3\""),
    };
    let label = if label.is_empty() { number.to_string() } else { label.to_string() };
    text_at(x, y + LABEL - 4, "free", &label) + &rectangle((x, y + LABEL), (CELL, CELL), style, "")
}

/// Where the objects that are asked for begin.
fn outlined<'v>(view: &'v View) -> impl Iterator<Item = usize> + 'v {
    view.objects.iter().filter_map(|(_, object)| object.map(|object| object.start))
}

/// The objects of a page in a square, row by row.
fn owned_page(view: &View, page: &Page) -> String {
    let (x, y) = corner(page.number);
    let style = format!(
        "fill=\"{}\" stroke=\"{}\" stroke-width=\"2\"",
        colour(page.region, 95),
        colour(page.region, 40)
    );
    let mut text = text_at(x, y + LABEL - 4, "page", &page.number.to_string());
    let count = format!("{}/{}", page.used_count(), page.used.len());
    text += &text_at(x + CELL, y + LABEL - 4, "count", &count);
    text += &rectangle((x, y + LABEL), (CELL, CELL), &style, "");
    let mut columns = 1;
    while columns * columns < page.used.len() {
        columns += 1;
    }
    let rows = page.used.len().div_ceil(columns);
    // Edges by proportion, so that the objects fill the square whatever their number.
    let edge = |index: usize, count: usize| 4 + index * (CELL - 8) / count;
    for (place, used) in page.used.iter().enumerate() {
        let (column, row) = (place % columns, place / columns);
        let (left, right) = (edge(column, columns), edge(column + 1, columns));
        let (above, below) = (edge(row, rows), edge(row + 1, rows));
        let start = page.number * PAGE_BYTES + place * page.size;
        let pointed = outlined(view).any(|object| object == start);
        let fill = if *used { colour(page.region, 55) } else { "#ffffff".to_string() };
        let stroke = if pointed { "stroke=\"#000000\" stroke-width=\"3\"" } else { "" };
        let gap = usize::from(right - left > 3);
        let title =
            format!("{start}: {} bytes, {}", page.size, if *used { "used" } else { "free" });
        text += &rectangle(
            (x + left, y + LABEL + above),
            (right - left - gap, below - above - gap),
            &format!("fill=\"{fill}\" {stroke}"),
            &title,
        );
    }
    text
}

/// As much of a line as there is room for.
fn shortened(line: &str) -> String {
    const ROOM: usize = 54;
    match line.char_indices().nth(ROOM) {
        Some((end, _)) => format!("{}..", &line[..end]),
        None => line.to_string(),
    }
}

/// The frames, top first, with their variables in the colours of the regions, and where they end.
fn frames(view: &View) -> (String, usize) {
    let mut text = String::new();
    let mut y = TOP + LABEL;
    for index in (0..view.heap.state.frames.len()).rev() {
        text += &text_at(TEXT_LEFT, y, "frame", &shortened(&view.frame_text(index)));
        y += LINE;
        for (live, map) in view.region_texts(index) {
            let style = format!("fill=\"{}\"", colour(live, 55));
            text += &rectangle((TEXT_LEFT + 14, y - 10), (11, 11), &style, "");
            let region = view.heap.region(live);
            let holds = region.map_or(String::new(), |one| format!(", {}", one.written));
            let pages = view.pages.iter().filter(|page| page.region == live).count();
            let line = format!("{map}{holds}, pages {pages}");
            text += &text_at(TEXT_LEFT + 32, y, "map", &shortened(&line));
            y += LINE;
        }
        y += LINE / 2;
    }
    (text, y)
}

/// The whole picture.
pub fn picture(view: &View) -> String {
    let (frames, frames_end) = frames(view);
    let height = frames_end.max(TOP + PAGES / COLUMNS * (CELL + LABEL + GAP)) + 20;
    let mut text = format!(
        "<svg xmlns=\"http://www.w3.org/2000/svg\" width=\"{WIDTH}\" height=\"{height}\" \
         viewBox=\"0 0 {WIDTH} {height}\">\n\
         <style>text {{ font: 11px monospace; fill: #222222 }} .free {{ fill: #999999 }} \
         .count {{ text-anchor: end }} \
         .title {{ font-size: 16px }} .frame {{ font-size: 13px }}</style>\n\
         <rect width=\"{WIDTH}\" height=\"{height}\" fill=\"#ffffff\"/>\n"
    );
    text += &text_at(LEFT, 28, "title", &view.status());
    let mut legend = "filled objects are used, white ones free; a page has 256 bytes".to_string();
    let starts: Vec<String> = outlined(view).map(|start| start.to_string()).collect();
    if !starts.is_empty() {
        let objects = if starts.len() == 1 { "object" } else { "objects" };
        legend += &format!("; outlined: the {objects} at {}", starts.join(", "));
    }
    text += &text_at(LEFT, 48, "map", &legend);
    for number in 0..PAGES {
        text += &match view.pages.iter().find(|page| page.number == number) {
            Some(page) => owned_page(view, page),
            None => empty_page(number),
        };
    }
    text + &frames + "</svg>\n"
}
