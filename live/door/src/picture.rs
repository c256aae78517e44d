//! The picture of a run: time across, the door above, the gateway below, each sending of a report a line between them.

use crate::reports::{Kind, Name};
use crate::story::{Sending, Story};
use std::collections::BTreeSet;
use std::fmt::Write;

const WIDTH: f64 = 1500.0;
const LEFT: f64 = 110.0;
const RIGHT: f64 = 1470.0;
const DOOR: f64 = 250.0;
const GATEWAY: f64 = 540.0;
const HEIGHT: f64 = 800.0;

const RELIABLE: &str = "#1f5fa8";
const UNSEQUENCED: &str = "#2b8a57";
const DROPPED: &str = "#d32f2f";
const DOUBLED: &str = "#8e44ad";
const AGAIN: &str = "#e67e00";
const PASSED_OVER: &str = "#111111";
/// One that is sent again may share a datagram with a new one: a little aside, both are seen.
const ASIDE: f64 = 5.0;
/// So that a line behind a name does not hide it.
const HALO: &str = "stroke=\"white\" stroke-width=\"3\" paint-order=\"stroke\"";
const INK: &str = "#222222";

/// The drawing so far, and how many pixels a millisecond has.
struct Sheet {
    svg: String,
    scale: f64,
}

impl Sheet {
    fn x(&self, time: f64) -> f64 {
        LEFT + time * self.scale
    }

    fn text(&mut self, x: f64, y: f64, size: u32, style: &str, words: &str) {
        let _ = writeln!(
            self.svg,
            "<text x=\"{x:.1}\" y=\"{y:.1}\" font-size=\"{size}\" {style}>{words}</text>"
        );
    }

    fn line(&mut self, from: (f64, f64), to: (f64, f64), colour: &str, style: &str) {
        let ((x1, y1), (x2, y2)) = (from, to);
        let _ = writeln!(
            self.svg,
            "<line x1=\"{x1:.1}\" y1=\"{y1:.1}\" x2=\"{x2:.1}\" y2=\"{y2:.1}\" stroke=\"{colour}\" {style}/>"
        );
    }

    fn dot(&mut self, (x, y): (f64, f64), colour: &str) {
        let _ =
            writeln!(self.svg, "<circle cx=\"{x:.1}\" cy=\"{y:.1}\" r=\"4\" fill=\"{colour}\"/>");
    }

    fn ring(&mut self, (x, y): (f64, f64)) {
        let _ = writeln!(
            self.svg,
            "<circle cx=\"{x:.1}\" cy=\"{y:.1}\" r=\"5\" fill=\"white\" stroke=\"{PASSED_OVER}\" stroke-width=\"2\"/>"
        );
    }

    fn cross(&mut self, (x, y): (f64, f64)) {
        let style = "stroke-width=\"3\"";
        self.line((x - 5.0, y - 5.0), (x + 5.0, y + 5.0), DROPPED, style);
        self.line((x - 5.0, y + 5.0), (x + 5.0, y - 5.0), DROPPED, style);
    }
}

fn colour_of(kind: Kind) -> &'static str {
    match kind {
        Kind::Reliable => RELIABLE,
        Kind::Unsequenced => UNSEQUENCED,
    }
}

const THICK: &str = "stroke-width=\"2\"";

/// The lines of one sending: to the gateway, or to where it was dropped; a second copy in its own colour.
fn draw_sending(sheet: &mut Sheet, sending: &Sending) {
    let aside = if sending.again { ASIDE } else { 0.0 };
    let from = (sheet.x(sending.left) + aside, DOOR);
    let own = if sending.again { AGAIN } else { colour_of(sending.report.kind) };
    if sending.arrivals.is_empty() {
        let end = (from.0 + 12.0, (DOOR + GATEWAY) / 2.0);
        sheet.line(from, end, DROPPED, THICK);
        sheet.cross(end);
    }
    for (copy, arrival) in sending.arrivals.iter().enumerate() {
        let to = (sheet.x(arrival.at) + aside, GATEWAY);
        sheet.line(from, to, if copy > 0 { DOUBLED } else { own }, THICK);
        if arrival.passed_over {
            sheet.ring(to);
        } else {
            sheet.dot(to, own);
        }
    }
    sheet.dot(from, own);
}

/// A reliable report that was there before an earlier one waits for it: a bar below the gateway, until it is counted.
fn draw_waiting(sheet: &mut Sheet, story: &Story) {
    let mut row = 0;
    for (report, counted) in &story.counted {
        let arrivals = story
            .sendings
            .iter()
            .filter(|sending| sending.report == *report)
            .flat_map(|sending| &sending.arrivals);
        let there = arrivals
            .filter(|arrival| !arrival.passed_over)
            .map(|arrival| arrival.at)
            .fold(f64::MAX, f64::min);
        if report.kind == Kind::Reliable && counted - there > 8.0 && there < f64::MAX {
            let y = GATEWAY + 24.0 + 17.0 * f64::from(row % 4);
            row += 1;
            sheet.line(
                (sheet.x(there), y),
                (sheet.x(*counted), y),
                RELIABLE,
                "stroke-width=\"5\" stroke-opacity=\"0.45\"",
            );
            let x = sheet.x(*counted) + 5.0;
            sheet.text(
                x,
                y + 4.0,
                12,
                &format!("fill=\"{RELIABLE}\""),
                &format!("{report} waits, then counts"),
            );
        }
    }
}

fn draw_lanes(sheet: &mut Sheet, end: f64) {
    let _ = writeln!(
        sheet.svg,
        "<rect x=\"{LEFT}\" y=\"{}\" width=\"{}\" height=\"{}\" fill=\"#f3f4f6\"/>",
        DOOR + 40.0,
        RIGHT - LEFT,
        GATEWAY - DOOR - 80.0
    );
    sheet.text(
        LEFT - 12.0,
        (DOOR + GATEWAY) / 2.0,
        15,
        "text-anchor=\"end\" fill=\"#777777\"",
        "network",
    );
    for (y, name) in [(DOOR, "door"), (GATEWAY, "gateway")] {
        sheet.line((LEFT, y), (RIGHT, y), INK, "stroke-width=\"1.5\"");
        sheet.text(LEFT - 12.0, y + 6.0, 19, "text-anchor=\"end\" font-weight=\"bold\"", name);
    }
    let y = GATEWAY + 112.0;
    for step in 0..=(end / 200.0) as u32 {
        let x = sheet.x(f64::from(step) * 200.0);
        sheet.line((x, y - 8.0), (x, y), "#777777", "");
        sheet.text(
            x,
            y + 16.0,
            13,
            "text-anchor=\"middle\" fill=\"#555555\"",
            &format!("{} ms", step * 200),
        );
    }
}

/// How high the name of a sending stands over the door: a row for each kind, and above them two for those sent again.
fn rises(story: &Story) -> Vec<f64> {
    let mut again = 0;
    let rise = |sending: &Sending| match (sending.again, sending.report.kind) {
        (false, Kind::Reliable) => 12.0,
        (false, Kind::Unsequenced) => 27.0,
        (true, _) => {
            again += 1;
            42.0 + 14.0 * f64::from(again % 2)
        }
    };
    story.sendings.iter().map(rise).collect()
}

fn draw_names(sheet: &mut Sheet, story: &Story) {
    let rises = rises(story);
    for (sending, rise) in story.sendings.iter().zip(&rises).filter(|pair| pair.0.again) {
        let x = sheet.x(sending.left) + ASIDE;
        sheet.line(
            (x, DOOR - rise + 3.0),
            (x, DOOR),
            AGAIN,
            "stroke-width=\"1\" stroke-dasharray=\"2 3\"",
        );
    }
    for (sending, rise) in story.sendings.iter().zip(&rises) {
        let (colour, aside) =
            if sending.again { (AGAIN, ASIDE) } else { (colour_of(sending.report.kind), 0.0) };
        let (x, style) = (
            sheet.x(sending.left) + aside,
            format!("text-anchor=\"middle\" fill=\"{colour}\" {HALO}"),
        );
        sheet.text(x, DOOR - rise, 12, &style, &sending.report.to_string());
    }
}

fn draw_legend(sheet: &mut Sheet) {
    let lines = [
        (RELIABLE, "reliable report"),
        (UNSEQUENCED, "unsequenced report"),
        (AGAIN, "sent again"),
        (DOUBLED, "second copy of one that was doubled"),
    ];
    let mut x = LEFT;
    for (colour, words) in lines {
        sheet.line((x, 147.0), (x + 30.0, 147.0), colour, "stroke-width=\"4\"");
        sheet.text(x + 38.0, 152.0, 15, "", words);
        x += 62.0 + 8.6 * words.len() as f64;
    }
    sheet.line((x, 147.0), (x + 26.0, 147.0), DROPPED, "stroke-width=\"4\"");
    sheet.cross((x + 30.0, 147.0));
    sheet.text(x + 44.0, 152.0, 15, "", "dropped");
    x += 126.0;
    sheet.ring((x, 147.0));
    sheet.text(x + 12.0, 152.0, 15, "", "a repeat, passed over");
    x += 206.0;
    sheet.dot((x, 147.0), INK);
    sheet.text(x + 10.0, 152.0, 15, "", "taken");
}

fn none_or(count: usize) -> String {
    if count == 0 {
        "none".to_string()
    } else {
        count.to_string()
    }
}

/// Reports of a kind: sent, counted, counted twice, and whether in order.
fn count_kind(story: &Story, kind: Kind) -> (usize, usize, usize, bool) {
    let sent = story.sendings.iter().map(|sending| sending.report);
    let sent: BTreeSet<Name> = sent.filter(|name| name.kind == kind).collect();
    let counted = story.counted.iter().map(|counted| counted.0);
    let counted: Vec<Name> = counted.filter(|name| name.kind == kind).collect();
    let distinct = counted.iter().collect::<BTreeSet<_>>().len();
    let in_order = counted.windows(2).all(|pair| pair[0].index < pair[1].index);
    (sent.len(), distinct, counted.len() - distinct, in_order)
}

/// What it all comes to.
fn counts(story: &Story) -> [String; 3] {
    let (sent, counted, twice, in_order) = count_kind(story, Kind::Reliable);
    let (twice, order) = (none_or(twice), if in_order { "in order" } else { "NOT in order" });
    let reliable = format!(
        "Reliable: {sent} reports sent, {counted} counted by the gateway, {twice} twice, {order}."
    );
    let (sent, counted, twice, _) = count_kind(story, Kind::Unsequenced);
    let (twice, lost) = (none_or(twice), none_or(sent - counted));
    let unsequenced = format!("Unsequenced: {sent} reports sent, {counted} counted by the gateway, {twice} twice, {lost} lost.");
    let fates = |word: &str| story.sendings.iter().filter(|sending| sending.fate == word).count();
    let (lost, doubled, held) = (fates("lost"), fates("twice"), fates("held"));
    let again = story.sendings.iter().filter(|sending| sending.again).count();
    let arrivals = story.sendings.iter().flat_map(|sending| &sending.arrivals);
    let over = arrivals.filter(|arrival| arrival.passed_over).count();
    let way = format!("On the way: {lost} dropped, {doubled} doubled, {held} held back, {again} sent again, {over} repeats passed over.");
    [reliable, unsequenced, way]
}

fn draw_words(sheet: &mut Sheet, story: &Story) {
    sheet.text(
        LEFT,
        44.0,
        27,
        "font-weight=\"bold\"",
        "A door's reports on their way to the gateway, over a bad network",
    );
    let sentences = [
        "Time runs from left to right. Each line is one report on its way down from the door (our proved link) to the gateway (stock ENet).",
        "A reliable report is sent again until the door has its answer: one that was dropped gets there, one whose answer was dropped comes twice.",
        "An unsequenced report is sent once and may be lost. Whatever comes twice, by the door or by the network, is counted once.",
    ];
    for (row, sentence) in (0..).zip(sentences) {
        sheet.text(LEFT, 72.0 + 22.0 * f64::from(row), 17, "", sentence);
    }
    for (row, sentence) in (0..).zip(counts(story)) {
        sheet.text(LEFT, 708.0 + 28.0 * f64::from(row), 19, "font-weight=\"bold\"", &sentence);
    }
}

pub fn draw(story: &Story) -> String {
    let times = story.sendings.iter().flat_map(|sending| {
        sending.arrivals.iter().map(|arrival| arrival.at).chain([sending.left])
    });
    let end = times.chain(story.counted.iter().map(|counted| counted.1)).fold(1.0, f64::max);
    let mut sheet = Sheet { svg: String::new(), scale: (RIGHT - LEFT - 40.0) / end };
    let _ = writeln!(
        sheet.svg,
        "<svg xmlns=\"http://www.w3.org/2000/svg\" viewBox=\"0 0 {WIDTH} {HEIGHT}\" font-family=\"Helvetica, Arial, sans-serif\" fill=\"{INK}\">\n\
         <rect width=\"{WIDTH}\" height=\"{HEIGHT}\" fill=\"white\"/>"
    );
    draw_words(&mut sheet, story);
    draw_legend(&mut sheet);
    draw_lanes(&mut sheet, end);
    for again in [false, true] {
        story
            .sendings
            .iter()
            .filter(|sending| sending.again == again)
            .for_each(|sending| draw_sending(&mut sheet, sending));
    }
    draw_waiting(&mut sheet, story);
    draw_names(&mut sheet, story);
    sheet.svg.push_str("</svg>\n");
    sheet.svg
}
