//! The tables that the program prints.

use crate::contest::ContestResult;
use crate::conversion::{Call, Task};
use crate::encoder;
use crate::groups::GroupsResult;
use crate::scenario::{Scenario, SCALE, SETTINGS};
use crate::words;

pub fn settings() {
    println!(
        "W {}, A {}, K {}, X {}, Gaussian scale {SCALE}; the least time of each frame in interleaved rounds",
        SETTINGS.weight, SETTINGS.ratio, SETTINGS.limit, SETTINGS.tolerance
    );
}

const RATIO_WIDTH: usize = 14;

/// A column for each name.
fn columns(names: &[&str], width: usize) -> String {
    let names = names.iter().map(|name| format!("{name:>width$}"));
    names.collect::<Vec<String>>().join(" ")
}

fn ratio_names(names: &[&str]) -> Vec<String> {
    let others = names[1..].iter();
    others
        .map(|other| format!("{}/{other}", names[0]))
        .collect()
}

/// A column for each ratio of the first to another.
fn ratio_columns(names: &[&str]) -> String {
    let ratios = ratio_names(names);
    let ratios: Vec<&str> = ratios.iter().map(String::as_str).collect();
    columns(&ratios, RATIO_WIDTH)
}

pub fn heading(names: Vec<&str>) {
    println!();
    decoder_columns(names);
}

pub fn two_bits_heading(names: Vec<&str>) {
    println!("\nCodes with checks of two bits, alone or a third of all:");
    decoder_columns(names);
}

fn decoder_columns(names: Vec<&str>) {
    println!(
        "   n     T level        dB frames  k/frame settled right at limit | ns per triple and iteration: {} | middle: {} | frames/s: {} | {}",
        columns(&names, 8),
        columns(&names, 8),
        columns(&names, 8),
        ratio_columns(&names),
    );
}

/// Nanoseconds a triple and iteration.
fn per_triple(scenario: &Scenario, result: &ContestResult, seconds: f64) -> f64 {
    1e9 * seconds / (result.iterations as f64 * scenario.code.triples() as f64)
}

fn numbers(numbers: impl Iterator<Item = f64>, width: usize, digits: usize) -> String {
    columns_of(numbers.map(Some), width, digits)
}

/// The same, with blanks where there is no number.
fn columns_of(numbers: impl Iterator<Item = Option<f64>>, width: usize, digits: usize) -> String {
    let numbers = numbers.map(|number| match number {
        Some(number) => format!("{number:>width$.digits$}"),
        None => " ".repeat(width),
    });
    numbers.collect::<Vec<String>>().join(" ")
}

/// The least time of each decoder for all frames.
fn least(result: &ContestResult) -> impl Iterator<Item = Option<f64>> + '_ {
    let times = result.seconds.iter();
    times.map(|times| times.map(|(least, _)| least))
}

/// The middle time of each.
fn middle(result: &ContestResult) -> impl Iterator<Item = Option<f64>> + '_ {
    let times = result.seconds.iter();
    times.map(|times| times.map(|(_, middle)| middle))
}

fn ratios(result: &ContestResult) -> String {
    let mut times = least(result);
    let first = times.next().flatten();
    let ratio = |other: Option<f64>| Some(first? / other?);
    columns_of(times.map(ratio), RATIO_WIDTH, 3)
}

pub fn line(scenario: &Scenario, result: &ContestResult) {
    let frames = scenario.frames.len();
    let per = |seconds: Option<f64>| Some(per_triple(scenario, result, seconds?));
    let decibels = scenario.decibels.map(|level| format!("{level:.1}"));
    println!(
        "{:>4} {:>5} {:<10} {:>4} {frames:>6} {:>8.1} {:>7} {:>5} {:>6.1} % | {:29}{} | {:7} {} | {:9} {} | {}",
        scenario.code.bits,
        scenario.code.triples(),
        scenario.name,
        decibels.unwrap_or_default(),
        result.iterations as f64 / frames as f64,
        result.settled,
        result.right,
        100.0 * result.at_limit,
        "",
        columns_of(least(result).map(per), 8, 2),
        "",
        columns_of(middle(result).map(per), 8, 2),
        "",
        columns_of(least(result).map(|least| Some(frames as f64 / least?)), 8, 0),
        ratios(result),
    );
}

pub fn growth_heading(names: Vec<&str>) {
    println!();
    println!(
        "Growth with n, 50 iterations a frame:\n   n     T | microseconds a frame: {} | ns per triple and iteration: {}",
        columns(&names, 9),
        columns(&names, 8),
    );
}

pub fn growth_line(scenario: &Scenario, result: &ContestResult) {
    let frames = scenario.frames.len() as f64;
    let per_frame = |seconds: Option<f64>| Some(1e6 * seconds? / frames);
    let per = |seconds: Option<f64>| Some(per_triple(scenario, result, seconds?));
    println!(
        "{:>4} {:>5} | {:22}{} | {:29}{}",
        scenario.code.bits,
        scenario.code.triples(),
        "",
        columns_of(least(result).map(per_frame), 9, 1),
        "",
        columns_of(least(result).map(per), 8, 2),
    );
}

/// Which ways to decode groups are compared, where both take part.
const GROUP_RATIOS: [(&str, &str); 3] = [
    ("group", "singles"),
    ("group", "tuned group"),
    ("tuned group", "tuned singles"),
];

/// Of each such pair, where they stand among the names.
fn group_ratios(names: &[&str]) -> impl Iterator<Item = (usize, usize)> {
    let place = |name| names.iter().position(|&other| other == name);
    let places = GROUP_RATIOS.map(|(first, second)| place(first).zip(place(second)));
    places.into_iter().flatten()
}

const GROUP_RATIO_WIDTH: usize = 25;

pub fn groups_heading(names: Vec<&str>) {
    let ratios = group_ratios(&names);
    let ratios = ratios.map(|(first, second)| format!("{}/{}", names[first], names[second]));
    let ratios: Vec<String> = ratios.collect();
    let ratios: Vec<&str> = ratios.iter().map(String::as_str).collect();
    println!();
    println!(
        "Groups of frames; the least time of each group in interleaved rounds:\n   n     T level   dB frames  k/frame | ns per triple, iteration and frame: {} | {}",
        columns(&names, 13),
        columns(&ratios, GROUP_RATIO_WIDTH),
    );
}

pub fn groups_line(scenario: &Scenario, frames: usize, names: &[&str], result: &GroupsResult) {
    let triples = result.iterations as f64 * scenario.code.triples() as f64;
    let seconds = &result.seconds;
    let ratios = group_ratios(names).map(|(first, second)| seconds[first] / seconds[second]);
    println!(
        "{:>4} {:>5} {:<5} {:>4.1} {frames:>6} {:>8.1} | {:36}{} | {}",
        scenario.code.bits,
        scenario.code.triples(),
        scenario.name,
        scenario.decibels.unwrap_or_default(),
        result.iterations as f64 / scenario.frames.len() as f64,
        "",
        numbers(seconds.iter().map(|time| 1e9 * time / triples), 13, 2),
        numbers(ratios, GROUP_RATIO_WIDTH, 3),
    );
}

pub fn longest_heading(names: Vec<&str>) {
    println!();
    println!(
        "The longest accepted calls:\n   n     T frame                     k | ms a call: {} | {}",
        columns(&names, 8),
        ratio_columns(&names),
    );
}

pub fn longest_line(scenario: &Scenario, result: &ContestResult) {
    let times = least(result).map(|least| Some(1e3 * least?));
    println!(
        "{:>4} {:>5} {:<22} {:>4} | {:10} {} | {}",
        scenario.code.bits,
        scenario.code.triples(),
        scenario.name,
        result.iterations,
        "",
        columns_of(times, 8, 0),
        ratios(result),
    );
}

pub fn lists_heading(names: Vec<&str>) {
    println!();
    println!(
        "Where the lists lie, ns per triple and iteration over all places:\n   n     T bytes ahead | least: {} | most: {} | most: {}",
        columns(&names, 8),
        columns(&names, 8),
        ratio_columns(&names),
    );
}

/// The least or the most of each column.
fn over(rows: &[Vec<f64>], choose: fn(f64, f64) -> f64) -> Vec<f64> {
    let chosen = |a: Vec<f64>, b: Vec<f64>| a.into_iter().zip(b).map(|(a, b)| choose(a, b));
    let rows = rows.iter().cloned();
    rows.reduce(|a, b| chosen(a, b).collect()).expect("a row")
}

/// Seconds of every decoder, a row for each place.
pub fn lists_line(scenario: &Scenario, ahead: usize, seconds: &[Vec<f64>]) {
    let triples = f64::from(scenario.settings.limit) * scenario.code.triples() as f64;
    let ratios = |place: &Vec<f64>| place[1..].iter().map(|other| place[0] / other).collect();
    let ratios: Vec<Vec<f64>> = seconds.iter().map(ratios).collect();
    let per = |seconds: Vec<f64>| numbers(seconds.iter().map(|time| 1e9 * time / triples), 8, 2);
    println!(
        "{:>4} {:>5} {ahead:>11} | {:6} {} | {:5} {} | {:5} {}",
        scenario.code.bits,
        scenario.code.triples(),
        "",
        per(over(seconds, f64::min)),
        "",
        per(over(seconds, f64::max)),
        "",
        numbers(over(&ratios, f64::max).into_iter(), RATIO_WIDTH, 3),
    );
}

/// Milliseconds that a call may take, where there is a bar.
fn bar(seconds: Option<f64>) -> String {
    seconds.map_or(String::new(), |bar| format!("{:>7.0}", 1e3 * bar))
}

pub fn conversion_heading(names: Vec<&str>) {
    println!();
    println!(
        "Alist texts; the least time of interleaved rounds, one round of the reference:\ncall   text                             bytes number | ms: {} | ns a byte: {} | {} |  bar ms",
        columns(&names, 11),
        columns(&names, 9),
        columns(&[&ratio_names(&names)[0]], 17),
    );
}

pub fn conversion_line(task: &Task, seconds: &[f64]) {
    let call = match task.call {
        Call::Import => "import",
        Call::Export => "export",
    };
    let bar = bar(task.bar);
    let times = seconds.iter();
    println!(
        "{call} {:<28} {:>9} {:>6} | {:3} {} | {:10} {} | {} | {bar}",
        task.name,
        task.bytes(),
        task.answer.number,
        "",
        numbers(times.clone().map(|seconds| 1e3 * seconds), 11, 3),
        "",
        numbers(
            times.map(|seconds| 1e9 * seconds / task.bytes() as f64),
            9,
            2
        ),
        numbers([seconds[0] / seconds[1]].into_iter(), 17, 2),
    );
}

/// The ratios of the first to the others.
fn encoder_ratios(seconds: &[f64]) -> String {
    let others = seconds[1..].iter().map(|other| seconds[0] / other);
    numbers(others, RATIO_WIDTH, 2)
}

pub fn encoder_heading(names: Vec<&str>) {
    println!();
    println!(
        "The encoder, calls for one message; the least time of interleaved rounds:\ncode       bits checks length call          | microseconds a call: {} | {} |  bar ms",
        columns(&names, 9),
        ratio_columns(&names),
    );
}

pub fn encoder_line(task: &encoder::Task, seconds: &[f64]) {
    println!(
        "{:<9} {:>5} {:>6} {:>6} {:<13} | {:20} {} | {} | {}",
        task.name,
        task.bits,
        task.checks,
        task.length,
        format!("{:?}", task.call),
        "",
        numbers(seconds.iter().map(|seconds| 1e6 * seconds), 9, 1),
        encoder_ratios(seconds),
        bar(task.bar()),
    );
}

pub fn frames_heading(names: Vec<&str>) {
    println!();
    println!(
        "The encoder, many messages of a code:\ncode       bits length calls         | microseconds a frame: {} | frames/s: {} | {}",
        columns(&names, 9),
        columns(&names, 9),
        ratio_columns(&names),
    );
}

pub fn frames_line(task: &encoder::Task, seconds: &[f64]) {
    let frames = task.frames() as f64;
    let times = seconds.iter();
    println!(
        "{:<9} {:>5} {:>6} {:<13} | {:21} {} | {:9} {} | {}",
        task.name,
        task.bits,
        task.length,
        format!("{:?}", task.call),
        "",
        numbers(times.clone().map(|seconds| 1e6 * seconds / frames), 9, 2),
        "",
        numbers(times.map(|seconds| frames / seconds), 9, 0),
        encoder_ratios(seconds),
    );
}

pub fn words_heading(names: Vec<&str>) {
    println!();
    println!(
        "Calls on words; the least time of interleaved rounds:\ncall      entries | ns a call: {}",
        columns(&names, 9),
    );
}

pub fn words_line(call: words::Call, length: usize, seconds: &[f64]) {
    let times = seconds.iter().map(|seconds| 1e9 * seconds);
    println!(
        "{:<9} {length:>7} | {:10} {}",
        format!("{call:?}"),
        "",
        numbers(times, 9, 1),
    );
}
