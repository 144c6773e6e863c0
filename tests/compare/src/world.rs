//! A group with some views and logs, whose nodes report: what restarts are made
//! of. Reports of one view agree, so that most are accepted.

use crate::random::Random;
use crate::{damage, generate};
use reference::mask;
use reference::message::{Contents, Form, Triple, MEMBERS, RUN, TERMINATION};
use reference::settings::{self, Settings};
use reference::state::View;

/// A view with its termination, if one was made, and the logs of its members.
struct Era {
    view: View,
    termination: Option<Vec<(u32, u32)>>,
}

pub struct World {
    pub words: Vec<u32>,
    pub settings: Settings,
    /// By ascending number, never empty.
    eras: Vec<Era>,
    /// For each shard the runs of the longest log.
    logs: Vec<Vec<(u32, u32)>>,
}

/// Makes a group.
pub fn world(random: &mut Random) -> World {
    let words = if random.chance(75) {
        let nodes = random.pick(&[3, 4, 5, 6, 7, 8, 12, 20, 32, 32]);
        roomy_settings(random, nodes)
    } else {
        generate::settings_words(random)
    };
    with_settings(random, words)
}

/// Makes a group of so many nodes, each of which is a member of the first view.
pub fn of_size(random: &mut Random, nodes: u32) -> World {
    let mut words = roomy_settings(random, nodes);
    if random.chance(25) {
        words[2] = random.between(1, nodes);
    }
    let mut world = with_settings(random, words);
    world.eras[0].view.members = mask::below(nodes);
    world
}

/// Makes a group with these settings.
fn with_settings(random: &mut Random, words: Vec<u32>) -> World {
    let settings = settings::parse(&words).expect("generated settings are good");
    let numbers = view_numbers(random);
    let logs: Vec<_> = (0..settings.shards)
        .map(|_| longest_log(random, &numbers))
        .collect();
    let eras = numbers
        .iter()
        .map(|&number| era(random, &settings, &logs, number))
        .collect();
    World {
        words,
        settings,
        eras,
        logs,
    }
}

/// A group with these views, by ascending number, none of which has a
/// termination but one that keeps nothing, now and then.
pub fn of_views(random: &mut Random, words: Vec<u32>, views: Vec<View>) -> World {
    let settings = settings::parse(&words).expect("good settings");
    let numbers: Vec<u32> = views.iter().map(|view| view.number).collect();
    let logs = (0..settings.shards)
        .map(|_| longest_log(random, &numbers))
        .collect();
    let mut era = |view: View| Era {
        termination: random.chance(10).then(|| vec![(0, 0); view.masks.len()]),
        view,
    };
    World {
        eras: views.into_iter().map(&mut era).collect(),
        words,
        settings,
        logs,
    }
}

/// A group in whose first view all nodes are, so that every one of them has
/// something to report.
pub fn whole_group(random: &mut Random, words: Vec<u32>) -> World {
    let settings = settings::parse(&words).expect("good settings");
    let numbers = view_numbers(random);
    let logs: Vec<_> = (0..settings.shards)
        .map(|_| longest_log(random, &numbers))
        .collect();
    let mut eras = Vec::new();
    for &number in &numbers {
        let members = match eras.is_empty() || random.chance(60) {
            true => mask::below(settings.nodes),
            false => generate::members(random, &settings),
        };
        eras.push(era_of(random, &settings, &logs, number, members));
    }
    World {
        words,
        settings,
        eras,
        logs,
    }
}

/// Settings that most sets of nodes can satisfy.
fn roomy_settings(random: &mut Random, nodes: u32) -> Vec<u32> {
    let sets = random.between(2.min(nodes), 16.min(nodes));
    let shards = random.between(1, 16.min(nodes));
    let mut words = vec![nodes, sets, random.between(1, nodes / 2 + 1), shards];
    words.extend((0..nodes).map(|node| {
        if random.chance(70) {
            node % sets
        } else {
            random.between(0, sets - 1)
        }
    }));
    let most = (2 * nodes / shards).clamp(1, sets.min(4));
    for shard in 0..shards {
        let any = random.between(0, 3);
        let subgroup = random.pick(&[shard % 4, any, 2]);
        words.push(subgroup * 256 + random.between(1, most));
    }
    let wide = random.chance(generate::WIDE);
    generate::put_caps(random, wide, &mut words);
    words
}

/// One to four ascending view numbers.
fn view_numbers(random: &mut Random) -> Vec<u32> {
    let last = random.pick(&[4, 5, 9, 100, 4_000_000_000, u32::MAX - 1]);
    let count = random.between(1, 4);
    let mut numbers = vec![last];
    while numbers.len() < count as usize && numbers[0] > 1 {
        let before = numbers[0] - random.between(1, 2.min(numbers[0] - 1));
        numbers.insert(0, before);
    }
    numbers
}

/// Runs in some of the views.
fn longest_log(random: &mut Random, numbers: &[u32]) -> Vec<(u32, u32)> {
    let mut runs = Vec::new();
    for &number in numbers {
        if random.chance(60) {
            runs.push((number, random.pick(&[1, 2, 3, 5, 9, u32::MAX])));
        }
    }
    runs
}

fn era(random: &mut Random, settings: &Settings, logs: &[Vec<(u32, u32)>], number: u32) -> Era {
    let members = generate::members(random, settings);
    era_of(random, settings, logs, number, members)
}

/// A view with these members.
fn era_of(
    random: &mut Random,
    settings: &Settings,
    logs: &[Vec<(u32, u32)>],
    number: u32,
    members: u32,
) -> Era {
    let node = random.pick(&mask::nodes(members));
    let masks = generate::shard_masks(random, settings, members, node);
    let position = |random: &mut Random, log: &Vec<(u32, u32)>| {
        let mut shorter = shortened(random, &up_to(log, number));
        if random.chance(40) {
            shorter.pop();
        }
        shorter.last().copied().unwrap_or((0, 0))
    };
    let terminated = random.chance(35);
    Era {
        view: View {
            number,
            members,
            masks,
        },
        termination: terminated.then(|| logs.iter().map(|log| position(random, log)).collect()),
    }
}

/// The runs of a log in views up to `number`.
fn up_to(log: &[(u32, u32)], number: u32) -> Vec<(u32, u32)> {
    let runs = log.iter().copied();
    runs.filter(|&(view, _)| view <= number).collect()
}

/// The log up to some position, often all of it.
fn shortened(random: &mut Random, log: &[(u32, u32)]) -> Vec<(u32, u32)> {
    let mut runs = log.to_vec();
    if random.chance(30) {
        runs.truncate(random.below(runs.len() + 1));
    }
    if let Some((_, count)) = runs.last_mut() {
        if random.chance(30) {
            *count = random.between(1, *count);
        }
    }
    runs
}

/// Adds a run that the longest log may not have, or leaves one out.
fn other_run(random: &mut Random, runs: &mut Vec<(u32, u32)>, number: u32) {
    let view = number - random.between(0, 3.min(number - 1));
    let place = runs.partition_point(|&(other, _)| other < view);
    if runs.get(place).is_some_and(|&(other, _)| other == view) {
        runs.remove(place);
    }
    if random.chance(70) {
        runs.insert(place, (view, random.pick(&[1, 2, 4, 9, 10])));
    }
}

/// Makes a log one that was restored from a disk image: an older run is another
/// one, and the end stays.
fn restored(random: &mut Random, runs: &mut Vec<(u32, u32)>) {
    if runs.is_empty() {
        return;
    }
    let place = random.below(runs.len());
    let (view, count) = runs[place];
    let older = place + 1 < runs.len();
    match random.between(0, 4) {
        0 | 1 if older => runs[place].1 = count.saturating_add(1),
        2 if older => runs[place].1 = random.between(1, count),
        3 if older => drop(runs.remove(place)),
        _ => {
            let before = place.checked_sub(1).map_or(0, |place| runs[place].0);
            if before + 1 < view {
                runs.insert(place, (view - 1, random.pick(&[1, 2, 5])));
            }
        }
    }
}

/// Makes a log that goes on after a target that it does not have.
fn skip(random: &mut Random, runs: &mut Vec<(u32, u32)>, target: (u32, u32), number: u32) {
    if target.0 < number {
        runs.retain(|&(view, _)| view != target.0 && view != number);
        runs.push((number, random.pick(&[1, 9])));
    }
}

impl World {
    /// A valid report of a node, mostly of the last view that has it. There is
    /// none if no view has it.
    pub fn report(&self, random: &mut Random, node: u32) -> Option<Contents> {
        let mut has: Vec<&Era> = self.eras.iter().collect();
        has.retain(|era| mask::has(era.view.members, node));
        let last = has.last()?;
        let era = if random.chance(80) {
            last
        } else {
            random.pick(&has)
        };
        Some(self.report_in(random, node, era))
    }

    /// A valid report of a node and the view with this number.
    pub fn report_of(&self, random: &mut Random, node: u32, number: u32) -> Option<Contents> {
        let mut eras = self.eras.iter();
        let era = eras.find(|era| era.view.number == number)?;
        let member = mask::has(era.view.members, node);
        member.then(|| self.report_in(random, node, era))
    }

    /// The numbers of its views, ascending.
    pub fn numbers(&self) -> Vec<u32> {
        self.eras.iter().map(|era| era.view.number).collect()
    }

    /// The termination of the last view.
    pub fn last_termination(&self) -> Option<&Vec<(u32, u32)>> {
        self.eras.last()?.termination.as_ref()
    }

    /// A valid report of a member of a view.
    fn report_in(&self, random: &mut Random, node: u32, era: &Era) -> Contents {
        let number = era.view.number;
        let mut records = Vec::new();
        for (shard, &own) in (0..).zip(&era.view.masks) {
            records.push(Triple::new(MEMBERS, shard, own, 0));
        }
        if let (Some(positions), true) = (&era.termination, random.chance(60)) {
            for (shard, &(view, k)) in (0..).zip(positions) {
                records.push(Triple::new(TERMINATION, shard, view, k));
            }
        }
        for (shard, log) in (0..).zip(&self.logs) {
            let mut runs = shortened(random, &up_to(log, number));
            if random.chance(25) {
                other_run(random, &mut runs, number);
            }
            if random.chance(15) {
                restored(random, &mut runs);
            }
            if let (Some(positions), true) = (&era.termination, random.chance(8)) {
                skip(random, &mut runs, positions[shard as usize], number);
            }
            for (view, count) in runs {
                records.push(Triple::new(RUN, shard, view, count));
            }
        }
        records.truncate(reference::message::MOST_RECORDS - 1);
        Contents {
            node,
            view: number,
            members: era.view.members,
            records,
        }
    }

    /// A message that reports a node, now and then with a fault.
    pub fn message(&self, random: &mut Random, node: u32) -> Vec<u32> {
        let report = self.report(random, node);
        let mut report = match report {
            Some(report) => report,
            None => generate::contents(random, Form::Report, &self.settings),
        };
        if random.chance(9) {
            other_termination(&mut report);
        }
        if random.chance(4) {
            damage::head(random, &self.settings, &mut report);
        }
        if random.chance(3) {
            damage::place(random, Form::Report, &mut report);
        }
        if random.chance(11) {
            damage::contents(random, Form::Report, &self.settings, &mut report);
        }
        if random.chance(5) {
            damage::record(random, Form::Report, &self.settings, &mut report);
        }
        let mut words = generate::message(random, &report);
        if random.chance(2) {
            damage::next_index(random, &mut words);
        }
        if random.chance(1) {
            damage::length(random, &mut words);
        }
        words
    }
}

/// Makes the first position that is not (0, 0) another one.
pub fn other_termination(report: &mut Contents) {
    let position = |record: &&mut Triple| record.kind() == TERMINATION && record.word1 != 0;
    if let Some(record) = report.records.iter_mut().find(position) {
        record.word2 ^= if record.word2 == 1 { 3 } else { 1 };
    }
}
