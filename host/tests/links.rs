//! Links whose wire delivers: what is due when one end goes, and at replacements.

mod simulation;

use simulation::end::Made;
use simulation::world::{Plan, World};
use sukperind::peer::{Event, Limits, Role, Settings, Timers};

const SECOND: u64 = 1_000;
const MINUTE: u64 = 60 * SECOND;
const HOUR: u64 = 60 * MINUTE;

/// A link of two entries with the timers as they are by default, a packet each 100 ms
/// in both directions, and 10 ms from end to end.
fn link() -> Plan {
    let settings = |role| Settings {
        role,
        entries: vec![0, 1],
        timers: Timers::DEFAULT,
        limits: Limits::DEFAULT,
    };
    Plan {
        settings: [settings(Role::Begins), settings(Role::Waits)],
        made: Made {
            spi_limit: 65_536,
            window: 1,
            extended: true,
        },
        interval: 100,
        burst: [1, 1],
        delay: (10, 10),
        unrest: false,
    }
}

/// Runs until all entries are carried, and tells how long it took, in milliseconds.
fn until_up(world: &mut World, longest: u64) -> u64 {
    let begun = world.now;
    while !world.carries_all() {
        assert!(world.now < begun + longest, "up within {longest} ms");
        world.run_to(world.now + 1);
    }
    world.now - begun
}

#[test]
fn a_link_comes_up_at_once() {
    let mut world = World::new(link(), 1);
    // Two round trips for the first Child SA, and one for the second.
    assert_eq!(until_up(&mut world, SECOND), 60);
}

#[test]
fn up_again_within_ten_seconds_where_the_peer_forgot_all() {
    let mut times = Vec::new();
    for seed in 1..=50 {
        let mut world = World::new(link(), seed);
        world.run_to(MINUTE + seed * 137);
        world.kill(1);
        world.bring_up(1);
        times.push(until_up(&mut world, 10 * SECOND));
    }
    let (least, most) = (times.iter().min().unwrap(), times.iter().max().unwrap());
    println!("up again {least} to {most} ms after the peer forgot all");
    assert!(*least > 8 * SECOND, "not before the doubt");
}

#[test]
fn up_again_at_once_where_this_end_forgot_all() {
    let mut world = World::new(link(), 1);
    world.run_to(HOUR);
    world.kill(0);
    world.bring_up(0);
    assert!(until_up(&mut world, SECOND) <= 100);
}

#[test]
fn up_again_soon_after_an_outage_of_hours() {
    let mut world = World::new(link(), 1);
    world.run_to(HOUR);
    world.loss = 1_000;
    world.run_to(9 * HOUR);
    world.loss = 0;
    world.disturb();
    // At worst a whole backoff, since nothing tells that the wire is back.
    let took = until_up(&mut world, 5 * MINUTE + 47 * SECOND);
    println!("up again {took} ms after an outage of eight hours");
    world.run_to(10 * HOUR);
    let starts = world.finish().counts.starts;
    println!("{starts} starts in an outage of eight hours");
    assert!(starts < 100, "ever more seldom: {starts}");
}

#[test]
fn an_idle_link_is_probed_by_one_end() {
    let mut plan = link();
    plan.interval = 0;
    let mut world = World::new(plan, 1);
    world.run_to(HOUR);
    let probes = world.finish().counts.probes;
    println!("{probes} probes in an idle hour");
    assert!((800..=900).contains(&probes), "{probes} probes in an hour");
}

#[test]
fn a_busy_link_is_not_probed() {
    let mut world = World::new(link(), 1);
    world.run_to(HOUR);
    let counts = world.finish().counts;
    assert_eq!(counts.probes, 0);
    assert_eq!(counts.starts, 1);
}

/// A link that replaces its Child SAs each ten seconds and its IKE SAs each
/// minute, with a packet each 3 ms. Tells what was lost of what was sent.
fn lost_at_replacements(seed: u64, delay: (u64, u64), loss: u64) -> (u64, World) {
    let mut plan = link();
    plan.interval = 3;
    plan.delay = delay;
    for settings in &mut plan.settings {
        settings.timers.child_age = 10 * SECOND;
        settings.timers.association_age = MINUTE;
    }
    let mut world = World::new(plan, seed);
    world.run_to(SECOND);
    let before = world.summary.packets_sent - opened(&world);
    world.loss = loss;
    world.run_to(10 * MINUTE);
    world.loss = 0;
    world.run_to(10 * MINUTE + SECOND);
    // What is on its way now is as much as was then, or less by a few.
    let after = world.summary.packets_sent - opened(&world);
    let on_the_way = 4 * (delay.1 / 3 + 1);
    (
        after.saturating_sub(before).saturating_sub(on_the_way),
        world,
    )
}

fn opened(world: &World) -> u64 {
    let ends = world.ends.iter().flatten();
    ends.map(|end| end.counts.packets_opened).sum()
}

#[test]
fn no_packet_is_lost_at_a_replacement() {
    for seed in 1..=2 {
        let (lost, world) = lost_at_replacements(seed, (20, 20), 0);
        let sent = world.summary.packets_sent;
        let counts = world.finish().counts;
        println!(
            "{sent} packets, {} Child SAs, {} IKE SAs, {} waits of {} ms at most: {lost} lost",
            counts.children, counts.starts, counts.holds, counts.longest_hold
        );
        assert_eq!(lost, 0);
        // Not even one that has to be given once more, as the peer may not do that.
        assert_eq!(counts.unknown, 0);
        assert!(counts.children > 90 && counts.starts >= 10 && counts.holds > 90);
    }
}

#[test]
fn packets_before_the_answer_are_given_once_more() {
    let mut again = 0;
    let mut opened = 0;
    for seed in 1..=3 {
        // Reordering: what goes out after the answer comes before it.
        let (lost, world) = lost_at_replacements(seed, (1, 160), 0);
        let counts = world.finish().counts;
        println!(
            "{lost} lost, {} kept, {} opened then",
            counts.kept, counts.opened_again
        );
        assert_eq!(lost, 0);
        assert_eq!(counts.kept, counts.given_again + counts.forgotten);
        again += counts.given_again;
        opened += counts.opened_again;
    }
    assert!(again > 0 && opened > 0);
}

#[test]
fn an_end_that_leaves_deletes_its_association() {
    for place in 0..2 {
        let mut world = World::new(link(), 1);
        world.run_to(HOUR);
        let now = world.now;
        world.disturb();
        let end = world.ends[place].as_mut().unwrap();
        end.leaving = true;
        end.tell(now, Event::Leave);
        world.flush(place);
        world.run_to(HOUR + 30);
        assert!(world.ends[place].is_none(), "it stops when it is answered");
        let other = world.ends[1 - place].as_ref().unwrap();
        assert!(other.cores.iter().all(|core| core.pairs.is_empty()));
    }
}

#[test]
fn an_end_that_leaves_waits_two_seconds_at_most() {
    let mut world = World::new(link(), 1);
    world.run_to(HOUR);
    world.loss = 1_000;
    let now = world.now;
    world.ends[0].as_mut().unwrap().leaving = true;
    world.ends[0].as_mut().unwrap().tell(now, Event::Leave);
    world.flush(0);
    world.run_to(HOUR + 2 * SECOND - 1);
    assert!(world.ends[0].is_some());
    world.run_to(HOUR + 2 * SECOND);
    assert!(world.ends[0].is_none());
}

#[test]
fn a_new_configuration_is_taken_at_either_end() {
    for place in 0..2 {
        let mut world = World::new(link(), 1);
        world.run_to(HOUR);
        let now = world.now;
        world.disturb();
        let end = world.ends[place].as_mut().unwrap();
        end.anew_at = now + MINUTE;
        let settings = end.settings.clone();
        let anew = true;
        end.tell(now, Event::Configured { settings, anew });
        world.flush(place);
        world.run_to(HOUR + SECOND);
        assert!(world.carries_all());
        assert_eq!(world.ends[place].as_ref().unwrap().carrier, 1);
        world.run_to(HOUR + 10 * MINUTE);
        for end in world.ends.iter().flatten() {
            assert_eq!(end.cores.len(), 1, "the old gateway is ended");
            let pairs = end.cores[0].pairs.values();
            assert_eq!(pairs.filter(|pair| pair.live).count(), 2);
        }
    }
}

#[test]
fn a_change_of_timers_needs_no_new_association() {
    let mut world = World::new(link(), 1);
    world.run_to(HOUR);
    let now = world.now;
    let end = world.ends[0].as_mut().unwrap();
    let mut settings = end.settings.clone();
    settings.timers.child_age = 30 * MINUTE;
    let anew = false;
    end.tell(now, Event::Configured { settings, anew });
    world.flush(0);
    world.run_to(HOUR + SECOND);
    let counts = &world.ends[0].as_ref().unwrap().counts;
    assert_eq!((counts.starts, counts.gateways), (1, 1));
    assert_eq!(counts.children, 1 + 2, "both are older than that");
}

#[test]
fn a_link_that_both_ends_begin_works() {
    for seed in 1..=5 {
        let mut plan = link();
        plan.interval = 60 * SECOND;
        for settings in &mut plan.settings {
            settings.role = Role::Begins;
            settings.timers.silence = MINUTE;
            settings.timers.child_age = HOUR;
            settings.timers.association_age = 6 * HOUR;
        }
        plan.unrest = true;
        plan.delay = (1, 200);
        let mut world = World::new(plan, seed);
        world.run_to(20 * 24 * HOUR);
        assert!(world.finish().checked > 0);
    }
}

#[test]
fn gateways_take_over_where_spis_end() {
    let mut plan = link();
    plan.interval = 1_000;
    plan.made.spi_limit = 60;
    for (settings, spis) in plan.settings.iter_mut().zip([40, 40]) {
        settings.timers.child_age = MINUTE;
        settings.limits.spis = spis;
    }
    let mut world = World::new(plan.clone(), 1);
    world.run_to(24 * HOUR);
    assert!(world.carries_all());
    assert!(world.ends.iter().flatten().all(|end| end.cores.len() <= 2));
    let summary = world.finish();
    assert!(summary.counts.refused.is_empty());
    assert!(summary.counts.gateways > 50, "{}", summary.counts.gateways);
}

#[test]
fn gateways_take_over_where_the_core_says_that_spis_ended() {
    let mut plan = link();
    plan.interval = 1_000;
    plan.made.spi_limit = 60;
    for settings in &mut plan.settings {
        settings.timers.child_age = MINUTE;
        // Counting is off, so that only the refusal tells.
        settings.limits.spis = 1_000;
    }
    plan.settings[1].limits.spis = 55;
    let mut world = World::new(plan, 1);
    world.run_to(24 * HOUR);
    assert!(world.carries_all());
    let summary = world.finish();
    let refused = summary.counts.refused.get("SpisSpent");
    assert!(refused.is_some_and(|count| *count > 10), "{refused:?}");
}

#[test]
fn numbers_never_end() {
    // A million packets a second, from one end or the other, without ESN:
    // all would be spent in 72 minutes, and by age a Child SA is replaced in eight hours.
    for burst in [[1_000_000, 0], [0, 1_000_000]] {
        let mut plan = link();
        plan.interval = SECOND;
        plan.burst = burst;
        plan.made.extended = false;
        let mut world = World::new(plan, 1);
        world.run_to(24 * HOUR);
        let counts = world.finish().counts;
        assert!(counts.children > 40, "{}", counts.children);
        assert!(
            (740..760).contains(&counts.greatest_share),
            "{} thousandths",
            counts.greatest_share
        );
    }
}
