//! A thousand simulated days with losses and kills at random.

mod simulation;

use simulation::end::Made;
use simulation::random::Random;
use simulation::world::{Plan, Summary, World};
use sukperind::peer::{Limits, Role, Settings, Timers};

const DAY: u64 = 86_400_000;
const RUNS: u64 = 20;
const DAYS: u64 = 50;

/// A plan drawn at random: idle and busy links, one entry and several, narrow and
/// wide windows, few SPIs and many.
fn plan(random: &mut Random) -> Plan {
    let timers = Timers {
        silence: random.pick(&[20_000, 60_000, 120_000]),
        child_age: random.pick(&[600_000, 3_600_000, 28_800_000]),
        association_age: random.pick(&[7_200_000, 86_400_000]),
        ..Timers::DEFAULT
    };
    let spi_limit = random.pick(&[300, 65_536]);
    let limits = Limits {
        octets: random.pick(&[u64::MAX, 1 << 40]),
        spis: spi_limit - 100,
        ..Limits::DEFAULT
    };
    let settings = |role| Settings {
        role,
        entries: (0..random_entries(spi_limit)).collect(),
        timers,
        limits,
    };
    let mut settings = [settings(Role::Begins), settings(Role::Waits)];
    if random.happens(500) {
        // More than there are: only the core's refusal tells that they end. Who waits
        // has to count, since the core doesn't tell what it declines.
        settings[0].limits.spis = spi_limit + 100;
    }
    let interval = random.pick(&[30_000, 60_000, 120_000]);
    // Up to a million packets a second in each direction.
    let rate = random.pick(&[0, 1, 100, 1_000]);
    let back = random.pick(&[0, 1, 100, 1_000]);
    Plan {
        settings,
        made: Made {
            spi_limit,
            window: random.pick(&[1, 4, 16]),
            extended: random.happens(300),
        },
        interval,
        burst: [rate * interval, back * interval],
        delay: (1, random.pick(&[2, 50, 300])),
        unrest: true,
    }
}

fn random_entries(spi_limit: u32) -> u32 {
    if spi_limit < 1_000 {
        2
    } else {
        4
    }
}

#[test]
fn a_thousand_days() {
    let mut total = Summary::default();
    // SEED=n runs that one alone.
    let one = std::env::var("SEED")
        .ok()
        .and_then(|seed| seed.parse().ok());
    for seed in one.map_or(1..=RUNS, |seed| seed..=seed) {
        let mut random = Random::new(seed);
        let plan = plan(&mut random);
        let mut world = World::new(plan, seed + 1_000);
        world.run_to(DAYS * DAY);
        let summary = world.finish();
        println!("run {seed}: {} events", summary.events);
        total.add(&summary);
    }
    println!("{} days in {RUNS} runs: {total:#?}", RUNS * DAYS);
    assert!(total.checked > 0 && total.kills > 0 && total.outages > 0);
}
