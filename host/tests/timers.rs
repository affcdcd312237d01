//! Each timer and each answer of the care of a peer, alone, with a fake clock.

use sukperind::peer::{
    AssociationName, ChildName, Event, Limits, NewChild, Order, Peer, Refusal, Role, Settings,
    Timers,
};

const HOUR: u64 = 3_600_000;

/// A peer that is cared for, and the serials of what the core makes.
struct Care {
    peer: Peer,
    next_ike: u32,
    next_child: u32,
}

fn settings(role: Role, entries: u32) -> Settings {
    Settings {
        role,
        entries: (0..entries).collect(),
        timers: Timers::DEFAULT,
        limits: Limits::DEFAULT,
    }
}

fn name(ike: u32) -> AssociationName {
    AssociationName { gateway: 0, ike }
}

fn child_name(child: u32) -> ChildName {
    ChildName { gateway: 0, child }
}

impl Care {
    fn new(settings: Settings) -> Care {
        Care {
            peer: Peer::new(settings, 0),
            next_ike: 0,
            next_child: 0,
        }
    }

    /// All commands that wait; `Start` is told to have gone out.
    fn orders(&mut self, now: u64) -> Vec<Order> {
        let mut orders = Vec::new();
        while let Some(order) = self.peer.next_order() {
            orders.push(order);
            if let Order::Start { gateway, .. } = order {
                self.next_ike += 1;
                let ike = self.next_ike;
                let association = AssociationName { gateway, ike };
                self.peer.take(now, Event::Begun { association });
            }
        }
        orders
    }

    /// What an event commands, but for secrets.
    fn tell(&mut self, now: u64, event: Event) -> Vec<Order> {
        self.peer.take(now, event);
        let mut orders = self.orders(now);
        orders.retain(|order| !matches!(order, Order::NewSecret { .. }));
        orders
    }

    /// Goes from moment to moment until something but a secret is commanded.
    fn next(&mut self) -> (u64, Vec<Order>) {
        loop {
            let moment = self.peer.next_moment().expect("something is due");
            let orders = self.tell(moment, Event::Moment);
            if !orders.is_empty() {
                return (moment, orders);
            }
        }
    }

    fn counted(&mut self, now: u64, ike: u32, entry: Option<u32>) -> Vec<Order> {
        let child = entry.map(|entry| self.new_child(entry));
        let association = name(ike);
        let closed = false;
        self.tell(
            now,
            Event::Counted {
                association,
                child,
                closed,
            },
        )
    }

    fn new_child(&mut self, entry: u32) -> NewChild {
        self.next_child += 1;
        NewChild {
            child: self.next_child,
            entry,
            extended: false,
        }
    }

    /// Something came by a Child SA, so that nothing is silent.
    fn opened(&mut self, now: u64, child: u32) -> Vec<Order> {
        let child = child_name(child);
        let (number, octets) = (1, 1);
        self.tell(
            now,
            Event::Opened {
                child,
                number,
                octets,
            },
        )
    }

    fn unanswered(&mut self, now: u64, ike: u32) -> Vec<Order> {
        let association = name(ike);
        self.tell(now, Event::Unanswered { association })
    }

    fn replied(&mut self, now: u64, ike: u32, entry: Option<u32>, gone: &[u32]) -> Vec<Order> {
        let child = entry.map(|entry| self.new_child(entry));
        self.tell(
            now,
            Event::Replied {
                association: name(ike),
                child,
                gone: gone.to_vec(),
                closed: false,
            },
        )
    }

    fn admitted(&mut self, now: u64, ike: u32, entry: u32) -> Vec<Order> {
        let child = Some(self.new_child(entry));
        let association = name(ike);
        self.tell(now, Event::Admitted { association, child })
    }
}

/// One that begins, with its first IKE SA and a Child SA of each entry.
fn up(settings: Settings) -> Care {
    let entries = settings.entries.len() as u32;
    let mut care = Care::new(settings);
    care.orders(0);
    for entry in 0..entries {
        let orders = care.counted(0, 1, Some(entry));
        assert_eq!(orders.len(), usize::from(entry + 1 < entries));
    }
    care
}

/// One that waits, with an IKE SA of the peer's.
fn waiting() -> Care {
    let mut care = Care::new(settings(Role::Waits, 1));
    care.orders(0);
    assert_eq!(care.admitted(0, 1, 0), []);
    care
}

fn start() -> Vec<Order> {
    let (gateway, entry) = (0, 0);
    vec![Order::Start { gateway, entry }]
}

fn ask(entry: u32) -> Vec<Order> {
    let association = name(1);
    vec![Order::Child { association, entry }]
}

#[test]
fn the_first_orders_open_a_gateway_and_begin() {
    let mut care = Care::new(settings(Role::Begins, 2));
    let gateway = 0;
    let mut expected = vec![Order::OpenGateway { gateway }, Order::CarryBy { gateway }];
    expected.extend(start());
    assert_eq!(care.orders(0), expected);
    let mut care = Care::new(settings(Role::Waits, 2));
    assert_eq!(care.orders(0), expected[..2]);
}

#[test]
fn starts_wait_twice_as_long_after_each_failure() {
    let mut care = Care::new(settings(Role::Begins, 1));
    care.orders(0);
    let mut now = 47_000;
    let mut waits = Vec::new();
    for ike in 1..=11 {
        assert_eq!(care.unanswered(now, ike), []);
        let (moment, orders) = care.next();
        assert_eq!(orders, start());
        waits.push((moment - now) / 1_000);
        now = moment + 47_000;
    }
    assert_eq!(waits, [1, 2, 4, 8, 16, 32, 64, 128, 256, 300, 300]);
}

#[test]
fn a_declined_start_waits_as_well() {
    let mut care = Care::new(settings(Role::Begins, 1));
    care.orders(0);
    let (child, closed) = (None, true);
    let association = name(1);
    let event = Event::Counted {
        association,
        child,
        closed,
    };
    assert_eq!(care.tell(10, event), []);
    assert_eq!(care.next(), (1_010, start()));
}

#[test]
fn a_lasting_association_ends_the_waiting() {
    let mut care = Care::new(settings(Role::Begins, 1));
    care.orders(0);
    for ike in 1..=5 {
        care.unanswered(47_000 * u64::from(ike), ike);
        care.next();
    }
    care.counted(400_000, 6, Some(0));
    assert_eq!(care.opened(429_999, 1), []);
    assert_eq!(care.opened(430_000, 1), []);
    assert_eq!(care.unanswered(500_000, 6), start(), "at once");
}

#[test]
fn an_association_that_ends_soon_is_a_failure() {
    let mut care = up(settings(Role::Begins, 1));
    let (association, child, gone, closed) = (name(1), None, vec![], true);
    let event = Event::Replied {
        association,
        child,
        gone,
        closed,
    };
    assert_eq!(care.tell(100, event), []);
    assert_eq!(care.next(), (1_100, start()));
}

#[test]
fn entries_are_asked_for_one_after_the_other() {
    let mut care = Care::new(settings(Role::Begins, 3));
    care.orders(0);
    assert_eq!(care.counted(1, 1, Some(0)), ask(1));
    assert_eq!(care.tell(2, Event::Moment), []);
    assert_eq!(care.counted(3, 1, Some(1)), ask(2));
    assert_eq!(care.counted(4, 1, Some(2)), []);
}

#[test]
fn a_declined_child_waits_twice_as_long_each_time() {
    let mut care = Care::new(settings(Role::Begins, 1));
    care.orders(0);
    assert_eq!(care.counted(0, 1, None), []);
    let mut waits = Vec::new();
    let mut now = 0;
    for _ in 0..11 {
        let (moment, orders) = loop {
            // Probes are answered.
            let (moment, orders) = care.next();
            if orders == ask(0) {
                break (moment, orders);
            }
            assert_eq!(care.counted(moment, 1, None), []);
        };
        assert_eq!(orders, ask(0));
        waits.push((moment - now) / 1_000);
        now = moment;
        assert_eq!(care.counted(now, 1, None), []);
    }
    assert_eq!(waits, [1, 2, 4, 8, 16, 32, 64, 128, 256, 300, 300]);
}

#[test]
fn a_child_is_replaced_by_age_and_deleted_five_seconds_later() {
    let mut care = up(settings(Role::Begins, 1));
    let age = Timers::DEFAULT.child_age;
    assert_eq!(care.opened(age - 1, 1), []);
    assert_eq!(care.tell(age, Event::Moment), ask(0));
    assert_eq!(care.counted(age + 50, 1, Some(0)), []);
    care.opened(age + 5_049, 2);
    let (association, child) = (name(1), 1);
    let delete = vec![Order::DeleteChild { association, child }];
    assert_eq!(care.next(), (age + 5_050, delete));
    assert_eq!(care.counted(age + 5_060, 1, None), []);
    assert_eq!(care.opened(2 * age + 49, 2), [], "the age counts anew");
    assert_eq!(care.opened(2 * age + 50, 2), ask(0));
}

#[test]
fn a_child_is_replaced_once_at_a_time() {
    let mut care = up(settings(Role::Begins, 1));
    let age = Timers::DEFAULT.child_age;
    care.opened(age - 1, 1);
    assert_eq!(care.tell(age, Event::Moment), ask(0));
    for after in 1..100 {
        assert_eq!(care.opened(age + after * 10, 1), []);
    }
}

#[test]
fn a_child_is_replaced_by_number() {
    let mut care = up(settings(Role::Begins, 1));
    let limit = Limits::DEFAULT.plain_number;
    let sealed = |number| {
        let (child, octets) = (child_name(1), 1);
        Event::Sealed {
            child,
            number,
            octets,
        }
    };
    assert_eq!(care.tell(1, sealed(limit - 1)), []);
    assert_eq!(care.tell(2, sealed(limit)), ask(0));
}

#[test]
fn a_child_is_replaced_by_the_peers_number() {
    let mut care = up(settings(Role::Begins, 1));
    let (child, number, octets) = (child_name(1), Limits::DEFAULT.plain_number, 1);
    let event = Event::Opened {
        child,
        number,
        octets,
    };
    assert_eq!(care.tell(1, event), ask(0));
}

#[test]
fn a_child_is_replaced_by_octets_of_both_directions() {
    let mut settings = settings(Role::Begins, 1);
    settings.limits.octets = 1_000;
    let mut care = up(settings);
    let (child, number) = (child_name(1), 1);
    let sealed = Event::Sealed {
        child,
        number,
        octets: 500,
    };
    assert_eq!(care.tell(1, sealed), []);
    let opened = |octets| Event::Opened {
        child,
        number,
        octets,
    };
    assert_eq!(care.tell(2, opened(499)), []);
    assert_eq!(care.tell(3, opened(1)), ask(0));
}

#[test]
fn a_child_without_numbers_is_replaced_at_once() {
    let mut care = up(settings(Role::Begins, 1));
    let child = child_name(1);
    assert_eq!(care.tell(1, Event::NumbersEnded { child }), ask(0));
}

#[test]
fn who_waits_replaces_a_child_an_eighth_later() {
    let mut care = waiting();
    let late = Timers::DEFAULT.child_age / 8 * 9;
    assert_eq!(care.opened(late - 1, 1), []);
    assert_eq!(care.tell(late, Event::Moment), ask(0));
    // And deletes the one before.
    assert_eq!(care.counted(late + 10, 1, Some(0)), []);
    care.opened(late + 5_009, 2);
    let (association, child) = (name(1), 1);
    assert_eq!(care.next().1, [Order::DeleteChild { association, child }]);
}

#[test]
fn who_waits_begins_nothing() {
    let mut care = waiting();
    assert_eq!(
        care.next().1,
        [Order::Probe {
            association: name(1)
        }]
    );
    assert_eq!(care.unanswered(60_000, 1), []);
    for minute in 2..100 {
        assert_eq!(care.tell(minute * 60_000, Event::Moment), []);
    }
}

#[test]
fn a_child_that_the_peer_deletes_is_asked_for_again() {
    let mut care = up(settings(Role::Begins, 1));
    care.opened(HOUR, 1);
    assert_eq!(care.replied(HOUR, 1, None, &[1]), ask(0));
    // One that goes at once waits.
    assert_eq!(care.counted(HOUR + 10, 1, Some(0)), []);
    assert_eq!(care.replied(HOUR + 20, 1, None, &[2]), []);
    assert_eq!(care.next(), (HOUR + 1_020, ask(0)));
    // And longer each time, though it is made each time.
    let mut now = HOUR + 1_020;
    let mut waits = Vec::new();
    for child in 3..=8 {
        assert_eq!(care.counted(now, 1, Some(0)), []);
        assert_eq!(care.replied(now, 1, None, &[child]), []);
        let (moment, orders) = loop {
            let (moment, orders) = care.next();
            if orders == ask(0) {
                break (moment, orders);
            }
            assert_eq!(care.counted(moment, 1, None), []);
        };
        assert_eq!(orders, ask(0));
        waits.push((moment - now) / 1_000);
        now = moment;
    }
    assert_eq!(waits, [2, 4, 8, 16, 32, 64]);
    // A Child SA that lasts ends the waiting.
    assert_eq!(care.counted(now, 1, Some(0)), []);
    care.opened(now + 30_000, 9);
    assert_eq!(care.replied(now + 30_000, 1, None, &[9]), ask(0));
}

#[test]
fn a_replaced_child_stays_where_the_new_one_goes() {
    let mut care = up(settings(Role::Begins, 1));
    let age = Timers::DEFAULT.child_age;
    care.opened(age - 1, 1);
    assert_eq!(care.tell(age, Event::Moment), ask(0));
    assert_eq!(care.counted(age + 10, 1, Some(0)), []);
    assert_eq!(care.replied(age + 20, 1, None, &[2]), []);
    for second in 1..8 {
        care.opened(age + second * 100, 1);
    }
    assert_eq!(care.next(), (age + 1_020, ask(0)), "nothing is deleted");
}

#[test]
fn an_association_whose_child_is_not_replaced_is_replaced() {
    let mut care = up(settings(Role::Begins, 1));
    let age = Timers::DEFAULT.child_age;
    care.opened(age - 1, 1);
    assert_eq!(care.tell(age, Event::Moment), ask(0));
    assert_eq!(care.counted(age + 1, 1, None), []);
    assert_eq!(care.next(), (age + 1_001, ask(0)));
    assert_eq!(care.counted(age + 1_001, 1, None), []);
    assert_eq!(care.next(), (age + 3_001, ask(0)));
    assert_eq!(care.counted(age + 3_001, 1, None), start());
}

#[test]
fn an_association_is_replaced_by_age_and_deleted_five_seconds_later() {
    let mut care = up(settings(Role::Begins, 2));
    let age = Timers::DEFAULT.association_age;
    let mut own = settings(Role::Begins, 2);
    own.timers.child_age = 10 * age;
    let anew = false;
    let event = Event::Configured {
        settings: own,
        anew,
    };
    assert_eq!(care.tell(1, event), []);
    assert_eq!(care.opened(age - 1, 1), []);
    assert_eq!(care.tell(age, Event::Moment), start());
    let association = name(2);
    let entry = 1;
    let second = vec![Order::Child { association, entry }];
    assert_eq!(care.counted(age + 10, 2, Some(0)), second);
    assert_eq!(care.counted(age + 20, 2, Some(1)), []);
    care.opened(age + 4_900, 1);
    care.opened(age + 4_900, 3);
    let delete = vec![Order::DeleteIke {
        association: name(1),
    }];
    assert_eq!(care.next(), (age + 5_020, delete));
}

#[test]
fn what_an_old_association_is_about_to_carry_counts_too() {
    let mut care = Care::new(settings(Role::Begins, 2));
    care.orders(0);
    assert_eq!(care.counted(0, 1, Some(0)), ask(1));
    assert_eq!(care.next(), (5_000, start()));
    let association = name(2);
    let entry = 1;
    let orders = [Order::Child { association, entry }];
    assert_eq!(care.counted(5_010, 2, Some(0)), orders);
    // The old one gets its second Child SA when the new one has carried the first for
    // longer than the overlap.
    let orders = care.counted(10_015, 1, Some(1));
    let delete = Order::DeleteIke {
        association: name(1),
    };
    assert!(!orders.contains(&delete), "{orders:?}");
}

#[test]
fn an_old_association_is_not_waited_with_for_ever() {
    let mut care = up(settings(Role::Begins, 2));
    let age = Timers::DEFAULT.association_age;
    let mut own = settings(Role::Begins, 2);
    own.timers.child_age = 10 * age;
    own.timers.silence = 10 * age;
    let anew = false;
    let event = Event::Configured {
        settings: own,
        anew,
    };
    care.tell(1, event);
    assert_eq!(care.next(), (age, start()));
    care.counted(age, 2, Some(0));
    // The second entry is declined again and again.
    let mut now = age;
    loop {
        care.counted(now, 2, None);
        let (moment, orders) = care.next();
        now = moment;
        if orders
            == [Order::DeleteIke {
                association: name(1),
            }]
        {
            break;
        }
        assert!(now < age + 65_000);
    }
    assert_eq!(now, age + 65_000);
}

#[test]
fn a_replaced_association_stays_where_the_new_one_goes() {
    let mut care = up(settings(Role::Begins, 1));
    care.opened(HOUR, 1);
    assert_eq!(
        care.next().1,
        [Order::Probe {
            association: name(1)
        }]
    );
    assert_eq!(care.next().1, start());
    let now = HOUR + 10_000;
    assert_eq!(care.counted(now, 2, Some(0)), []);
    // The old one answers after all, and the new one is closed.
    assert_eq!(care.counted(now + 1, 1, None), []);
    let (child, gone, closed) = (None, vec![], true);
    let association = name(2);
    let event = Event::Replied {
        association,
        child,
        gone,
        closed,
    };
    assert_eq!(care.tell(now + 2, event), []);
    for tenth in 0..200 {
        let orders = care.opened(now + tenth * 100, 1);
        assert_eq!(orders, [], "the old one is not deleted");
    }
}

#[test]
fn a_silent_peer_is_probed() {
    let mut care = up(settings(Role::Begins, 1));
    care.opened(1_000, 1);
    let probe = vec![Order::Probe {
        association: name(1),
    }];
    assert_eq!(care.next(), (5_000, probe.clone()));
    assert_eq!(care.counted(5_020, 1, None), []);
    assert_eq!(care.next(), (9_020, probe));
}

#[test]
fn repeats_and_requests_of_the_peer_break_the_silence() {
    let mut care = up(settings(Role::Begins, 1));
    let association = name(1);
    assert_eq!(care.tell(3_000, Event::Repeated { association }), []);
    assert_eq!(care.replied(6_000, 1, None, &[]), []);
    assert_eq!(care.next().0, 10_000);
}

#[test]
fn another_association_is_begun_five_seconds_after_an_unanswered_probe() {
    let mut care = up(settings(Role::Begins, 1));
    assert_eq!(care.next().0, 4_000);
    assert_eq!(care.next(), (9_000, start()));
    // The old one stays until it is closed or the new one carries.
    assert_eq!(care.counted(9_050, 2, Some(0)), []);
    assert_eq!(care.opened(50_999, 2), []);
    assert_eq!(care.unanswered(51_000, 1), []);
}

#[test]
fn what_comes_puts_off_the_doubt() {
    let mut care = up(settings(Role::Begins, 1));
    assert_eq!(care.next().0, 4_000);
    assert_eq!(care.opened(8_000, 1), []);
    assert_eq!(care.next(), (13_000, start()));
}

#[test]
fn an_answer_ends_the_doubt() {
    let mut care = up(settings(Role::Begins, 1));
    assert_eq!(care.next().0, 4_000);
    assert_eq!(care.counted(8_999, 1, None), []);
    assert_eq!(
        care.next().1,
        [Order::Probe {
            association: name(1)
        }]
    );
}

#[test]
fn secrets_are_renewed_each_three_minutes() {
    let mut care = Care::new(settings(Role::Waits, 1));
    care.orders(0);
    let gateway = 0;
    for round in 1..=5 {
        assert_eq!(care.peer.next_moment(), Some(round * 180_000));
        care.peer.take(round * 180_000, Event::Moment);
        assert_eq!(care.orders(round * 180_000), [Order::NewSecret { gateway }]);
    }
}

#[test]
fn packets_wait_for_what_comes_by_the_new_child() {
    let mut care = waiting();
    let entry = 0;
    assert_eq!(
        care.replied(1_000, 1, Some(0), &[]),
        [Order::Hold { entry }]
    );
    assert_eq!(care.opened(1_010, 1), [], "the old one tells nothing");
    assert_eq!(care.opened(1_020, 2), [Order::Release { entry }]);
    assert_eq!(care.opened(1_030, 2), []);
}

#[test]
fn packets_wait_for_the_peers_next_request() {
    let mut care = waiting();
    let entry = 0;
    assert_eq!(
        care.replied(1_000, 1, Some(0), &[]),
        [Order::Hold { entry }]
    );
    assert_eq!(
        care.replied(1_030, 1, None, &[1]),
        [Order::Release { entry }]
    );
}

#[test]
fn packets_wait_a_tenth_of_a_second_at_most() {
    let mut care = waiting();
    let entry = 0;
    assert_eq!(
        care.replied(1_000, 1, Some(0), &[]),
        [Order::Hold { entry }]
    );
    assert_eq!(care.tell(1_099, Event::Moment), []);
    assert_eq!(care.next(), (1_100, vec![Order::Release { entry }]));
}

#[test]
fn packets_wait_at_another_association_too() {
    let mut care = waiting();
    let entry = 0;
    assert_eq!(care.admitted(1_000, 2, 0), [Order::Hold { entry }]);
    // It goes: nothing is to be waited for.
    assert_eq!(care.unanswered(1_001, 2), [Order::Release { entry }]);
}

#[test]
fn nothing_waits_where_nothing_went_out_before() {
    let mut care = Care::new(settings(Role::Waits, 2));
    care.orders(0);
    assert_eq!(care.admitted(0, 1, 0), []);
    assert_eq!(care.replied(10, 1, Some(1), &[]), [], "another flow");
}

#[test]
fn packets_are_given_once_more_after_the_answer() {
    let mut care = Care::new(settings(Role::Begins, 1));
    care.orders(0);
    let unknown = |packet| Event::UnknownSpi { packet };
    assert_eq!(care.tell(1, unknown(1)), [Order::Keep { packet: 1 }]);
    assert_eq!(care.tell(2, unknown(2)), [Order::Keep { packet: 2 }]);
    let again = [1, 2].map(|packet| Order::GiveAgain { packet });
    assert_eq!(care.counted(3, 1, Some(0)), again);
    assert_eq!(care.tell(4, unknown(3)), [], "no child is asked for");
}

#[test]
fn a_packet_is_kept_once() {
    let mut care = Care::new(settings(Role::Begins, 2));
    care.orders(0);
    let unknown = |packet| Event::UnknownSpi { packet };
    assert_eq!(care.tell(1, unknown(7)), [Order::Keep { packet: 7 }]);
    let orders = care.counted(3, 1, Some(0));
    assert!(orders.contains(&Order::GiveAgain { packet: 7 }));
    // Another Child SA is asked for, but this packet had its turn.
    assert_eq!(care.tell(4, unknown(7)), []);
}

#[test]
fn packets_are_forgotten_where_the_child_is_declined() {
    let mut care = Care::new(settings(Role::Begins, 1));
    care.orders(0);
    let packet = 1;
    assert_eq!(
        care.tell(1, Event::UnknownSpi { packet }),
        [Order::Keep { packet }]
    );
    assert_eq!(care.counted(2, 1, None), [Order::Forget { packet }]);
}

#[test]
fn few_packets_are_kept() {
    let mut care = Care::new(settings(Role::Begins, 1));
    care.orders(0);
    let kept = (1..=1_000).filter(|packet| {
        let packet = *packet;
        !care.tell(1, Event::UnknownSpi { packet }).is_empty()
    });
    assert_eq!(kept.count(), 64);
}

#[test]
fn another_gateway_takes_over_where_spis_end() {
    let mut own = settings(Role::Begins, 1);
    own.limits.spis = 3;
    let mut care = up(own);
    let child = child_name(1);
    assert_eq!(care.tell(1, Event::NumbersEnded { child }), ask(0));
    assert_eq!(care.counted(2, 1, Some(0)), []);
    care.opened(5_001, 2);
    assert!(matches!(care.next().1[..], [Order::DeleteChild { .. }]));
    care.counted(5_100, 1, None);
    let child = child_name(2);
    // The third SPI is the last.
    let (gateway, entry) = (1, 0);
    assert_eq!(care.tell(6_000, Event::NumbersEnded { child }), ask(0));
    let open = [
        Order::OpenGateway { gateway },
        Order::Start { gateway, entry },
    ];
    assert_eq!(care.counted(6_010, 1, Some(0)), open);
    // It carries as soon as it has what the old one has.
    let association = AssociationName { gateway, ike: 2 };
    let (child, closed) = (Some(care.new_child(0)), false);
    let event = Event::Counted {
        association,
        child,
        closed,
    };
    assert_eq!(care.tell(6_030, event), [Order::CarryBy { gateway }]);
}

#[test]
fn an_empty_gateway_ends_a_minute_later() {
    let mut care = up(settings(Role::Begins, 1));
    let (own, anew) = (settings(Role::Begins, 1), true);
    let event = Event::Configured {
        settings: own,
        anew,
    };
    let (gateway, entry) = (1, 0);
    let probe = Order::Probe {
        association: name(1),
    };
    let expected = [
        Order::OpenGateway { gateway },
        Order::CarryBy { gateway },
        probe,
        Order::Start { gateway, entry },
    ];
    assert_eq!(care.tell(HOUR, event), expected);
    let closed = true;
    let (association, child) = (name(1), None);
    let event = Event::Counted {
        association,
        child,
        closed,
    };
    care.tell(HOUR + 100, event);
    let gateway = 0;
    loop {
        let (moment, orders) = care.next();
        if orders.contains(&Order::EndGateway { gateway }) {
            assert_eq!(moment, HOUR + 60_100);
            break;
        }
    }
}

#[test]
fn a_new_configuration_of_one_that_waits_deletes_the_old_association() {
    let mut care = waiting();
    let (own, anew) = (settings(Role::Waits, 1), true);
    let event = Event::Configured {
        settings: own,
        anew,
    };
    let gateway = 1;
    let association = name(1);
    let expected = [
        Order::OpenGateway { gateway },
        Order::CarryBy { gateway },
        Order::DeleteIke { association },
    ];
    assert_eq!(care.tell(1_000, event), expected);
}

#[test]
fn an_association_that_the_peer_began_before_a_new_configuration_is_deleted() {
    let mut care = Care::new(settings(Role::Waits, 1));
    care.orders(0);
    let (own, anew) = (settings(Role::Waits, 1), true);
    let event = Event::Configured {
        settings: own,
        anew,
    };
    let gateway = 1;
    let expected = [Order::OpenGateway { gateway }, Order::CarryBy { gateway }];
    assert_eq!(care.tell(1_000, event), expected);
    // Its first request came before, to the gateway of the old configuration.
    let orders = care.admitted(1_020, 1, 0);
    let association = name(1);
    assert!(
        orders.contains(&Order::DeleteIke { association }),
        "{orders:?}"
    );
    // What comes to the new gateway stays.
    let association = AssociationName { gateway, ike: 1 };
    let child = Some(care.new_child(0));
    let orders = care.tell(1_040, Event::Admitted { association, child });
    let ends = |order: &Order| matches!(order, Order::DeleteIke { .. });
    assert!(!orders.iter().any(ends), "{orders:?}");
}

#[test]
fn a_new_configuration_gives_up_the_start_under_way() {
    let mut care = Care::new(settings(Role::Begins, 1));
    care.orders(0);
    let (own, anew) = (settings(Role::Begins, 1), true);
    let event = Event::Configured {
        settings: own,
        anew,
    };
    let (gateway, entry) = (1, 0);
    let expected = [
        Order::OpenGateway { gateway },
        Order::CarryBy { gateway },
        Order::Start { gateway, entry },
    ];
    assert_eq!(care.tell(100, event), expected);
    // The old one is established all the same: away with it.
    let association = name(1);
    assert_eq!(
        care.counted(200, 1, Some(0)),
        [Order::DeleteIke { association }]
    );
}

#[test]
fn who_leaves_deletes_and_stops_when_it_is_answered() {
    let mut care = up(settings(Role::Begins, 1));
    let association = name(1);
    let delete = vec![Order::DeleteIke { association }];
    assert_eq!(care.tell(1_000, Event::Leave), delete);
    let (child, closed) = (None, true);
    let event = Event::Counted {
        association,
        child,
        closed,
    };
    assert_eq!(care.tell(1_020, event), [Order::Stop]);
    assert!(care.peer.is_stopped());
    assert_eq!(care.peer.next_moment(), None);
}

#[test]
fn who_leaves_stops_after_two_seconds() {
    let mut care = up(settings(Role::Begins, 1));
    care.tell(1_000, Event::Leave);
    assert_eq!(care.next(), (3_000, vec![Order::Stop]));
}

#[test]
fn who_leaves_waits_for_the_request_under_way() {
    let mut care = up(settings(Role::Begins, 1));
    assert_eq!(care.next().0, 4_000); // a probe
    assert_eq!(care.tell(4_010, Event::Leave), []);
    let association = name(1);
    let delete = vec![Order::DeleteIke { association }];
    assert_eq!(care.counted(4_500, 1, None), delete);
}

#[test]
fn who_leaves_with_nothing_stops_at_once() {
    let mut care = Care::new(settings(Role::Waits, 1));
    care.orders(0);
    assert_eq!(care.tell(1, Event::Leave), [Order::Stop]);
}

fn refused(order: Order, refusal: Refusal) -> Event {
    Event::Refused { order, refusal }
}

#[test]
fn an_entry_that_does_not_protect_is_asked_for_no_more() {
    let mut care = Care::new(settings(Role::Begins, 2));
    care.orders(0);
    assert_eq!(care.counted(1, 1, Some(0)), ask(1));
    let order = ask(1)[0];
    assert_eq!(care.tell(1, refused(order, Refusal::Unprotected)), []);
    care.opened(HOUR, 1);
    assert_eq!(care.opened(HOUR + 1_000, 1), []);
}

#[test]
fn a_refusal_that_passes_is_waited_for() {
    for refusal in [
        Refusal::Busy,
        Refusal::WrongPhase,
        Refusal::Full,
        Refusal::Memory,
    ] {
        let mut care = Care::new(settings(Role::Begins, 2));
        care.orders(0);
        assert_eq!(care.counted(1, 1, Some(0)), ask(1));
        assert_eq!(care.tell(1, refused(ask(1)[0], refusal)), []);
        assert_eq!(care.next(), (1_001, ask(1)));
    }
}

#[test]
fn a_start_that_is_refused_waits() {
    for refusal in [Refusal::Full, Refusal::BadFresh, Refusal::Memory] {
        let mut care = Care::new(settings(Role::Begins, 1));
        while care.peer.next_order().is_some() {}
        assert_eq!(care.tell(0, refused(start()[0], refusal)), []);
        assert_eq!(care.next(), (1_000, start()));
    }
}

#[test]
fn a_start_without_spis_opens_another_gateway() {
    let mut care = Care::new(settings(Role::Begins, 1));
    while care.peer.next_order().is_some() {}
    let (gateway, entry) = (1, 0);
    let orders = care.tell(0, refused(start()[0], Refusal::SpisSpent));
    assert!(orders.contains(&Order::OpenGateway { gateway }));
    assert!(orders.contains(&Order::Start { gateway, entry }));
}

#[test]
fn an_association_without_numbers_is_replaced() {
    let mut care = Care::new(settings(Role::Begins, 2));
    care.orders(0);
    assert_eq!(care.counted(1, 1, Some(0)), ask(1));
    assert_eq!(
        care.tell(1, refused(ask(1)[0], Refusal::NumbersSpent)),
        start()
    );
}

#[test]
fn an_association_that_the_core_does_not_know_is_gone() {
    let mut care = up(settings(Role::Begins, 1));
    care.opened(HOUR, 1);
    let (_, orders) = care.next();
    assert_eq!(
        orders,
        [Order::Probe {
            association: name(1)
        }]
    );
    let now = HOUR + 4_000;
    assert_eq!(
        care.tell(now, refused(orders[0], Refusal::Unknown)),
        start()
    );
}

#[test]
fn time_does_not_go_back() {
    let mut care = up(settings(Role::Begins, 1));
    care.opened(5_000, 1);
    assert_eq!(care.opened(1, 1), []);
    assert_eq!(care.next().0, 9_000);
}
