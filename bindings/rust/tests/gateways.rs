//! Two gateways, brought up against each other in memory.

use std::net::Ipv4Addr;
use sukperin::{
    room_for, Action, Config, End, Entry, Error, Fresh, Gateway, Identity, Output, Phase, Place,
    Range, Record, Role,
};

// Randomness comes of a counter, so that each run is the same: never do this outside a test.
struct Chance(u8);

impl Chance {
    fn fresh(&mut self) -> Fresh {
        self.0 += 1;
        let seed = self.0;
        Fresh::from_octets(&std::array::from_fn(|index| {
            seed.wrapping_mul(31).wrapping_add(index as u8)
        }))
    }
}

const ADDRESS: [Ipv4Addr; 2] = [Ipv4Addr::new(192, 0, 2, 1), Ipv4Addr::new(192, 0, 2, 2)];
const NAMES: [&str; 2] = ["a.example", "b.example"];

fn end_of(index: usize, secret: &[u8]) -> End<'_> {
    End {
        identity: Identity::Name(NAMES[index]),
        address: ADDRESS[index],
        secret,
    }
}

fn net(octet: u8) -> Range {
    Range::v4_prefix(Ipv4Addr::new(10, octet, 0, 0), 24).unwrap()
}

fn policy(index: usize) -> [Entry; 2] {
    let (own, peer) = (net(index as u8), net(1 - index as u8));
    [Entry::protect(own, peer), Entry::bypass(own, net(9))]
}

fn config(index: usize) -> Config<'static> {
    Config::new(
        end_of(index, b"secret"),
        end_of(1 - index, b"secret"),
        &[7; 32],
    )
}

fn open(index: usize) -> Gateway {
    Gateway::new(&config(index), &policy(index)).unwrap()
}

struct World {
    a: Gateway,
    b: Gateway,
    chance: Chance,
}

impl World {
    fn new() -> World {
        World {
            a: open(0),
            b: open(1),
            chance: Chance(0),
        }
    }

    fn give_b(&mut self, message: &[u8]) -> Output<'static> {
        self.b
            .ike(ADDRESS[0], message, self.chance.fresh())
            .unwrap()
    }

    fn give_a(&mut self, message: &[u8]) -> Output<'static> {
        self.a
            .ike(ADDRESS[1], message, self.chance.fresh())
            .unwrap()
    }

    // Carries a request of A's to B, and the answers on, until one is counted.
    fn carry(&mut self, request: Output<'static>) -> Output<'static> {
        let mut output = request;
        loop {
            let answer = self.give_b(output.messages()[0]);
            assert!(matches!(answer, Output::Reply { .. }), "{answer:?}");
            output = self.give_a(answer.messages()[0]);
            if !matches!(output, Output::Request { .. }) {
                return output;
            }
        }
    }

    fn up() -> World {
        let mut world = World::new();
        world.greet();
        world
    }

    fn greet(&mut self) {
        let request = self.a.start(None, 0, self.chance.fresh()).unwrap();
        let made = Output::Counted {
            ike: 1,
            child: Some(1),
            closed: None,
        };
        assert_eq!(self.carry(request), made);
    }
}

// An IPv4 packet of 20 octets from 10.FROM.0.1 to 10.TO.0.1.
fn packet(from: u8, to: u8) -> [u8; 20] {
    [
        0x45, 0, 0, 20, 0, 0, 0, 0, 64, 1, 0, 0, 10, from, 0, 1, 10, to, 0, 1,
    ]
}

fn number(output: Output<'_>) -> Option<u8> {
    output.reason().map(|reason| reason.number())
}

#[test]
fn a_packet_goes_through_once() {
    let mut world = World::up();
    let inner = packet(0, 1);
    let mut room = [0; room_for(20)];
    let sealed = world.a.outward(&inner, &mut room).unwrap();
    let Output::Sealed {
        number: 1, octets, ..
    } = sealed
    else {
        panic!("{sealed:?}");
    };
    let mut damaged = octets.to_vec();
    damaged[20] ^= 1;
    assert_eq!(number(world.b.esp(&damaged).unwrap()), Some(18));
    let up = Output::Up {
        child: 1,
        number: 1,
        packet: &inner,
    };
    assert_eq!(world.b.esp(octets), Ok(up));
    assert_eq!(world.a.children().unwrap()[0].sent, 1);
    assert_eq!(world.b.children().unwrap()[0].taken, 1);
    assert_eq!(number(world.b.esp(octets).unwrap()), Some(16));
}

#[test]
fn the_policy_decides() {
    let mut world = World::up();
    let mut room = [0; room_for(20)];
    let passing = packet(0, 9);
    assert_eq!(
        world.a.outward(&passing, &mut room),
        Ok(Output::Clear { packet: &passing })
    );
    assert_eq!(
        world.a.outward(&packet(0, 8), &mut room),
        Ok(Output::Discarded)
    );
    assert_eq!(world.b.inward(&packet(0, 1)), Ok(Output::Discarded));
    assert_eq!(number(world.b.inward(&passing[..19]).unwrap()), Some(21));
    assert_eq!(world.a.outward(&passing, &mut [0; 48]), Err(Error::Room));
}

// Packets one behind the other, with their places.
#[derive(Default)]
struct List {
    octets: Vec<u8>,
    places: Vec<Place>,
}

impl List {
    fn add(&mut self, packet: &[u8]) {
        let start = self.octets.len();
        self.octets.extend_from_slice(packet);
        self.places.push(Place::from(start..self.octets.len()));
    }

    fn packet(&self, index: usize) -> &[u8] {
        let Place { offset, length } = self.places[index];
        &self.octets[offset as usize..][..length as usize]
    }

    fn records(&self) -> Vec<Record> {
        vec![Record::default(); self.places.len()]
    }
}

// Of 150 packets, some in the clear, discarded and damaged.
fn list_outward() -> List {
    let mut list = List::default();
    for index in 0..150 {
        let to = match index % 6 {
            3 => 9,
            4 => 8,
            _ => 1,
        };
        let mut whole = packet(0, to).to_vec();
        whole[3] += index % 50;
        whole.extend(0..index % 50);
        whole.truncate(whole.len() - usize::from(index % 6 == 5));
        list.add(&whole);
    }
    list
}

#[test]
fn lists_are_as_single_calls() {
    // Made of the same octets, so what the one answers its twin does.
    let (mut world, mut twin) = (World::up(), World::up());
    let out = list_outward();
    let mut room = vec![0; out.octets.len() + out.places.len() * room_for(0)];
    let mut records = out.records();
    let told = world
        .a
        .outward_all(&out.octets, &out.places, &mut room, &mut records);
    assert_eq!(told, Ok(()));
    let (mut list, mut end, mut kinds) = (List::default(), 0, [0; 4]);
    for (index, record) in records.iter().enumerate() {
        let mut single = [0; 128];
        let output = record.output(out.places[index], &out.octets, &room);
        assert_eq!(output, twin.a.outward(out.packet(index), &mut single));
        match output.unwrap() {
            Output::Sealed { octets, .. } => {
                assert_eq!(octets.as_ptr(), room[end..].as_ptr());
                end += octets.len();
                kinds[0] += 1;
                let mut came = octets.to_vec();
                match index % 8 {
                    1 => came[20] ^= 1,
                    2 => came[0] ^= 1,
                    3 => came.truncate(20),
                    6 => list.add(&came),
                    _ => {}
                }
                list.add(&came);
            }
            Output::Clear { .. } => kinds[1] += 1,
            Output::Discarded => kinds[2] += 1,
            Output::Dropped { .. } => kinds[3] += 1,
            other => panic!("{other:?}"),
        }
    }
    assert_eq!(kinds, [75, 25, 25, 25]);

    let mut records = list.records();
    let told = world.b.esp_all(&list.octets, &list.places, &mut records);
    assert_eq!(told, Ok(()));
    let mut numbers = Vec::new();
    for (index, record) in records.iter().enumerate() {
        let output = record.output(list.places[index], &list.octets, &[]);
        assert_eq!(output, twin.b.esp(list.packet(index)));
        numbers.extend(number(output.unwrap()));
    }
    for wanted in [14, 16, 18, 28] {
        assert!(numbers.contains(&wanted), "{numbers:?}");
    }
    assert_eq!(world.b.children(), twin.b.children());
}

#[test]
fn packets_of_a_list_that_are_refused_alone() {
    let mut world = World::up();
    let mut list = List::default();
    list.add(&packet(0, 1));
    list.places.push(Place::from(1..21));
    list.add(&packet(0, 1));
    list.add(&packet(0, 1));
    list.places[1].length = u64::MAX;
    let (octets, places) = (&list.octets, &list.places);
    let mut room = [0; 48 + room_for(20) - 1];
    let mut records = list.records();
    let told = world.a.outward_all(octets, places, &mut room, &mut []);
    assert_eq!(told, Err(Error::Room));
    let told = world.a.esp_all(octets, places, &mut records[..3]);
    assert_eq!(told, Err(Error::Room));
    assert_eq!(world.a.children().unwrap()[0].sent, 0);
    let unused = Record::default().output(places[0], octets, &room);
    assert_eq!(unused, Err(Error::Unknown(0)));
    let told = world.a.outward_all(octets, places, &mut room, &mut records);
    assert_eq!(told, Ok(()));
    let output = |index: usize| records[index].output(places[index], octets, &room);
    assert!(matches!(output(0), Ok(Output::Sealed { number: 1, .. })));
    assert_eq!(output(1), Err(Error::Place));
    assert_eq!(output(2), Err(Error::Room));
    assert_eq!(output(3), Err(Error::Room));
    let told = world.b.esp_all(octets, places, &mut records);
    assert_eq!(told, Ok(()));
    let refused = records[1].output(places[1], octets, &[]);
    assert_eq!(refused, Err(Error::Place));
    assert_eq!(world.b.esp_all(&[], &[], &mut []), Ok(()));
}

#[test]
fn a_request_that_comes_again_is_answered_again() {
    let mut world = World::up();
    let request = world.a.probe(1, world.chance.fresh()).unwrap();
    let Output::Reply { octets, .. } = world.give_b(request.messages()[0]) else {
        panic!("no reply");
    };
    let again = Output::Repeat {
        octets: octets.clone(),
    };
    assert_eq!(world.give_b(request.messages()[0]), again);
    assert!(matches!(
        world.give_a(&octets),
        Output::Counted { ike: 1, .. }
    ));
    assert_eq!(number(world.give_a(&octets)), Some(31));
}

#[test]
fn the_tables_tell_what_was_made() {
    let mut world = World::up();
    let children = world.a.children().unwrap();
    assert_eq!(children.len(), 1);
    assert_eq!(
        (children[0].serial, children[0].ike, children[0].live),
        (1, 1, true)
    );
    assert_eq!(children[0].locals[0].addresses, net(0));
    assert_eq!(children[0].remotes[0].addresses, net(1));
    assert_eq!(children[0].remotes[0].ports, (0, 65535));
    let associations = world.b.associations().unwrap();
    assert_eq!(associations.len(), 1);
    assert_eq!(
        (associations[0].role, associations[0].phase),
        (Role::Responder, Phase::Established)
    );
}

#[test]
fn keys_are_told_by_who_was_made_so() {
    let mut world = World::up();
    assert_eq!(world.a.keys(1), Err(Error::Nothing));
    world.a = Gateway::telling_keys(&config(0), &policy(0)).unwrap();
    world.b = Gateway::telling_keys(&config(1), &policy(1)).unwrap();
    assert_eq!(world.a.keys(1), Err(Error::Nothing));
    world.greet();
    let keys = world.a.keys(1).unwrap();
    assert_eq!(world.b.keys(1).as_ref(), Ok(&keys));
    assert_ne!(keys.sk_ei, keys.sk_er);
    assert_eq!(format!("{keys:?}"), "Keys { .. }");
    assert_eq!(world.a.keys(2), Err(Error::Nothing));
}

#[test]
fn children_and_associations_are_deleted() {
    let mut world = World::up();
    let further = world.a.start(Some(1), 0, world.chance.fresh()).unwrap();
    assert!(matches!(
        world.carry(further),
        Output::Counted { child: Some(2), .. }
    ));
    let order = world.a.delete_child(1, world.chance.fresh()).unwrap();
    assert!(!world.a.children().unwrap()[0].live);
    world.carry(order);
    assert_eq!(world.b.children().unwrap()[0].serial, 2);
    let order = world.a.delete_ike(1, world.chance.fresh()).unwrap();
    assert!(matches!(
        world.carry(order),
        Output::Counted {
            closed: Some(1),
            ..
        }
    ));
    assert_eq!(world.b.children(), Ok(Vec::new()));
}

#[test]
fn time_brings_requests_again_and_an_end() {
    let mut world = World::new();
    assert_eq!(world.a.next_moment(), Ok(None));
    world.a.start(None, 0, world.chance.fresh()).unwrap();
    assert_eq!(world.a.next_moment(), Ok(Some(1000)));
    let mut again = 0;
    while let Some(moment) = world.a.next_moment().unwrap() {
        let Output::Ticked { requests, closed } = world.a.tick(moment).unwrap() else {
            panic!("no moment");
        };
        again += requests.len();
        if !closed.is_empty() {
            assert_eq!((moment, closed), (47_000, vec![1]));
            break;
        }
    }
    assert_eq!(again, 5);
}

#[test]
fn another_secret_gives_no_child() {
    let mut world = World::new();
    let config = Config::new(end_of(1, b"secret"), end_of(0, b"another"), &[7; 32]);
    world.b = Gateway::new(&config, &policy(1)).unwrap();
    let request = world.a.start(None, 0, world.chance.fresh()).unwrap();
    assert!(matches!(
        world.carry(request),
        Output::Counted {
            child: None,
            closed: Some(1),
            ..
        }
    ));
}

#[test]
fn what_cannot_be_used_is_refused() {
    let mut config = Config::new(end_of(0, b"secret"), end_of(1, b"secret"), &[7; 32]);
    config.window = 17;
    assert_eq!(Gateway::new(&config, &[]).err(), Some(Error::Configuration));
    config.window = 16;
    config.first_spi = 255;
    assert_eq!(Gateway::new(&config, &[]).err(), Some(Error::Spi));
    config.first_spi = 256;
    let mut entry = policy(0)[0].clone();
    entry.action = Action::Discard;
    entry.remote_ports = (2, 1);
    assert_eq!(Gateway::new(&config, &[entry]).err(), Some(Error::Policy));
    assert!(Gateway::new(&config, &[]).is_ok());
}

#[test]
fn orders_that_cannot_be_carried_out() {
    let mut world = World::new();
    let mut order = |ike, entry| number(world.a.start(ike, entry, world.chance.fresh()).unwrap());
    assert_eq!(order(None, 1), Some(23));
    assert_eq!(order(Some(9), 0), Some(28));
    assert_eq!(world.a.secret(&[1; 32]), Ok(Output::Done));
}
