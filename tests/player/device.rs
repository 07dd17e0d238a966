//! Devices: places, and wires between them.

use crate::random::Random;

/// The most places that a device may have.
pub const MOST_PLACES: u8 = 16;

/// A device, its wires in the order of their lines.
#[derive(Clone, Debug)]
pub struct Device {
    pub places: u8,
    pub wires: Vec<(u8, u8)>,
}

impl Device {
    /// Whether there is a wire between the places.
    pub fn joined(&self, a: u8, b: u8) -> bool {
        self.wires.contains(&(a, b)) || self.wires.contains(&(b, a))
    }

    /// Whether there is a way between the places.
    pub fn way(&self, from: u8, to: u8) -> bool {
        let mut reached = vec![from];
        let mut next = 0;
        while let Some(&place) = reached.get(next) {
            next += 1;
            for other in 0..self.places {
                if self.joined(place, other) && !reached.contains(&other) {
                    reached.push(other);
                }
            }
        }
        reached.contains(&to)
    }

    /// Whether there is a way from each place to each other.
    pub fn connected(&self) -> bool {
        (1..self.places).all(|place| self.way(0, place))
    }

    /// A random connected device of so many places, at least one.
    pub fn random(random: &mut Random, places: u8) -> Self {
        let line = |places: u8| {
            (1..places)
                .map(|place| (place - 1, place))
                .collect::<Vec<_>>()
        };
        let mut wires = match random.below(7) {
            0 => line(places),
            1 => {
                let mut ring = line(places);
                ring.push((places - 1, 0));
                ring.retain(|(a, b)| a != b);
                ring
            }
            2 => (1..places).map(|place| (0, place)).collect(),
            3 => grid(places, random.byte(2, 4)),
            4 => complete(places),
            _ => random_wires(random, places),
        };
        let names = random.different(places.into(), places);
        for (a, b) in &mut wires {
            *a = names[usize::from(*a)];
            *b = names[usize::from(*b)];
            if random.chance(1, 2) {
                std::mem::swap(a, b);
            }
        }
        random.shuffle(&mut wires);
        Self { places, wires }
    }

    /// The device's lines of a job.
    pub fn lines(&self) -> String {
        let joined = |(a, b): &(u8, u8)| format!("joined {a} {b}\n");
        let wires: String = self.wires.iter().map(joined).collect();
        format!("device {}\n{wires}", self.places)
    }
}

/// A wire between each two places.
pub fn complete(places: u8) -> Vec<(u8, u8)> {
    (0..places)
        .flat_map(|a| (a + 1..places).map(move |b| (a, b)))
        .collect()
}

/// A grid of so many columns, its last row perhaps shorter.
fn grid(places: u8, columns: u8) -> Vec<(u8, u8)> {
    let across = (1..places)
        .filter(|place| place % columns != 0)
        .map(|place| (place - 1, place));
    let down = (columns..places).map(|place| (place - columns, place));
    across.chain(down).collect()
}

/// A random tree and some wires more, some of them perhaps told twice.
fn random_wires(random: &mut Random, places: u8) -> Vec<(u8, u8)> {
    let mut wires: Vec<(u8, u8)> = (1..places)
        .map(|place| (random.byte(0, place - 1), place))
        .collect();
    for _ in 0..random.below(usize::from(places)) {
        let (a, b) = (random.byte(0, places - 1), random.byte(0, places - 1));
        if a != b {
            wires.push((a, b));
        }
    }
    wires
}
