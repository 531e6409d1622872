// Inputs for the comparison, the same in every run: machines of all sizes, some of them damaged.
use crate::plain::Machine;

// A small generator of numbers that look random, with a fixed beginning.
pub struct Numbers(u64);

impl Numbers {
    pub fn from(seed: u64) -> Numbers {
        Numbers(seed)
    }

    pub fn next(&mut self) -> u64 {
        self.0 = self.0.wrapping_add(0x9e37_79b9_7f4a_7c15);
        let mut mixed = self.0;
        mixed = (mixed ^ (mixed >> 30)).wrapping_mul(0xbf58_476d_1ce4_e5b9);
        mixed = (mixed ^ (mixed >> 27)).wrapping_mul(0x94d0_49bb_1331_11eb);
        mixed ^ (mixed >> 31)
    }

    pub fn below(&mut self, bound: usize) -> usize {
        (self.next() % bound as u64) as usize
    }

    pub fn one_in(&mut self, many: usize) -> bool {
        self.below(many) == 0
    }

    pub fn one_of<T: Copy>(&mut self, values: &[T]) -> T {
        values[self.below(values.len())]
    }
}

// How the outputs of a machine are chosen; few that differ make long separating words.
#[derive(Clone, Copy)]
pub enum Outputs {
    Two,
    Three,
    Large,
    Few,
    Constant,
}

fn output(numbers: &mut Numbers, outputs: Outputs) -> u64 {
    match outputs {
        Outputs::Two => numbers.next() % 2,
        Outputs::Three => numbers.next() % 3,
        Outputs::Large => numbers.one_of(&[0, 1, 0xffff_fffe, 0xffff_ffff]),
        Outputs::Few => u64::from(numbers.one_in(16)),
        Outputs::Constant => 7,
    }
}

pub fn machine(numbers: &mut Numbers, states: usize, keys: usize, outputs: Outputs) -> Machine {
    let moves = (0..states * keys)
        .map(|_| (numbers.below(states), output(numbers, outputs)))
        .collect();
    Machine { states, keys, moves }
}

// Key 0 leads on through all states, and only the last shows something else: the words that reach and that separate are long.
pub fn chain(numbers: &mut Numbers, states: usize, keys: usize) -> Machine {
    let mut made = machine(numbers, states, keys, Outputs::Constant);
    for state in 0..states {
        for key in 1..keys {
            made.moves[state * keys + key].0 = numbers.below(state + 1);
        }
        made.moves[state * keys].0 = (state + 1).min(states - 1);
    }
    made.moves[(states - 1) * keys].1 = 8;
    made
}

// The same machine with its states, all but the first, under other numbers.
fn renumbered(numbers: &mut Numbers, made: &Machine) -> Machine {
    let mut number: Vec<usize> = (0..made.states).collect();
    for state in (2..made.states).rev() {
        number.swap(state, 1 + numbers.below(state));
    }
    let mut moves = made.moves.clone();
    for state in 0..made.states {
        for key in 0..made.keys {
            let (to, output) = made.step(state, key);
            moves[number[state] * made.keys + key] = (number[to], output);
        }
    }
    Machine { moves, ..*made }
}

// Some states move as others do.
fn with_equivalent_states(numbers: &mut Numbers, made: &mut Machine) {
    for _ in 0..1 + numbers.below(3) {
        let (from, to) = (numbers.below(made.states), numbers.below(made.states));
        for key in 0..made.keys {
            made.moves[to * made.keys + key] = made.step(from, key);
        }
    }
}

pub fn any_machine(numbers: &mut Numbers) -> Machine {
    let (states, keys) = (1 + numbers.below(16), 1 + numbers.below(8));
    let outputs = numbers.one_of(&[
        Outputs::Two,
        Outputs::Three,
        Outputs::Large,
        Outputs::Few,
        Outputs::Few,
        Outputs::Constant,
    ]);
    let mut made = match numbers.below(4) {
        0 => chain(numbers, states, keys),
        _ => machine(numbers, states, keys, outputs),
    };
    if numbers.one_in(3) {
        with_equivalent_states(numbers, &mut made);
    }
    made
}

// A minimal machine, its states in any order.
pub fn any_minimal(numbers: &mut Numbers) -> Machine {
    let made = any_machine(numbers).minimal();
    renumbered(numbers, &made)
}

fn damage(numbers: &mut Numbers, row: &mut Vec<u64>) {
    let moves = (row.len() - 2) / 2;
    match numbers.below(7) {
        0 => row.truncate(numbers.below(row.len())),
        1 => row.truncate(row.len() - 1),
        2 => row[0] = numbers.one_of(&[0, 17, 18, 1 << 32, u64::MAX]),
        3 => row[1] = numbers.one_of(&[0, 9, 10, 1 << 32, u64::MAX]),
        4 => row[2 + 2 * numbers.below(moves)] = numbers.one_of(&[row[0], row[0] + 1, 1 << 32, u64::MAX]),
        5 => row[3 + 2 * numbers.below(moves)] = numbers.one_of(&[1 << 32, (1 << 32) + 1, u64::MAX]),
        _ => row[numbers.below(2)] = numbers.next() % 18,
    }
}

// The row of a machine, in one of eight cases damaged, in one of four with something behind it.
pub fn any_row(numbers: &mut Numbers, made: &Machine) -> Vec<u64> {
    let mut row = made.row();
    if numbers.one_in(8) {
        damage(numbers, &mut row);
        if numbers.one_in(4) && row.len() > 3 {
            damage(numbers, &mut row);
        }
    }
    if numbers.one_in(4) {
        let behind = 1 + numbers.below(4);
        row.extend((0..behind).map(|_| numbers.next()));
    }
    row
}

// How much room is lent where so much is needed.
pub fn any_room(numbers: &mut Numbers, need: usize) -> usize {
    match numbers.below(8) {
        0 | 1 => need,
        2 | 3 => need.saturating_sub(1),
        4 => need + 1,
        5 => need + numbers.below(20),
        6 => numbers.below(need + 1),
        _ => numbers.below(3),
    }
}
