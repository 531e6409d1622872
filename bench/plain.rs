// A plain implementation of the rules, with vectors, queues and sets.
use std::collections::{HashSet, VecDeque};

pub type Word = Vec<u8>;

#[derive(Clone, Copy, Debug, PartialEq, Eq)]
pub struct Refusal {
    pub number: u64,
    pub place: u64,
}

#[derive(Clone, Copy, Debug, PartialEq, Eq)]
pub enum Verdict {
    Passed,
    Failed {
        test: u64,
        key: u64,
        shown: u64,
        expected: u64,
    },
}

fn refuse<T>(number: u64, place: u64) -> Result<T, Refusal> {
    Err(Refusal { number, place })
}

pub struct Machine {
    pub states: usize,
    pub keys: usize,
    // For each state and key where it leads and what it shows.
    pub moves: Vec<(usize, u64)>,
}

impl Machine {
    pub fn read(row: &[u64]) -> Result<Machine, Refusal> {
        let length = row.len() as u64;
        if length < 2 {
            return refuse(1, length);
        }
        if !(1..=16).contains(&row[0]) {
            return refuse(1, row[0]);
        }
        if !(1..=8).contains(&row[1]) {
            return refuse(1, row[1]);
        }
        let (states, keys) = (row[0] as usize, row[1] as usize);
        let Some(moves) = row.get(2..2 + 2 * states * keys) else {
            return refuse(1, length);
        };
        for (number, pair) in moves.chunks(2).enumerate() {
            if pair[0] >= row[0] || pair[1] >= 1 << 32 {
                return refuse(2, number as u64);
            }
        }
        let moves = moves.chunks(2).map(|pair| (pair[0] as usize, pair[1])).collect();
        Ok(Machine { states, keys, moves })
    }

    pub fn row(&self) -> Vec<u64> {
        let mut row = vec![self.states as u64, self.keys as u64];
        row.extend(self.moves.iter().flat_map(|&(to, output)| [to as u64, output]));
        row
    }

    pub fn step(&self, state: usize, key: usize) -> (usize, u64) {
        self.moves[state * self.keys + key]
    }

    // The first word in order on which two states show different rows: a search through pairs of states.
    fn separating_word(&self, s: usize, t: usize) -> Option<Word> {
        let mut seen = HashSet::from([(s, t)]);
        let mut queue = VecDeque::from([(s, t, Word::new())]);
        while let Some((s, t, word)) = queue.pop_front() {
            for key in 0..self.keys {
                let longer = [&word[..], &[key as u8]].concat();
                let ((a, shown), (b, other)) = (self.step(s, key), self.step(t, key));
                if shown != other {
                    return Some(longer);
                }
                if seen.insert((a, b)) {
                    queue.push_back((a, b, longer));
                }
            }
        }
        None
    }

    // For each state the first word in order that reaches it.
    fn access_words(&self) -> Vec<Option<Word>> {
        let mut words = vec![None; self.states];
        words[0] = Some(Word::new());
        let mut queue = VecDeque::from([0]);
        while let Some(state) = queue.pop_front() {
            for key in 0..self.keys {
                let to = self.step(state, key).0;
                if words[to].is_none() {
                    let mut word = words[state].clone().unwrap_or_default();
                    word.push(key as u8);
                    words[to] = Some(word);
                    queue.push_back(to);
                }
            }
        }
        words
    }

    // The smallest state that cannot be reached or is equivalent to a smaller one.
    pub fn redundant(&self) -> Option<usize> {
        let access = self.access_words();
        (0..self.states).find(|&s| access[s].is_none() || (0..s).any(|t| self.separating_word(t, s).is_none()))
    }

    pub fn minimal(&self) -> Machine {
        let class: Vec<usize> = (0..self.states)
            .map(|s| (0..s).find(|&t| self.separating_word(t, s).is_none()).unwrap_or(s))
            .collect();
        let mut found = vec![0];
        let mut moves = Vec::new();
        let mut next = 0;
        while next < found.len() {
            for key in 0..self.keys {
                let (to, output) = self.step(found[next], key);
                let place = found.iter().position(|&c| c == class[to]).unwrap_or_else(|| {
                    found.push(class[to]);
                    found.len() - 1
                });
                moves.push((place, output));
            }
            next += 1;
        }
        Machine {
            states: found.len(),
            keys: self.keys,
            moves,
        }
    }

    pub fn separating(&self) -> Vec<Word> {
        if self.states == 1 {
            return vec![Word::new()];
        }
        let mut words = Vec::new();
        for s in 0..self.states {
            for t in 0..s {
                let word = self.separating_word(t, s).unwrap_or_default();
                if !words.contains(&word) {
                    words.push(word);
                }
            }
        }
        words
    }

    // Every word of at most so many keys, in order.
    fn words_up_to(&self, most: usize) -> Vec<Word> {
        let mut words = vec![Word::new()];
        let mut last = words.clone();
        for _ in 0..most {
            let longer = |word: &Word| {
                (0..self.keys as u8)
                    .map(|key| [&word[..], &[key]].concat())
                    .collect::<Vec<_>>()
            };
            last = last.iter().flat_map(longer).collect();
            words.extend_from_slice(&last);
        }
        words
    }

    // The words that tests begin with: the access words, and each with one key behind.
    fn fronts(&self) -> Vec<Word> {
        let access: Vec<Word> = self.access_words().into_iter().flatten().collect();
        let mut fronts = access.clone();
        for word in &access {
            fronts.extend((0..self.keys as u8).map(|key| [&word[..], &[key]].concat()));
        }
        fronts
    }

    // The tests of a minimal machine, each once where it first comes up: a set tells which came up before.
    pub fn tests(&self, extra: usize) -> Vec<Word> {
        let (between, separating) = (self.words_up_to(extra), self.separating());
        let mut seen: HashSet<Word> = HashSet::new();
        let mut tests = Vec::new();
        for front in &self.fronts() {
            for middle in &between {
                for end in &separating {
                    let test = [&front[..], &middle[..], &end[..]].concat();
                    if !seen.contains(&test) {
                        seen.insert(test.clone());
                        tests.push(test);
                    }
                }
            }
        }
        tests
    }

    // What the machine shows on a word.
    pub fn show(&self, word: &[u8]) -> Vec<u64> {
        let mut state = 0;
        let mut shown = Vec::with_capacity(word.len());
        for &key in word {
            let (to, output) = self.step(state, key as usize);
            shown.push(output);
            state = to;
        }
        shown
    }
}

fn write_machine(machine: &Machine, out: &mut [u64]) -> Result<u64, Refusal> {
    let row = machine.row();
    let Some(front) = out.get_mut(..row.len()) else {
        return refuse(8, row.len() as u64);
    };
    front.copy_from_slice(&row);
    Ok(machine.states as u64)
}

pub fn minimize(row: &[u64], out: &mut [u64]) -> Result<u64, Refusal> {
    write_machine(&Machine::read(row)?.minimal(), out)
}

// The machine of a row, if there are tests for it.
pub fn testable(row: &[u64], extra: u64) -> Result<Machine, Refusal> {
    let machine = Machine::read(row)?;
    if let Some(state) = machine.redundant() {
        return refuse(3, state as u64);
    }
    if extra > 3 {
        return refuse(4, extra);
    }
    Ok(machine)
}

pub fn room_for(tests: &[Word]) -> usize {
    1 + tests.iter().map(|test| 1 + test.len()).sum::<usize>()
}

pub fn write_tests(row: &[u64], extra: u64, out: &mut [u64]) -> Result<u64, Refusal> {
    let tests = testable(row, extra)?.tests(extra as usize);
    let need = room_for(&tests);
    if out.len() < need {
        return refuse(5, (need as u64).min(1 << 32));
    }
    out[0] = tests.len() as u64;
    let mut at = 1;
    for test in &tests {
        out[at] = test.len() as u64;
        for (place, &key) in out[at + 1..].iter_mut().zip(test) {
            *place = u64::from(key);
        }
        at += 1 + test.len();
    }
    Ok(tests.len() as u64)
}

// The same with room taken for granted: one word is built over and over, only new tests are copied, and each is written at once.
pub fn write_tests_thriftily(row: &[u64], extra: u64, out: &mut [u64]) -> Result<u64, Refusal> {
    let machine = testable(row, extra)?;
    let (between, separating) = (machine.words_up_to(extra as usize), machine.separating());
    let mut seen: HashSet<Word> = HashSet::new();
    let mut test = Word::new();
    let mut at = 1;
    for front in &machine.fronts() {
        for middle in &between {
            for end in &separating {
                test.clear();
                test.extend_from_slice(front);
                test.extend_from_slice(middle);
                test.extend_from_slice(end);
                if seen.contains(&test) {
                    continue;
                }
                seen.insert(test.clone());
                out[at] = test.len() as u64;
                for (place, &key) in out[at + 1..].iter_mut().zip(&test) {
                    *place = u64::from(key);
                }
                at += 1 + test.len();
            }
        }
    }
    out[0] = seen.len() as u64;
    Ok(out[0])
}

pub fn survivor(row: &[u64], longest: u64, out: &mut [u64]) -> Result<u64, Refusal> {
    let machine = Machine::read(row)?;
    let (own, keys) = (machine.states, machine.keys);
    let states = (u128::from(longest) + 1) * own as u128;
    if states > 4096 {
        return refuse(7, states.min(1 << 32) as u64);
    }
    let longest = longest as usize;
    let mut moves = Vec::new();
    for pressed in 0..=longest {
        for state in 0..own {
            for key in 0..keys {
                let (to, output) = machine.step(state, key);
                let wrong = pressed == longest && key == 0;
                let layer = (pressed + 1).min(longest);
                moves.push((layer * own + to, if wrong { (output + 1) % (1 << 32) } else { output }));
            }
        }
    }
    write_machine(
        &Machine {
            states: states as usize,
            keys,
            moves,
        },
        out,
    )
}

pub fn judge(row: &[u64], extra: u64, shown: &[u64]) -> Result<Verdict, Refusal> {
    let machine = testable(row, extra)?;
    judge_tests(&machine, &machine.tests(extra as usize), shown)
}

pub fn judge_tests(machine: &Machine, tests: &[Word], shown: &[u64]) -> Result<Verdict, Refusal> {
    let mut verdict = Verdict::Passed;
    let mut rest = shown;
    for (number, test) in tests.iter().enumerate() {
        if rest.len() < test.len() {
            return refuse(6, number as u64);
        }
        let (part, behind) = rest.split_at(test.len());
        rest = behind;
        if verdict != Verdict::Passed {
            continue;
        }
        let mut state = 0;
        for (key, (&pressed, &shown)) in test.iter().zip(part).enumerate() {
            let (to, expected) = machine.step(state, pressed as usize);
            if shown != expected {
                verdict = Verdict::Failed {
                    test: number as u64,
                    key: key as u64,
                    shown,
                    expected,
                };
                break;
            }
            state = to;
        }
    }
    if !rest.is_empty() {
        return refuse(6, tests.len() as u64);
    }
    Ok(verdict)
}
