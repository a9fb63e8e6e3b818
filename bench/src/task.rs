//! The task file: reading and checking it.

/// The byte for undefined.
pub const MARK: u8 = 255;

const CONTENTS: usize = 40;
const MOST_VARIABLES: usize = 64;
const MOST_MOVES: usize = 4096;
const HIGHEST_PRICE: u32 = 1_000_000_000;
const LONGEST_NAME: usize = 40;

/// Why a file is refused; each is looked for in the whole file before the next.
#[derive(Debug)]
pub enum Fault {
    Stub,
    Contents,
    Count,
    Position,
    Price,
    Name,
}

/// An accepted file: slices of it.
pub struct Task<'a> {
    pub values: &'a [u8],
    pub start: &'a [u8],
    pub goal: &'a [u8],
    moves: &'a [u8],
    names: &'a [u8],
}

pub struct Move<'a> {
    pub price: u32,
    pub condition: &'a [u8],
    pub effect: &'a [u8],
}

impl<'a> Task<'a> {
    pub fn read(file: &'a [u8]) -> Result<Self, Fault> {
        let [values, start, goal, moves, names] = bodies(file)?;
        let task = Task {
            values,
            start,
            goal,
            moves,
            names,
        };
        task.check_counts()?;
        task.check_rows()?;
        task.check_prices()?;
        task.check_names()?;
        Ok(task)
    }

    pub fn variables(&self) -> usize {
        self.values.len()
    }

    pub fn moves(&self) -> impl Iterator<Item = Move<'a>> {
        let v = self.variables();
        self.moves.chunks_exact(4 + 2 * v).map(move |m| {
            let (price, rows) = m.split_at(4);
            let (condition, effect) = rows.split_at(v);
            Move {
                price: number(price),
                condition,
                effect,
            }
        })
    }

    /// The names of the moves, in order.
    pub fn names(&self) -> impl Iterator<Item = &'a [u8]> {
        let mut rest = self.names;
        std::iter::from_fn(move || {
            let (name, after) = split_name(rest)?;
            rest = after;
            Some(name)
        })
    }

    fn check_counts(&self) -> Result<(), Fault> {
        let v = self.variables();
        let record = 4 + 2 * v;
        if (1..=MOST_VARIABLES).contains(&v)
            && self.start.len() == v
            && self.goal.len() == v
            && self.moves.len() % record == 0
            && self.moves.len() / record <= MOST_MOVES
        {
            Ok(())
        } else {
            Err(Fault::Count)
        }
    }

    fn check_rows(&self) -> Result<(), Fault> {
        let complete = |row: &[u8]| row.iter().zip(self.values).all(|(b, n)| b < n);
        let fits = |row: &[u8]| {
            row.iter()
                .zip(self.values)
                .all(|(&b, &n)| b == MARK || b < n)
        };
        if self.values.iter().all(|&n| n > 0)
            && complete(self.start)
            && fits(self.goal)
            && self.moves().all(|m| fits(m.condition) && fits(m.effect))
        {
            Ok(())
        } else {
            Err(Fault::Position)
        }
    }

    fn check_prices(&self) -> Result<(), Fault> {
        if self.moves().all(|m| m.price <= HIGHEST_PRICE) {
            Ok(())
        } else {
            Err(Fault::Price)
        }
    }

    fn check_names(&self) -> Result<(), Fault> {
        let mut rest = self.names;
        for _ in self.moves() {
            let (name, after) = split_name(rest).ok_or(Fault::Name)?;
            if name.is_empty()
                || name.len() > LONGEST_NAME
                || !name.iter().all(|b| (33..=126).contains(b))
            {
                return Err(Fault::Name);
            }
            rest = after;
        }
        if rest.is_empty() {
            Ok(())
        } else {
            Err(Fault::Name)
        }
    }
}

/// A number of 32 bits, low byte first.
fn number(bytes: &[u8]) -> u32 {
    u32::from_le_bytes([bytes[0], bytes[1], bytes[2], bytes[3]])
}

/// The first name of a list of names, and what follows it.
fn split_name(names: &[u8]) -> Option<(&[u8], &[u8])> {
    let (&length, rest) = names.split_first()?;
    let length = usize::from(length);
    if length > rest.len() {
        return None;
    }
    Some(rest.split_at(length))
}

/// The five bodies, which follow the contents without gaps, to the end of the file.
fn bodies(file: &[u8]) -> Result<[&[u8]; 5], Fault> {
    if file.len() < CONTENTS {
        return Err(Fault::Stub);
    }
    let mut bodies: [&[u8]; 5] = [&[]; 5];
    let mut end = CONTENTS;
    for (body, entry) in bodies.iter_mut().zip(file.chunks_exact(8)) {
        let place = number(&entry[..4]) as usize;
        let length = number(&entry[4..]) as usize;
        if place != end || length > file.len() - end {
            return Err(Fault::Contents);
        }
        end += length;
        *body = &file[place..end];
    }
    if end == file.len() {
        Ok(bodies)
    } else {
        Err(Fault::Contents)
    }
}
