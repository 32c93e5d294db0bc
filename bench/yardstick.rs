//! An ordinary safe Rust interpreter of adjoint tables: the yardstick that the library's runs are timed against.
//! It is handed the ready table and trusts it; the library is handed the sheet and checks, analyses and writes the table first.

pub struct Stopped(pub usize);

/// Where each "if", "else" and "if on a turn" goes on to if its branch isn't taken or has ended.
fn jumps(rows: &[[u16; 4]]) -> Vec<usize> {
    let mut to = vec![0; rows.len()];
    let mut open = Vec::new();
    for (at, row) in rows.iter().enumerate() {
        match row[0] {
            7 | 15 => open.push(at),
            8 => {
                to[open.pop().expect("an if")] = at + 1;
                open.push(at);
            }
            9 => to[open.pop().expect("an else")] = at + 1,
            _ => {}
        }
    }
    to
}

fn finite(x: f64, row: usize) -> Result<f64, Stopped> {
    if x.is_finite() { Ok(x) } else { Err(Stopped(row)) }
}

/// A run of a table in doubles: the values at row 17, then each independent's adjoint.
pub fn run(table: &[u16], roles: &[u16], constants: &[u16], starts: &[f64], seeds: &[f64]) -> Result<Vec<f64>, Stopped> {
    let variables = roles.len();
    let rows = table[1..].as_chunks::<4>().0;
    let to = jumps(rows);
    let mut store = vec![0.0; 2 * variables + 2];
    store[..variables].copy_from_slice(starts);
    let mut result = vec![0.0; 2 * variables];
    let mut values: Vec<f64> = Vec::new();
    let mut turns: Vec<u16> = Vec::new();
    let mut repeats: Vec<(usize, u16)> = Vec::new();
    let mut at = 0;
    while at < rows.len() {
        let [kind, d, a, b] = rows[at];
        let (d, a, b) = (d as usize, a as usize, b as usize);
        let mut next = at + 1;
        match kind {
            1 => store[d] = store[a],
            2 => store[d] = f64::from(constants[a] as i16),
            3 => store[d] = finite(store[a] + store[b], at)?,
            4 => store[d] = finite(store[a] - store[b], at)?,
            5 => store[d] = finite(store[a] * store[b], at)?,
            6 => store[d] = -store[a],
            7 => {
                if !(store[a] < store[b]) {
                    next = to[at];
                }
            }
            8 => next = to[at],
            9 => {}
            10 => repeats.push((next, a as u16 - 1)),
            11 => {
                let (body, left) = repeats.last_mut().expect("a repeat");
                if *left == 0 {
                    repeats.pop();
                } else {
                    *left -= 1;
                    next = *body;
                }
            }
            12 => values.push(store[d]),
            13 => store[d] = values.pop().expect("a saved value"),
            14 => turns.push(a as u16),
            15 => {
                if turns.pop().expect("a saved turn") != 1 {
                    next = to[at];
                }
            }
            16 => store[d] = 0.0,
            17 => {
                result[..variables].copy_from_slice(&store[..variables]);
                for i in 0..variables {
                    store[variables + i] = if roles[i] & 2 != 0 { seeds[i] } else { 0.0 };
                }
            }
            18 => store[d] = finite(store[a] / store[b], at)?,
            _ => unreachable!("no kind of a table's"),
        }
        at = next;
    }
    for i in 0..variables {
        if roles[i] & 1 != 0 {
            result[variables + i] = store[variables + i];
        }
    }
    Ok(result)
}
