//! The planner's method in plain Rust, to measure the planner against: a task file on standard input,
//! a cheapest plan on standard output.

mod heap;
mod rows;
mod search;
mod task;
mod trie;

use search::{search, Ending};
use std::io::{self, Read, Write};
use task::Task;

const LONGEST_FILE: usize = 32_768;

fn answer(file: &[u8]) -> Vec<u8> {
    if file.len() > LONGEST_FILE {
        return b"too long\n".to_vec();
    }
    let Ok(task) = Task::read(file) else {
        return b"refused 7\n".to_vec();
    };
    let capacity = (4096 / task.variables()).min(1024);
    match search(&task, capacity) {
        Ending::NoPlan => b"no plan\n".to_vec(),
        Ending::OutOfSpace => b"out of space\n".to_vec(),
        Ending::Found(cost, plan) => {
            let names: Vec<&[u8]> = task.names().collect();
            let mut text = format!("cost {cost}\n").into_bytes();
            for step in plan {
                text.extend_from_slice(names[usize::from(step)]);
                text.push(b'\n');
            }
            text
        }
    }
}

fn main() -> io::Result<()> {
    let mut file = Vec::new();
    io::stdin()
        .lock()
        .take(LONGEST_FILE as u64 + 1)
        .read_to_end(&mut file)?;
    io::stdout().write_all(&answer(&file))
}
