//! A board in static memory: build it, take one message, ask for a ride's dispatch permit.

use board::{Board, Memory, Message, Refusal};
use std::sync::Mutex;

static MEMORY: Mutex<Memory> = Mutex::new(Memory::new());

fn main() -> Result<(), Refusal> {
    let mut memory = MEMORY.lock().unwrap();
    let mut board = Board::build(memory.parts(), 200, 60, &[(0, 5), (3, 5), (17, 4)], 1)?;
    board.message(Message::grant(17, 5, 1_700_000_000))?;
    let permit = board.cover(1, 3)?.has_ride(5);
    println!("ride 5 under limits (1,3): {}", if permit { "permit" } else { "no permit" });
    Ok(())
}
