//! Plans the house setting for the image on standard input, and sends the plan.

use adv7194::{plan, transactions, Board, Settings, NO_LIMIT, PLAN_ROOM};
use std::io::Read;

/// The board's address: the byte that starts a write.
const ADDRESS: u8 = 0x54;
/// The most data bytes in one transaction. A bus that others wait for takes fewer.
const LIMIT: u32 = NO_LIMIT;

/// Start, address, subaddress, data, stop. A board's own bus driver goes here;
/// this prints the bytes.
fn bus_write(subaddress: u8, data: &[u8]) {
    print!("{ADDRESS:02X} {subaddress:02X}");
    data.iter().for_each(|byte| print!(" {byte:02X}"));
    println!();
}

fn main() -> Result<(), Box<dyn std::error::Error>> {
    let mut image = Vec::new();
    std::io::stdin().read_to_end(&mut image)?;
    let board = Board::try_from(image.as_slice())?;
    let mut bytes = [0; PLAN_ROOM];
    let planned = plan(
        &board,
        &Settings::house(),
        ADDRESS.into(),
        LIMIT,
        &mut bytes,
    )?;
    for transaction in transactions(&bytes[..planned.length])? {
        bus_write(transaction.subaddress(), transaction.data());
    }
    Ok(())
}
