//! Sends two characters, or four, as captions: `captions HI`.

use adv7194::{plan_captions, transactions, Captions, CAPTION_ROOM};

/// The board's address: the byte that starts a write.
const ADDRESS: u8 = 0x54;

/// Start, address, subaddress, data, stop. A board's own bus driver goes here;
/// this prints the bytes.
fn bus_write(subaddress: u8, data: &[u8]) {
    print!("{ADDRESS:02X} {subaddress:02X}");
    data.iter().for_each(|byte| print!(" {byte:02X}"));
    println!();
}

fn main() -> Result<(), Box<dyn std::error::Error>> {
    let words = std::env::args().nth(1).unwrap_or_default();
    let captions = match *words.as_bytes() {
        [a, b] => Captions::ordinary([a, b]),
        [a, b, c, d] => Captions {
            extended: Some([a, b]),
            ordinary: Some([c, d]),
        },
        _ => Captions::default(),
    };
    let mut bytes = [0; CAPTION_ROOM];
    let planned = plan_captions(&captions, ADDRESS.into(), &mut bytes)?;
    for transaction in transactions(&bytes[..planned.length])? {
        bus_write(transaction.subaddress(), transaction.data());
    }
    Ok(())
}
