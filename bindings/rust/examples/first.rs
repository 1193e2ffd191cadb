//! A shadow window that is open for writes alone: the write reaches the DRAM behind it, the read nobody, and PAM2 says
//! why.

use board_440fx::{Board, Error, Event, Width};

fn main() -> Result<(), Error> {
    let mut board = Board::builder().memory_mib(8).rom(&[0; 65536]).open()?;
    board.out_u32(0xCF8, 0x8000_0058)?; // registers 58h to 5Bh of the host bridge
    board.out_u8(0xCFF, 0x20)?; // 5Bh is PAM2: bit 5 opens CC000h to CFFFFh for writes
    for event in [Event::write(0xCC000, Width::Byte, 2), Event::read(0xCC000, Width::Byte)] {
        let answer = board.step(&event)?;
        println!("{event} = {}", answer.reply);
        if let Some(denial) = answer.denied_by() {
            println!("denied by {denial:#}");
        }
    }
    Ok(())
}
