//! What changed with an answer, for a monitor that passes it on.

use crate::{Answer, Now, Reset};

const LINES: u8 = 16;

fn has(lines: u16, line: u8) -> bool {
    lines >> line & 1 == 1
}

/// What a monitor passes on after a step, by the answers one after another: levels of lines to another interrupt
/// controller, the byte that COM1 sent to a terminal, a reset to the processor, a new map to its slots.
///
/// It holds what was seen last, and calls nothing: [`Watch::see`] tells what is new in an answer. It asks the board
/// nothing, so that no step needs a second call.
///
/// ```
/// use board_440fx::{Board, Watch};
///
/// let mut board = Board::builder().rom(&[0; 65536]).open()?;
/// let mut watch = Watch::of(&board.now()?);
/// board.out_u8(0x43, 0x34)?; // counter 0: mode 2, both bytes
/// board.out_u8(0x40, 4)?;
/// board.out_u8(0x40, 0)?;
/// let seen = watch.see(&board.pulse(9)?); // one that loads, and two periods of four
/// assert_eq!(seen.rose, 1);
/// assert_eq!(seen.levels().collect::<Vec<_>>(), [(0, false), (0, true)]);
/// # Ok::<(), board_440fx::Error>(())
/// ```
#[derive(Clone, Copy, Debug, PartialEq, Eq, Hash)]
pub struct Watch {
    version: u32,
    lines: u16,
}

impl Watch {
    /// One that has seen what stands now: of a board that was opened or loaded.
    pub fn of(now: &Now) -> Watch {
        Watch { version: now.version, lines: now.lines }
    }

    /// What an answer brings after those that were seen.
    pub fn see(&mut self, answer: &Answer) -> Seen {
        let before = std::mem::replace(self, Watch { version: answer.version, lines: answer.lines });
        Seen {
            interrupt: answer.interrupt,
            before: before.lines,
            lines: answer.lines,
            rose: answer.rose | answer.lines & !before.lines,
            sent: answer.sent,
            reset: answer.reset,
            map_changed: answer.version != before.version,
        }
    }
}

/// What an answer brought: see [`Watch`].
#[derive(Clone, Copy, Debug, PartialEq, Eq, Hash)]
#[non_exhaustive]
pub struct Seen {
    /// Whether INT of the board's own pair of 8259A is asserted.
    pub interrupt: bool,
    /// The levels of the lines before, as they were seen last.
    pub before: u16,
    /// The levels of the lines now.
    pub lines: u16,
    /// The lines that rose since, those also that have fallen again.
    pub rose: u16,
    /// The byte that COM1 sent.
    pub sent: Option<u8>,
    /// The reset that the step made.
    pub reset: Option<Reset>,
    /// Whether the map may be another.
    pub map_changed: bool,
}

impl Seen {
    /// The lines that rose, by their numbers.
    pub fn risen(&self) -> impl Iterator<Item = u8> {
        let rose = self.rose;
        (0..LINES).filter(move |&line| has(rose, line))
    }

    /// The levels that another interrupt controller is told, in this order, as `KVM_IRQ_LINE` takes them: those of the
    /// lines that moved. Of one that rose also its 1, and before that a 0 where it was at 1.
    pub fn levels(&self) -> impl Iterator<Item = (u8, bool)> {
        let Seen { before, lines, rose, .. } = *self;
        (0..LINES).flat_map(move |line| {
            let (was, is, has_risen) = (has(before, line), has(lines, line), has(rose, line));
            let low = (was && (has_risen || !is)).then_some((line, false));
            let high = has_risen.then_some((line, true));
            let end = (has_risen && !is).then_some((line, false));
            [low, high, end].into_iter().flatten()
        })
    }
}
