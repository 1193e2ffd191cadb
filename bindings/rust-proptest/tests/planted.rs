//! A monitor of one's own beside the board: proptest makes accesses, and shrinks those that tell the two apart.

use board_440fx::{Board, Error, Event, Width};
use board_440fx_proptest::{sequences, Step};
use proptest::prelude::*;
use proptest::test_runner::{Config, RngAlgorithm, TestError, TestRng, TestRunner};

const ELCR1: u16 = 0x4D0;
const ROM: [u8; 0x10000] = [0; 0x10000];

/// Stands for one's own: a board whose ELCR1 keeps bit 0, which the 82371SB has at 0.
struct MyMonitor {
    board: Board,
    bit: u64,
}

impl MyMonitor {
    fn step(&mut self, event: &Event) -> Result<Option<u64>, Error> {
        let value = self.board.step(event)?.value();
        Ok(match *event {
            Event::Out { port: ELCR1, width: Width::Byte, value: written } => {
                self.bit = u64::from(written & 1);
                value
            }
            Event::In { port: ELCR1, width: Width::Byte } => value.map(|it| it | self.bit),
            _ => value,
        })
    }
}

fn compare(steps: &[Step]) -> Result<(), TestCaseError> {
    let open = || Board::builder().memory_mib(1).rom(&ROM).open();
    let (mut board, mut mine) = (open()?, MyMonitor { board: open()?, bit: 0 });
    for event in steps.iter().filter_map(Step::event) {
        let answer = board.step(&event)?;
        prop_assert_eq!(mine.step(&event)?, answer.value(), "{}", answer);
    }
    Ok(())
}

#[test]
fn a_planted_fault_shrinks_to_a_write_and_a_read() {
    let rng = TestRng::deterministic_rng(RngAlgorithm::ChaCha);
    let config = Config { cases: 2000, failure_persistence: None, ..Config::default() };
    let found = TestRunner::new_with_rng(config, rng).run(&sequences(20), |steps| compare(&steps));
    let Err(TestError::Fail(_, steps)) = found else { panic!("{found:?}") };
    let texts: Vec<String> = steps.iter().map(Step::to_string).collect();
    assert_eq!(texts.len(), 2, "{texts:?}");
    assert!(texts[0].starts_with("out b 04D0 ") && texts[1] == "in b 04D0", "{texts:?}");
}

#[test]
fn the_board_is_as_itself() {
    let open = || Board::builder().memory_mib(1).rom(&ROM).open().expect("a board");
    let mut runner = TestRunner::new(Config { cases: 200, failure_persistence: None, ..Config::default() });
    runner
        .run(&sequences(20), |steps| {
            let (mut one, mut two) = (open(), open());
            for step in steps {
                match step {
                    Step::Event(event) => prop_assert_eq!(one.step(&event), two.step(&event)),
                    Step::Second => prop_assert_eq!(one.second(), two.second()),
                }
            }
            Ok(())
        })
        .expect("no difference");
}
