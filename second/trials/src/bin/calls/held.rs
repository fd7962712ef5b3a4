//! Holds engines to each other: the same number, and the same bytes in every slice and around it.

use crate::blocks::Blocks;

pub struct Named {
    pub name: &'static str,
    pub run: fn(&mut Blocks) -> u32,
}

/// The number that all give; or what is different of the first that does not do as the first of
/// them does.
pub fn held(blocks: &Blocks, engines: &[Named]) -> Result<u32, String> {
    let mut runs = engines.iter().map(|engine| {
        let mut own = blocks.clone();
        let number = (engine.run)(&mut own);
        (engine.name, number, own)
    });
    let (_, expected, left) = runs.next().ok_or("there is no engine")?;
    for (name, number, own) in runs {
        if number != expected {
            return Err(format!("{name} gives {number} and not {expected}"));
        }
        if let Some(difference) = own.difference(&left) {
            return Err(format!("{name} leaves another byte in {difference}"));
        }
    }
    Ok(expected)
}

#[cfg(test)]
mod tests {
    use super::*;
    use crate::blocks::After;
    use crate::plan::trial;
    use trials::engines::{replayer, second};
    use trials::WORD_BYTES;

    const LISTS: usize = 460;

    /// What is different, list by list, of an engine that is held to the independent replayer.
    fn differences(name: &'static str, run: fn(&mut Blocks) -> u32) -> Vec<String> {
        let right = Named {
            name: "second",
            run: |blocks| blocks.call(second),
        };
        let engines = [right, Named { name, run }];
        let said = |list| held(&trial(840, list, LISTS, After::Guards).blocks, &engines).err();
        (0..LISTS).filter_map(said).collect()
    }

    /// A wrong engine must be seen through by a sentence with these words.
    fn is_seen(run: fn(&mut Blocks) -> u32, words: &str) {
        let said = differences("wrong", run);
        assert!(said.iter().any(|said| said.contains(words)), "{said:?}");
    }

    #[test]
    fn a_right_engine_is_held_to_nothing_else() {
        let none: [String; 0] = [];
        assert_eq!(differences("replayer", |b| b.call(replayer)), none);
    }

    #[test]
    fn a_byte_beside_any_slice_is_seen() {
        is_seen(
            |blocks| {
                let number = blocks.call(replayer);
                blocks.spoil_guard(6, true);
                number
            },
            "in report: byte 1 before it is ",
        );
        is_seen(
            |blocks| {
                let number = blocks.call(replayer);
                blocks.spoil_guard(0, false);
                number
            },
            "in identifiers: byte 1 after it is ",
        );
    }

    #[test]
    fn a_byte_of_the_order_is_seen() {
        is_seen(
            |blocks| {
                blocks.call(|read, mut written| {
                    let number = replayer(read, written.each_mut().map(|slice| &mut **slice));
                    if number == 0 && written[0].len() > 8 {
                        written[0][8] ^= 1;
                    }
                    number
                })
            },
            "in order: byte 8 is ",
        );
    }

    #[test]
    fn a_part_word_that_is_let_through_is_seen() {
        is_seen(
            |blocks| {
                blocks.call(|read, written| {
                    let whole = |length: usize, word: usize| length / word * word;
                    let read = read.map(|slice| &slice[..whole(slice.len(), 4)]);
                    let mut place = 5;
                    let written = written.map(|slice| {
                        let end = whole(slice.len(), WORD_BYTES[place]);
                        place += 1;
                        &mut slice[..end]
                    });
                    replayer(read, written)
                })
            },
            "wrong gives 0 and not 3",
        );
    }

    #[test]
    fn part_words_that_are_answered_are_seen() {
        is_seen(
            |blocks| {
                blocks.call(|read, mut written| {
                    let number = replayer(read, written.each_mut().map(|slice| &mut **slice));
                    if number == 3 && written[4].len() == 16 {
                        written[4].fill(0);
                        written[4][0] = 3;
                    }
                    number
                })
            },
            "in answer: byte ",
        );
    }

    #[test]
    fn a_refusal_that_clears_its_working_slice_is_seen() {
        is_seen(
            |blocks| {
                blocks.call(|read, mut written| {
                    let number = replayer(read, written.each_mut().map(|slice| &mut **slice));
                    if number != 0 {
                        written[3].fill(0);
                    }
                    number
                })
            },
            "in working: byte 0 is 0 and not ",
        );
    }

    #[test]
    fn an_answer_that_is_not_written_is_seen() {
        is_seen(
            |blocks| {
                blocks.call(|read, [order, report, lags, working, answer]| {
                    let mut other = vec![0; answer.len()];
                    replayer(read, [order, report, lags, working, &mut other])
                })
            },
            "in answer: byte 0 is ",
        );
    }
}
