//! Conversion of rounds by several workers.

use crate::batch::Lines;
use crate::converter::Converter;
use crate::cutter::{Cutter, Piece};
use crate::input::Round;
use crate::tables::Tables;
use crate::text::Text;
use std::sync::Mutex;
use std::thread;

/// The workers. Their threads are started for each round.
pub struct Crew<'a> {
    workers: Vec<Worker<'a>>,
}

/// A worker, with the buffers that it keeps from round to round.
struct Worker<'a> {
    converter: Converter<'a>,
    /// The rows of its pieces of the round, and buffers that aren't used in it.
    texts: Vec<Text>,
    /// The numbers of its pieces of the round.
    pieces: Vec<usize>,
}

impl<'a> Crew<'a> {
    pub fn new(workers: usize, tables: &'a Tables) -> Crew<'a> {
        Crew { workers: (0..workers).map(|_| Worker::new(tables)).collect() }
    }

    /// Converts a round. The workers, one of which is the caller, draw its pieces.
    pub fn convert(&mut self, round: Round<'_>) {
        let cutter = Mutex::new(Cutter::new(round));
        let (first, others) = self.workers.split_first_mut().expect("no workers");
        thread::scope(|scope| {
            for worker in others {
                scope.spawn(|| worker.convert(round, &cutter));
            }
            first.convert(round, &cutter);
        });
    }

    /// Returns the rows of the last round, piece by piece.
    pub fn texts(&self) -> impl Iterator<Item = &[u8]> {
        let workers = self.workers.iter();
        let texts = workers.flat_map(|worker| worker.pieces.iter().zip(&worker.texts));
        let mut texts = texts.collect::<Vec<_>>();
        texts.sort_unstable_by_key(|(piece, _)| **piece);
        texts.into_iter().map(|(_, text)| text.octets())
    }
}

impl<'a> Worker<'a> {
    fn new(tables: &'a Tables) -> Worker<'a> {
        Worker { converter: Converter::new(tables), texts: Vec::new(), pieces: Vec::new() }
    }

    /// Converts pieces of a round until all are drawn.
    fn convert(&mut self, round: Round<'_>, cutter: &Mutex<Cutter<'_>>) {
        self.pieces.clear();
        loop {
            let drawn = cutter.lock().unwrap().draw();
            let Some(Piece { number, start, end }) = drawn else {
                return;
            };
            let place = self.pieces.len();
            self.pieces.push(number);
            if self.texts.len() == place {
                self.texts.push(Text::default());
            }
            let text = &mut self.texts[place];
            text.clear();
            self.converter.convert(Lines::new(round.octets, start, end), text);
        }
    }
}
