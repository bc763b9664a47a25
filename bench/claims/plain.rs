//! `plain LANES THREADS STRIDE TURNS`: what board_claims does, in plain Rust: an atomic word and a slot for each lane.
use std::cell::UnsafeCell;
use std::sync::atomic::{AtomicU64, Ordering::SeqCst};

// A lane's callbacks and how many ran, with as many other bytes as a lane has of its own.
struct Lane {
    entries: Vec<u64>,
    done: usize,
    _rest: [u64; REST],
}

const REST: usize = 12;

struct Board {
    words: Vec<AtomicU64>,
    slots: Vec<UnsafeCell<Option<Lane>>>,
}

// SAFETY: a slot is touched by the one caller that turned its word from 0 to 1, until that one stores another word.
unsafe impl Sync for Board {}

// Claims and releases are calls, so that a lane moves out of its slot and back.
impl Board {
    fn open(lanes: Vec<Lane>) -> Board {
        Board {
            words: lanes
                .iter()
                .map(|lane| AtomicU64::new(word(lane)))
                .collect(),
            slots: lanes
                .into_iter()
                .map(|lane| UnsafeCell::new(Some(lane)))
                .collect(),
        }
    }

    #[inline(never)]
    fn claim(&self, lane: usize) -> Option<Lane> {
        self.words[lane]
            .compare_exchange(0, 1, SeqCst, SeqCst)
            .ok()?;
        // SAFETY: the word was turned from 0 to 1 by this call.
        unsafe { (*self.slots[lane].get()).take() }
    }

    #[inline(never)]
    fn release(&self, lane: usize, work: Lane) {
        let word = word(&work);
        // SAFETY: the caller has claimed the lane.
        unsafe { *self.slots[lane].get() = Some(work) };
        self.words[lane].store(word, SeqCst);
    }

    fn close(self) -> Vec<Lane> {
        self.slots
            .into_iter()
            .map(|slot| slot.into_inner().unwrap())
            .collect()
    }
}

fn word(lane: &Lane) -> u64 {
    if lane.done == lane.entries.len() {
        2
    } else {
        0
    }
}

fn claim_again(board: &Board, lane: usize, turns: usize) -> usize {
    let mut won = 0;
    for _ in 0..turns {
        if let Some(work) = board.claim(lane) {
            board.release(lane, work);
            won += 1;
        }
    }
    won
}

fn main() {
    let words: Vec<usize> = std::env::args()
        .skip(1)
        .map(|word| word.parse().unwrap())
        .collect();
    let [count, threads, stride, turns] = words[..] else {
        panic!("four numbers are wanted")
    };
    let mut lanes: Vec<Lane> = (0..count)
        .map(|_| Lane {
            entries: vec![0],
            done: 0,
            _rest: [0; REST],
        })
        .collect();
    let mut won = 0;
    if threads == 0 {
        for _ in 0..turns {
            lanes = Board::open(lanes).close();
        }
    } else {
        let board = Board::open(lanes);
        won = std::thread::scope(|scope| {
            let others: Vec<_> = (1..threads)
                .map(|number| {
                    let board = &board;
                    scope.spawn(move || claim_again(board, number * stride, turns))
                })
                .collect();
            let first = claim_again(&board, 0, turns);
            first
                + others
                    .into_iter()
                    .map(|other| other.join().unwrap())
                    .sum::<usize>()
        });
        lanes = board.close();
    }
    println!("{} {won}", lanes.len());
}
