//! Calls each function of the library once or twice. usage: example INPUT, where INPUT is examples/budget.key.

use std::process::ExitCode;

mod vulzhedor {
    pub const DONE: u32 = 0;
    pub const NO_QUOTE: u32 = 255;
    pub const TEXT_BYTES: usize = 98_304;

    mod foreign {
        unsafe extern "C" {
            pub safe fn vulzhedor_charge(rate: u32, minutes: u32) -> u64;
            pub safe fn vulzhedor_quote(
                speed: u32,
                rate: u32,
                work: u32,
                minutes: &mut u32,
                cents: &mut u64,
            ) -> u32;
            pub fn vulzhedor_answer(
                input: *const u8,
                input_length: usize,
                text: *mut u8,
                text_length: usize,
                written: &mut usize,
            ) -> u32;
            pub fn vulzhedor_same_bargains(
                first: *const u8,
                first_length: usize,
                second: *const u8,
                second_length: usize,
                equal: &mut u32,
                about: &mut u32,
                carried: &mut u64,
            ) -> u32;
            pub fn vulzhedor_better_bargain(
                first: *const u8,
                first_length: usize,
                second: *const u8,
                second_length: usize,
                better: &mut u32,
                length: &mut u32,
                cost: &mut u64,
                about: &mut u32,
                carried: &mut u64,
            ) -> u32;
        }
    }

    pub struct Quote {
        pub minutes: u32,
        pub cents: u64,
    }

    pub struct Bargain {
        pub input: u32,
        pub minutes: u32,
        pub cents: u64,
    }

    pub struct Refusal {
        pub number: u32,
        pub input: u32,
        pub place: Option<u64>,
    }

    pub fn charge(rate: u32, minutes: u32) -> u64 {
        foreign::vulzhedor_charge(rate, minutes)
    }

    /// The quote, if there is one, or the number of a refusal.
    pub fn quote(speed: u32, rate: u32, work: u32) -> Result<Option<Quote>, u32> {
        let mut minutes = 0;
        let mut cents = 0;
        match foreign::vulzhedor_quote(speed, rate, work, &mut minutes, &mut cents) {
            DONE => Ok(Some(Quote { minutes, cents })),
            NO_QUOTE => Ok(None),
            number => Err(number),
        }
    }

    /// The byte count of the text, or the number of a refusal.
    pub fn answer(input: &[u8], text: &mut [u8]) -> Result<usize, u32> {
        let mut written = 0;
        // SAFETY: pointers and lengths are those of slices, which do not overlap.
        let status = unsafe {
            foreign::vulzhedor_answer(
                input.as_ptr(),
                input.len(),
                text.as_mut_ptr(),
                text.len(),
                &mut written,
            )
        };
        match status {
            DONE => Ok(written),
            number => Err(number),
        }
    }

    pub fn same_bargains(first: &[u8], second: &[u8]) -> Result<bool, Refusal> {
        let mut equal = 0;
        let mut input = 0;
        let mut carried = 0;
        // SAFETY: pointers and lengths are those of slices.
        let status = unsafe {
            foreign::vulzhedor_same_bargains(
                first.as_ptr(),
                first.len(),
                second.as_ptr(),
                second.len(),
                &mut equal,
                &mut input,
                &mut carried,
            )
        };
        match status {
            DONE => Ok(equal == 1),
            number => Err(Refusal {
                number,
                input,
                place: Some(carried).filter(|&place| place != u64::MAX),
            }),
        }
    }

    /// The better bargain of two inputs, if they do not offer the same ones.
    pub fn better_bargain(first: &[u8], second: &[u8]) -> Result<Option<Bargain>, Refusal> {
        let (mut input, mut minutes, mut cents) = (0, 0, 0);
        let (mut about, mut carried) = (0, 0);
        // SAFETY: pointers and lengths are those of slices.
        let status = unsafe {
            foreign::vulzhedor_better_bargain(
                first.as_ptr(),
                first.len(),
                second.as_ptr(),
                second.len(),
                &mut input,
                &mut minutes,
                &mut cents,
                &mut about,
                &mut carried,
            )
        };
        match status {
            DONE => Ok(Some(Bargain {
                input,
                minutes,
                cents,
            })
            .filter(|bargain| bargain.input != 0)),
            number => Err(Refusal {
                number,
                input: about,
                place: Some(carried).filter(|&place| place != u64::MAX),
            }),
        }
    }
}

/// The question at the end of examples/budget.key: a budget of 260 cents.
const QUESTION_BYTES: usize = 3;

/// The card and the sheet of examples/budget.key with the stages exchanged.
const EXCHANGED: [u8; 16] = [
    3, 10, 0xD8, 4, 20, 0xDC, 11, 60, 0xF0, 46, 2, 1, 60, 2, 100, 60,
];

/// The cards and sheets of examples/two_machines.batch and examples/fast_machine.batch.
const TWO_MACHINES: [u8; 14] = [2, 10, 0xD8, 4, 20, 0xDC, 11, 2, 1, 0x90, 3, 1, 0xD8, 4];
const FAST_MACHINE: [u8; 17] = [
    3, 10, 0xD8, 4, 20, 0xDC, 11, 40, 0x90, 28, 2, 1, 0x90, 3, 1, 0xD8, 4,
];

fn print_quote(speed: u32, rate: u32, work: u32) {
    match vulzhedor::quote(speed, rate, work) {
        Ok(Some(quote)) => println!("quote: {} minutes, {} cents", quote.minutes, quote.cents),
        Ok(None) => println!("quote: none"),
        Err(number) => println!("quote: refused {number}"),
    }
}

fn print_answer(input: &[u8]) {
    let mut text = vec![0; vulzhedor::TEXT_BYTES];
    match vulzhedor::answer(input, &mut text) {
        Ok(written) => print!("answer:\n{}", String::from_utf8_lossy(&text[..written])),
        Err(number) => println!("answer: refused {number}"),
    }
}

fn print_verdict(first: &[u8], second: &[u8]) {
    match vulzhedor::same_bargains(first, second) {
        Ok(equal) => println!("same bargains: {}", if equal { "yes" } else { "no" }),
        Err(refusal) => match refusal.place {
            Some(place) => println!(
                "same bargains: refused {} at {place} of input {}",
                refusal.number, refusal.input
            ),
            None => println!("same bargains: refused {}", refusal.number),
        },
    }
}

fn print_better(first: &[u8], second: &[u8]) {
    match vulzhedor::better_bargain(first, second) {
        Ok(Some(bargain)) => println!(
            "better bargain: input {}, {} minutes, {} cents",
            bargain.input, bargain.minutes, bargain.cents
        ),
        Ok(None) => println!("better bargain: neither"),
        Err(refusal) => println!(
            "better bargain: refused {} for input {}",
            refusal.number, refusal.input
        ),
    }
}

fn main() -> ExitCode {
    let Some(path) = std::env::args().nth(1) else {
        eprintln!("usage: example INPUT");
        return ExitCode::FAILURE;
    };
    let input = match std::fs::read(&path) {
        Ok(input) if input.len() >= QUESTION_BYTES => input,
        _ => {
            eprintln!("example: {path} has no question");
            return ExitCode::FAILURE;
        }
    };
    let batch = &input[..input.len() - QUESTION_BYTES];

    println!("charge: {} cents", vulzhedor::charge(100, 7));
    print_quote(20, 1500, 100);
    print_quote(694, 1500, 1_000_000);
    print_quote(0, 1500, 100);
    print_answer(&input);
    print_verdict(batch, &EXCHANGED);
    print_verdict(batch, &EXCHANGED[..EXCHANGED.len() - 1]);
    print_better(&TWO_MACHINES, &FAST_MACHINE);
    print_better(&TWO_MACHINES, &TWO_MACHINES);
    print_better(&TWO_MACHINES, &FAST_MACHINE[..FAST_MACHINE.len() - 1]);
    ExitCode::SUCCESS
}
