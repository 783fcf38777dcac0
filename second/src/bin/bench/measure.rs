//! Takes the times. Each is the best of several, taken in turn, in processor
//! time where there is a clock for it, as others may be using the machine.

use crate::proved;
use second::layout::Kind;
use second::order::judge_by_order;
use second::words::{from_bytes, to_bytes};
use second::{bytes, Answer};
use std::hint::black_box;
use std::time::{Duration, Instant};

/// A sample lasts about this long, if one call doesn't last longer.
const SAMPLE: Duration = Duration::from_millis(5);
/// Both together have about this long for one input.
const BUDGET: Duration = Duration::from_millis(2_000);
const MOST_SAMPLES: u32 = 60;

/// Which of the two are asked.
#[derive(Clone, Copy)]
pub struct Asked {
    pub proved: bool,
    pub second: bool,
}

impl Asked {
    pub const BOTH: Asked = Asked { proved: true, second: true };
}

/// Nanoseconds of those that were asked, and what they answered.
pub struct Timed {
    pub proved: Option<f64>,
    pub second: Option<f64>,
    pub answer: Answer,
}

type Call<'a> = &'a mut dyn FnMut() -> Answer;

/// Nanoseconds that this thread has run.
#[cfg(all(target_os = "linux", target_pointer_width = "64"))]
fn clock() -> u64 {
    #[repr(C)]
    struct Timespec {
        seconds: i64,
        nanos: i64,
    }
    extern "C" {
        fn clock_gettime(clock: i32, time: *mut Timespec) -> i32;
    }
    const THREAD_CPUTIME: i32 = 3;
    let mut time = Timespec { seconds: 0, nanos: 0 };
    // Safe: the struct is the system's, and the call only writes it.
    let answer = unsafe { clock_gettime(THREAD_CPUTIME, &mut time) };
    assert_eq!(answer, 0, "no clock");
    time.seconds as u64 * 1_000_000_000 + time.nanos as u64
}

/// Nanoseconds since the first call.
#[cfg(not(all(target_os = "linux", target_pointer_width = "64")))]
fn clock() -> u64 {
    static FIRST: std::sync::OnceLock<Instant> = std::sync::OnceLock::new();
    FIRST.get_or_init(Instant::now).elapsed().as_nanos() as u64
}

/// One of the two during the measurement: its call, its best time, and how many
/// calls make a sample.
struct Side<'a> {
    call: Call<'a>,
    best: f64,
    calls: u32,
}

impl<'a> Side<'a> {
    /// Calls once, which also gives the answer.
    fn new(call: Call<'a>) -> (Side<'a>, Answer) {
        let begun = clock();
        let answer = call();
        let best = (clock() - begun) as f64;
        let calls = (SAMPLE.as_nanos() as f64 / best).clamp(1.0, 1e6) as u32;
        (Side { call, best, calls }, answer)
    }

    fn sample(&mut self) {
        let begun = clock();
        for _ in 0..self.calls {
            black_box((self.call)());
        }
        self.best = self.best.min((clock() - begun) as f64 / f64::from(self.calls));
    }
}

fn measure(asked: Asked, proved: Call, second: Call) -> Timed {
    let begun = Instant::now();
    let mut proved = asked.proved.then(|| Side::new(proved));
    let mut second = asked.second.then(|| Side::new(second));
    if let (Some((_, given)), Some((_, answer))) = (&proved, &second) {
        assert_eq!(given, answer, "the two give different answers");
    }
    let answer = proved.as_ref().or(second.as_ref()).expect("one is asked").1;
    for _ in 0..MOST_SAMPLES {
        if begun.elapsed() > BUDGET {
            break;
        }
        proved.iter_mut().chain(&mut second).for_each(|(side, _)| side.sample());
    }
    let best = |side: Option<(Side, Answer)>| side.map(|(side, _)| side.best);
    Timed { proved: best(proved), second: best(second), answer }
}

pub fn judged(asked: Asked, kind: Kind, (book, plan): &(Vec<u32>, Vec<u32>)) -> Timed {
    let (book, plan) = (to_bytes(book), to_bytes(plan));
    let (by_proved, by_second): (fn(&[u8], &[u8]) -> Answer, fn(&[u8], &[u8]) -> Answer) =
        match kind {
            Kind::Book => (proved::judge, bytes::judge),
            Kind::Sheet => (proved::judge_sheet, bytes::judge_sheet),
        };
    measure(asked, &mut || by_proved(black_box(&book), black_box(&plan)), &mut || {
        by_second(black_box(&book), black_box(&plan))
    })
}

/// Judging by order.
pub fn ordered((book, plan): &(Vec<u32>, Vec<u32>)) -> Timed {
    let by_second = |book: &[u8], plan: &[u8]| judge_by_order(&from_bytes(book), &from_bytes(plan));
    let (book, plan) = (to_bytes(book), to_bytes(plan));
    measure(
        Asked::BOTH,
        &mut || proved::order::judge_by_order(black_box(&book), black_box(&plan)),
        &mut || by_second(black_box(&book), black_box(&plan)),
    )
}

pub fn translated(sheet: &[u32]) -> Timed {
    let sheet = to_bytes(sheet);
    let (mut by_proved, mut by_second) = (vec![0; 16_384], vec![0; 16_384]);
    let timed = measure(
        Asked::BOTH,
        &mut || proved::translate(black_box(&sheet), black_box(&mut by_proved)),
        &mut || bytes::translate(black_box(&sheet), black_box(&mut by_second)),
    );
    assert!(by_proved == by_second, "the two write different books");
    timed
}

/// Keeps the heap from shrinking: memory freed below a block that stays isn't
/// given back. Otherwise each call would fetch its memory from the system anew,
/// and that would be measured.
pub fn hold_memory() -> Box<u64> {
    let blocks = vec![vec![1u8; 65_536]; 32];
    let stays = black_box(Box::new(0));
    drop(black_box(blocks));
    stays
}
