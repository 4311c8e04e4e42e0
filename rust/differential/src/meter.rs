//! What calls of libhbc_c.a cost, where the soak asks for it: processor time, and memory beyond what was lent.

use std::sync::atomic::{AtomicBool, Ordering};
use std::sync::Mutex;
use std::time::{Duration, Instant};

use harness::processor_time;

/// What the calls of one case cost.
#[derive(Clone, Copy, Default)]
pub struct Cost {
    pub calls: u64,
    /// Seconds of the longest call.
    pub longest: f64,
    /// The most bytes by which memory grew in a call, of those calls that were looked at.
    pub grown: u64,
}

struct Meter {
    case: String,
    /// Seconds for one call.
    limit: f64,
    /// When a call that is under way has been given up.
    given_up: Option<Instant>,
    cost: Cost,
}

static ON: AtomicBool = AtomicBool::new(false);
static METER: Mutex<Meter> = Mutex::new(Meter {
    case: String::new(),
    limit: 0.0,
    given_up: None,
    cost: Cost { calls: 0, longest: 0.0, grown: 0 },
});

/// Calls of a case whose memory is looked at: a look takes as long as many small calls.
const LOOKED_AT: u64 = 256;

/// Starts to measure. A call that does not end is given up after a time that counts what others run too, and ends the
/// program.
pub fn start() {
    ON.store(true, Ordering::Relaxed);
    std::thread::spawn(|| loop {
        std::thread::sleep(Duration::from_millis(200));
        let meter = METER.lock().unwrap();
        if meter.given_up.is_some_and(|end| Instant::now() > end) {
            too_long(&meter, "was given up");
        }
    });
}

/// Ends the program: a call that takes too long may be followed by many more.
fn too_long(meter: &Meter, what: &str) -> ! {
    let Meter { case, limit, .. } = meter;
    println!("{case}: a call {what}, its limit is {limit:.1} s of processor time");
    std::process::exit(1);
}

pub fn begin(case: String, limit: f64) {
    let mut meter = METER.lock().unwrap();
    (meter.case, meter.limit, meter.cost) = (case, limit, Cost::default());
}

pub fn end() -> Cost {
    METER.lock().unwrap().cost
}

/// Makes a call of libhbc_c.a.
#[inline]
pub fn call<T>(call: impl FnOnce() -> T) -> T {
    match ON.load(Ordering::Relaxed) {
        false => call(),
        true => measured(call),
    }
}

fn measured<T>(call: impl FnOnce() -> T) -> T {
    let looked_at = {
        let mut meter = METER.lock().unwrap();
        let wall = 10.0 + 3.0 * meter.limit;
        meter.given_up = Some(Instant::now() + Duration::from_secs_f64(wall));
        meter.cost.calls += 1;
        meter.cost.calls <= LOOKED_AT
    };
    let before = if looked_at { forget_peak() } else { 0 };
    let begin = processor_time();
    let answer = call();
    let seconds = (processor_time() - begin) as f64 / 1e9;
    let peak = if looked_at { status("VmHWM:") } else { 0 };
    let mut meter = METER.lock().unwrap();
    meter.given_up = None;
    if seconds > meter.limit {
        too_long(&meter, &format!("took {seconds:.2} s"));
    }
    meter.cost.longest = meter.cost.longest.max(seconds);
    meter.cost.grown = meter.cost.grown.max(peak.saturating_sub(before));
    answer
}

/// Has the system forget how much memory was ever there at once; how much there is now.
fn forget_peak() -> u64 {
    std::fs::write("/proc/self/clear_refs", "5").expect("the peak of memory can be forgotten");
    status("VmRSS:")
}

/// Bytes that a line of a file says in kB.
fn bytes_of(file: &str, line: &str) -> u64 {
    let text = std::fs::read_to_string(file).expect("the system tells its memory");
    let words = text.lines().find_map(|text| text.strip_prefix(line));
    let number = words.and_then(|words| words.split_whitespace().next());
    1024 * number.and_then(|number| number.parse::<u64>().ok()).expect("a number of kB")
}

fn status(line: &str) -> u64 {
    bytes_of("/proc/self/status", line)
}

/// Bytes that the machine can still give out.
pub fn available() -> u64 {
    bytes_of("/proc/meminfo", "MemAvailable:")
}
