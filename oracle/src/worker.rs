//! The Rust's answers, whatever it does: a second process of this program runs the cases, and is ended
//! and started anew where it does not return in time or is brought down.
//!
//! Most loops end by the budget. Those inside `Hull`, which touches no accessor, end here.

use std::io::{BufRead, BufReader, Write};
use std::process::{Child, ChildStdin, Command, Stdio};
use std::sync::mpsc::{channel, Receiver};
use std::thread;
use std::time::Duration;

use crate::bare::{self, Bare, BareAnswer};
use crate::case::{line, read_answers, read_cases, reason, write_mesh, Answer, Case, Ending, Lines};
use crate::delaunay_core::bulk_load::growing;
use crate::driver::{self, Watch};
use crate::mesh::Mesh;

/// The time that a case may take.
const TIME: Duration = Duration::from_secs(2);

/// The memory that a worker may have. `Hull::insert` without end would take all there is.
const MEMORY: u64 = 2 << 30;

extern "C" {
    fn setrlimit(resource: i32, limits: *const [u64; 2]) -> i32;
}

const RLIMIT_AS: i32 = 9;

/// What a worker does with its inputs.
#[derive(Clone, Copy, Debug, PartialEq, Eq)]
pub enum Work {
    /// Runs from a seed, and lists of bare points in list order.
    Answer(Watch),
    /// Lists of bare points by `bulk_load` itself.
    Load,
}

impl Default for Work {
    fn default() -> Work {
        Work::Answer(Watch::Domain)
    }
}

impl Work {
    /// The command of the worker.
    fn command(self) -> &'static str {
        match self {
            Work::Answer(Watch::Domain) => "worker",
            Work::Answer(Watch::Centre) => "worker-centre",
            Work::Answer(Watch::Nowhere) => "worker-beyond",
            Work::Load => "worker-load",
        }
    }

    fn done(self, input: &str, answered: &mut String) {
        let has_seed = input.lines().any(|line| line.starts_with('m'));
        match self {
            Work::Answer(watch) if has_seed => {
                let case = read_cases(input).expect("an input").remove(0);
                driver::answer(&case, watch).write(answered);
            }
            Work::Answer(_) => {
                let list = bare::read_bare(&mut Lines::new(input)).expect("a list");
                growing::answer(&list).write(answered);
            }
            Work::Load => {
                let list = bare::read_bare(&mut Lines::new(input)).expect("a list");
                write_loaded(answered, list.number, growing::loaded(&list));
            }
        }
    }
}

/// The mesh that `bulk_load` has made, or the reason why there is none.
pub fn write_loaded(text: &mut String, number: u64, loaded: Result<Mesh, u32>) {
    line(text, 'i', [number]);
    match loaded {
        Ok(mesh) => write_mesh(text, &mesh),
        Err(reason) => line(text, 'x', [reason, 0]),
    }
    line(text, 'e', [0u32; 0]);
}

/// The worker's own loop: inputs from standard input, each answered at once.
pub fn work(work: Work) {
    // SAFETY: the array has the layout of `struct rlimit` of 64-bit Linux.
    unsafe { setrlimit(RLIMIT_AS, &[MEMORY, MEMORY]) };
    std::panic::set_hook(Box::new(move |panic| {
        if work == Work::Answer(Watch::Nowhere) {
            eprintln!("{}", panic.to_string().replace('\n', " "));
        }
    }));
    let mut text = String::new();
    let mut answered = String::new();
    for line in std::io::stdin().lines() {
        let line = line.expect("standard input is text");
        text.push_str(&line);
        text.push('\n');
        if line.starts_with('q') {
            work.done(&text, &mut answered);
            let mut out = std::io::stdout().lock();
            out.write_all(answered.as_bytes()).and_then(|()| out.flush()).expect("a reader");
            text.clear();
            answered.clear();
        }
    }
}

struct Running {
    child: Child,
    input: ChildStdin,
    answers: Receiver<String>,
}

impl Running {
    fn start(work: Work, loud: bool) -> Running {
        let program = std::env::current_exe().expect("this program has a place");
        let mut child = Command::new(program)
            .arg(work.command())
            .stdin(Stdio::piped())
            .stdout(Stdio::piped())
            .stderr(if loud { Stdio::inherit() } else { Stdio::null() })
            .spawn()
            .expect("a worker starts");
        let input = child.stdin.take().unwrap();
        let output = BufReader::new(child.stdout.take().unwrap());
        let (sender, answers) = channel();
        thread::spawn(move || {
            let mut text = String::new();
            for line in output.lines().map_while(Result::ok) {
                text.push_str(&line);
                text.push('\n');
                if line == "e" && sender.send(std::mem::take(&mut text)).is_err() {
                    return;
                }
            }
        });
        Running { child, input, answers }
    }
}

/// The oracle, with its worker.
#[derive(Default)]
pub struct Oracle {
    running: Option<Running>,
    /// Whether the Rust goes on beyond the domain.
    pub watch: Watch,
    /// Whether its panics there are told on standard error.
    pub loud: bool,
}

impl Oracle {
    pub fn answer(&mut self, case: &Case) -> Answer {
        if let Some(answer) = self.ask(case) {
            return answer;
        }
        // The worker was lost. The first point that loses it is the reason.
        for count in 0..=case.points.len() {
            let Some(mut answer) = self.ask(&case.cut(count)) else {
                let lost = |reason, index: usize, fates| Answer {
                    number: case.number,
                    fates,
                    ending: Ending::Outside { reason, index: index as u32 },
                };
                let before = count.checked_sub(1).and_then(|fewer| self.ask(&case.cut(fewer)));
                return match before {
                    Some(answer) => lost(reason::STEP_RUNS_ON, count - 1, answer.fates),
                    None => lost(reason::PASS_FAILS, 0, Vec::new()),
                };
            };
            if let Ending::Outside { .. } = answer.ending {
                answer.number = case.number;
                return answer;
            }
        }
        unreachable!("the whole case was asked twice")
    }

    /// The worker's answer; nothing where it does not answer in time.
    pub fn ask(&mut self, case: &Case) -> Option<Answer> {
        let mut text = String::new();
        case.write(&mut text);
        let answer = self.asked(&text, Work::Answer(self.watch))?;
        Some(read_answers(&answer).expect("the worker keeps the format").remove(0))
    }

    fn asked(&mut self, text: &str, work: Work) -> Option<String> {
        let running = self.running.get_or_insert_with(|| Running::start(work, self.loud));
        let sent = running.input.write_all(text.as_bytes()).and_then(|()| running.input.flush());
        let answer = sent.ok().and_then(|()| running.answers.recv_timeout(TIME).ok());
        if answer.is_none() {
            self.stop();
        }
        answer
    }

    fn ask_bare(&mut self, list: &Bare) -> Option<BareAnswer> {
        let mut text = String::new();
        list.write(&mut text);
        let answer = self.asked(&text, Work::Answer(self.watch))?;
        Some(bare::read_answer(&mut Lines::new(&answer)).expect("the worker keeps the format"))
    }

    /// The Rust's answer to bare points in list order. Where the worker is lost, the first point that loses it is
    /// the reason.
    pub fn bare(&mut self, list: &Bare) -> BareAnswer {
        if let Some(answer) = self.ask_bare(list) {
            return answer;
        }
        let mut before = None;
        for count in 0..=list.points.len() {
            match self.ask_bare(&list.cut(count)) {
                Some(answer) => before = Some(answer),
                None => break,
            }
        }
        let mut before = before.expect("no point is no reason to be lost");
        let (index, reason) = (before.answer.fates.len() as u32, reason::STEP_RUNS_ON);
        before.answer.ending = Ending::Outside { reason, index };
        before
    }

    /// The mesh that `bulk_load` itself makes of bare points. An oracle that is asked this is asked nothing else.
    pub fn loaded(&mut self, list: &Bare) -> Result<Mesh, u32> {
        let mut text = String::new();
        list.write(&mut text);
        let answer = self.asked(&text, Work::Load).ok_or(reason::STEP_RUNS_ON)?;
        let mut lines = Lines::new(&answer);
        let [_] = lines.take_exactly::<u64, 1>('i').expect("the worker keeps the format");
        if lines.tag() == Some('x') {
            let [reason, _] = lines.take_exactly('x').expect("the worker keeps the format");
            return Err(reason);
        }
        Ok(lines.mesh().expect("the worker keeps the format"))
    }

    fn stop(&mut self) {
        if let Some(mut running) = self.running.take() {
            let _ = running.child.kill();
            let _ = running.child.wait();
        }
    }
}

impl Drop for Oracle {
    fn drop(&mut self) {
        self.stop();
    }
}
