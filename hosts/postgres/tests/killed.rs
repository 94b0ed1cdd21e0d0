//! Eight workers and thousands of circles, some of which get new terms meanwhile. Workers and revisions are killed
//! again and again, and the server twice; at the end every request and revision has one answer, the one that was told,
//! and answers, terms and states are those of the keeper.

mod support;

use circles::{Patient, Told};
use cuckooormolu::Request;
use std::env;
use std::io::{BufRead, BufReader, Write};
use std::process::{Child, ChildStdin, ChildStdout, Command, Stdio};
use std::sync::atomic::{AtomicUsize, Ordering};
use std::sync::Mutex;
use std::thread;
use std::time::{Duration, Instant};
use support::{create, folder, replay, server, text, Line, Random, ONCE, PRESET};

const WORKERS: usize = 8;
const FIRST: i64 = 1_000;
/// These are asked as often as all others together.
const BUSY: u64 = 40;

/// Answers between two workers that are killed.
const BETWEEN: usize = 20;

/// Revisions, each of one of the busy circles. Their keys come after those of all requests.
const REVISIONS: u64 = 60;
const FIRST_REVISION: u128 = 1 << 64;

/// A request to a circle; its key is its number.
#[derive(Clone, Copy)]
struct Asked {
    key: u128,
    circle: i64,
    request: Request,
}

fn spawn() -> (Child, ChildStdin, BufReader<ChildStdout>) {
    let mut child = Command::new(env!("CARGO_BIN_EXE_circles"))
        .args(["serve", &server()])
        .stdin(Stdio::piped())
        .stdout(Stdio::piped())
        // It says that the server is away.
        .stderr(Stdio::null())
        .spawn()
        .unwrap();
    let (input, output) = (child.stdin.take().unwrap(), child.stdout.take().unwrap());
    (child, input, BufReader::new(output))
}

/// The answer of a worker; none where it was killed before it told the whole of it.
fn hear(output: &mut BufReader<ChildStdout>, asked: &Asked) -> Option<String> {
    let mut line = String::new();
    output.read_line(&mut line).ok()?;
    let answer = line.strip_suffix('\n')?.strip_prefix(&format!("{:032x}\t", asked.key))?;
    assert!(!answer.starts_with("error"), "{answer}");
    Some(answer.to_string())
}

/// Asks one worker after another until each request is answered, the next one always being on its way; what was told,
/// in order. What a killed worker left open is asked again.
fn drive(place: &Mutex<Option<Child>>, asked: &[Asked], done: &AtomicUsize) -> Vec<String> {
    let mut told = Vec::new();
    while told.len() < asked.len() {
        let (child, mut input, mut output) = spawn();
        let killed = place.lock().unwrap().replace(child);
        assert!(killed.is_none_or(|mut child| child.wait().is_ok()));
        let mut sent = told.len();
        while told.len() < asked.len() {
            while sent < asked.len().min(told.len() + 2) {
                let Asked { key, circle, request: Request { event, from, to } } = asked[sent];
                // A worker that was killed is found by its silence.
                let _ = writeln!(input, "R\t{circle}\t{key:032x}\t{event}\t{from}\t{to}");
                sent += 1;
            }
            let Some(answer) = hear(&mut output, &asked[told.len()]) else { break };
            told.push(answer);
            done.fetch_add(1, Ordering::Relaxed);
        }
    }
    let last = place.lock().unwrap().take();
    assert!(last.is_none_or(|mut child| child.wait().is_ok()));
    told
}

/// Revises busy circles, to other terms and back, while they are asked. Tries are killed, and tried again with the same
/// key. Gives how many were killed.
fn revise() -> usize {
    let mut random = Random(3);
    let folder = env::temp_dir();
    let files = [ONCE, PRESET].map(|terms| {
        let file = folder.join(format!("circles-{}-{}.tsv", std::process::id(), terms.len()));
        std::fs::write(&file, text(terms)).unwrap();
        file
    });
    let mut killed = 0;
    for number in 0..REVISIONS {
        let circle = (FIRST + random.below(BUSY) as i64).to_string();
        let key = format!("{:032x}", FIRST_REVISION + u128::from(number));
        let file = files[number as usize % 2].to_str().unwrap();
        let arguments = ["revise", &server(), &circle, &key, file];
        let patience = [random.below(20), random.below(200)].map(Duration::from_millis);
        killed += patience.iter().take_while(|patience| !is_done(&arguments, **patience)).count();
        assert!(is_done(&arguments, Duration::MAX), "a revision that nobody killed fails");
    }
    for file in files {
        std::fs::remove_file(file).unwrap();
    }
    killed
}

/// Whether a revision is done; it is killed where it takes too long.
fn is_done(arguments: &[&str], patience: Duration) -> bool {
    let start = Instant::now();
    let mut child = Command::new(env!("CARGO_BIN_EXE_circles"))
        .args(arguments)
        .stdout(Stdio::piped())
        .spawn()
        .unwrap();
    while child.try_wait().unwrap().is_none() {
        if start.elapsed() > patience {
            child.kill().unwrap();
        }
        thread::sleep(Duration::from_millis(1));
    }
    let output = child.wait_with_output().unwrap();
    assert!(!output.status.success() || output.stdout == b"done\n");
    output.status.success()
}

/// Ends the server at once and starts it again, which it may refuse until the system has cleaned up.
fn kill_server() {
    let script = concat!(env!("CARGO_MANIFEST_DIR"), "/server.sh");
    let run = |what| Command::new("sh").args([script, what, &folder()]).status().unwrap().success();
    assert!(run("kill"), "the server is not killed");
    for _ in 0..50 {
        if run("start") {
            return;
        }
        thread::sleep(Duration::from_millis(200));
    }
    panic!("the server does not start again");
}

/// Kills a worker after every so many answers, and the server after a third and two thirds of them all.
fn kill(places: &[Mutex<Option<Child>>], done: &AtomicUsize, all: usize) -> usize {
    let mut random = Random(1);
    let (mut killed, mut thirds, mut last) = (0, 1, 0);
    loop {
        let count = done.load(Ordering::Relaxed);
        if count == all {
            assert_eq!(thirds, 3, "the server was killed twice");
            return killed;
        }
        if count >= last + BETWEEN {
            last = count;
            let place = &places[random.below(WORKERS as u64) as usize];
            if let Some(child) = place.lock().unwrap().as_mut() {
                killed += usize::from(child.kill().is_ok());
            }
        }
        if thirds < 3 && count >= thirds * all / 3 {
            kill_server();
            thirds += 1;
        }
        thread::sleep(Duration::from_millis(1));
    }
}

/// A request's answer.
fn told_of(line: Line) -> Told {
    let Line::Told(told) = line else { panic!("a revision") };
    told
}

#[test]
fn nothing_is_lost_and_nothing_answered_twice() {
    let long = env::var_os("CIRCLES_LONG").is_some();
    let (circles, all): (i64, usize) = if long { (20_000, 90_000) } else { (2_000, 3_000) };
    create(FIRST, circles);
    let mut random = Random(7);
    let asked = (0..all).map(|key| {
        let among = if random.below(2) == 0 { BUSY } else { circles as u64 };
        let circle = FIRST + random.below(among) as i64;
        Asked { key: key as u128, circle, request: random.request() }
    });
    let asked = asked.collect::<Vec<_>>();
    let places = (0..WORKERS).map(|_| Mutex::new(None)).collect::<Vec<_>>();
    let done = AtomicUsize::new(0);
    let parts = asked.chunks(all.div_ceil(WORKERS)).collect::<Vec<_>>();
    let (told, killed, revisions_killed) = thread::scope(|scope| {
        let (places, done) = (&places, &done);
        let killer = scope.spawn(move || kill(places, done, all));
        let reviser = scope.spawn(revise);
        let drivers = parts
            .iter()
            .zip(places)
            .map(|(part, place)| scope.spawn(move || drive(place, part, done)));
        let drivers = drivers.collect::<Vec<_>>();
        let told =
            drivers.into_iter().flat_map(|driver| driver.join().unwrap()).collect::<Vec<_>>();
        (told, killer.join().unwrap(), reviser.join().unwrap())
    });

    let answers = replay(FIRST, circles);
    let lines = all + REVISIONS as usize;
    assert_eq!(answers.len(), lines, "each request and revision has one line in the log");
    for number in 0..u128::from(REVISIONS) {
        let key = (FIRST_REVISION + number).to_be_bytes();
        assert_eq!(answers[&key], Line::Revised(Ok(())));
    }
    for (asked, told) in asked.iter().zip(&told) {
        let kept = match told_of(answers[&asked.key.to_be_bytes()]) {
            Ok(answer) => answer.to_string(),
            Err(refusal) => format!("refuse\t{}", refusal.number()),
        };
        assert_eq!(*told, kept, "what was told is what the log has");
    }
    let mut again = Patient::new(&server());
    for asked in asked.iter().step_by(all / 100) {
        let key = asked.key.to_be_bytes();
        let told = again.request_before(asked.circle, key, asked.request, None);
        assert_eq!(told, Ok(told_of(answers[&key])));
    }
    assert_eq!(replay(FIRST, circles).len(), lines, "asking again decides nothing");
    println!(
        "{all} requests and {REVISIONS} revisions to {circles} circles; {killed} workers, {revisions_killed} \
         revisions and 2 servers killed"
    );
}
