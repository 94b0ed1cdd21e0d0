//! Requests a second, by workers and circles, beside plain UPDATEs of a row of the same size.
//!
//!     measure TO [SECONDS [TERMS]]
//!
//! TO is a connection string to a server with the tables of schema.sql. Of four requests one is a share, one a
//! withdrawal and two are loads, of which every other is granted. Each writes a line of the log, and the state where it
//! is granted. One UPDATE writes the words of a state as they are, the other as this host packs them, each to a table
//! with the same columns and nothing else in its transaction. The three take short turns of so many seconds, each time
//! in another order, so that whatever else the machine does hits them alike; medians of the turns and of their ratios
//! are shown. The processor's time, of worker and server process, is told besides: what else the machine does changes
//! it less. The server is on the same machine. TERMS is a file with other terms in which the events 0, 1 and 2 are a
//! share, a withdrawal and a load. measure.sh starts a server and runs this with fsync and without.

use circles::libpq::{Connection, Rows};
use circles::{words, Circles};
use cuckooormolu::{Event, Member, Monitor, Request};
use std::array;
use std::ffi::CString;
use std::thread;
use std::time::{Duration, Instant, SystemTime, UNIX_EPOCH};

const PRESET: &str =
    "M 3\nL 1 3\nF 0 var 1 0\nF 1 out 1 0\nF 2 out 2 0\nF 3 not 2 0\nF 4 since 3 1\nF 5 in 0 4\n\
    F 6 at 0 5\nF 7 bind 1 6\nF 8 top 0 0\nP 0 8\nP 1 8\nP 2 7\nG 0 0 2\n";
/// Share, load, withdraw, load.
const ASKED: [(u8, u8, u8); 4] = [(0, 0, 1), (2, 1, 2), (1, 0, 1), (2, 1, 2)];
const ROUNDS: usize = 25;
const MOST: i64 = 10_000;
/// Circles of no other's.
const FIRST: i64 = 1 << 40;
/// Tables to be updated, beside `circle`: words as they are, and packed.
const PLAIN: &str = "plain";
const PACKED: &str = "plain_packed";
/// Does something once, by a number that looks random, and says whether it was granted. Where it is the last for a
/// while, nothing is left open.
type Worker = Box<dyn FnMut(u64, bool) -> bool + Send>;

fn main() {
    let arguments = std::env::args().skip(1).collect::<Vec<_>>();
    let [to, rest @ ..] = &arguments[..] else { panic!("usage: measure TO [SECONDS [TERMS]]") };
    let seconds = rest.first().map_or(0.3, |seconds| seconds.parse().expect("seconds"));
    let text = rest.get(1).map_or(PRESET.replace(' ', "\t").into_bytes(), |terms| {
        std::fs::read(terms).expect("terms")
    });
    let monitor = Monitor::read(&text).expect("terms");
    prepare(to, &monitor);
    let fsync = String::from_utf8(rows(to, "show fsync").bytes(0, 0).to_vec()).expect("on or off");
    println!(
        "| fsync | circles | workers | requests/s | granted % | UPDATEs/s | ratio | packed UPDATEs/s | ratio | \
         µs a request | µs an UPDATE | µs a packed UPDATE |"
    );
    println!("|---|{}", "--:|".repeat(11));
    for circles in [100, MOST] {
        for workers in [1, 2, 4, 8] {
            let mut sides = [
                Side::new(to, "asked", workers, |to| requests(to, circles)),
                Side::new(to, PLAIN, workers, |to| updates(to, circles, PLAIN, plain(&monitor))),
                Side::new(to, PACKED, workers, |to| {
                    updates(to, circles, PACKED, words::packed(monitor.state().words()))
                }),
            ];
            let turn = Duration::from_secs_f64(seconds);
            let rounds = (0..ROUNDS).map(|round| Side::round(&mut sides, round, turn));
            let rounds = rounds.collect::<Vec<_>>();
            let [asked, granted, updated, ratio, packed, packed_ratio, request, update, small] =
                array::from_fn(|column| median(&rounds, column));
            println!(
                "| {fsync} | {circles} | {workers} | {asked:.0} | {granted:.0} | {updated:.0} | {ratio:.2} | \
                 {packed:.0} | {packed_ratio:.2} | {request:.0} | {update:.0} | {small:.0} |"
            );
        }
    }
}

/// What a turn of one side gave.
#[derive(Clone, Copy, Default)]
struct Turn {
    /// Calls and grants a second.
    rate: f64,
    granted: f64,
    /// Of a call, in microseconds.
    processor: f64,
}

/// Rates and ratios of a round, and the processor's times.
type Round = [f64; 9];

fn median(rounds: &[Round], column: usize) -> f64 {
    let mut numbers = rounds.iter().map(|round| round[column]).collect::<Vec<_>>();
    numbers.sort_by(f64::total_cmp);
    numbers[ROUNDS / 2]
}

/// Workers of one kind, each with its random numbers, and the server's processes that they are connected to.
struct Side {
    workers: Vec<(u64, Worker)>,
    servers: Vec<i64>,
}

impl Side {
    fn new(to: &str, name: &str, count: u64, worker: impl Fn(&str) -> Worker) -> Side {
        let named = format!("{to} application_name={name}");
        let workers = (0..count).map(|number| (number, worker(&named))).collect();
        let query = format!("select pid from pg_stat_activity where application_name = '{name}'");
        let rows = rows(to, &query);
        Side { workers, servers: (0..rows.count()).map(|row| rows.number(row, 0)).collect() }
    }

    /// Each side has a turn.
    fn round(sides: &mut [Side; 3], round: usize, turn: Duration) -> Round {
        let mut turns = [Turn::default(); 3];
        for place in 0..3 {
            let side = (round + place) % 3;
            turns[side] = sides[side].turn(turn);
        }
        let [asked, updated, packed] = turns;
        [
            asked.rate,
            100.0 * asked.granted / asked.rate,
            updated.rate,
            asked.rate / updated.rate,
            packed.rate,
            asked.rate / packed.rate,
            asked.processor,
            updated.processor,
            packed.processor,
        ]
    }

    fn turn(&mut self, turn: Duration) -> Turn {
        let served = |servers: &[i64]| {
            servers.iter().map(|server| processor(&format!("/proc/{server}"))).sum::<f64>()
        };
        let (start, before) = (Instant::now(), served(&self.servers));
        let ended = thread::scope(|scope| {
            let running = self.workers.iter_mut().map(|(random, each)| {
                scope.spawn(move || {
                    let before = processor("/proc/thread-self");
                    let mut counts = [0.0, 0.0];
                    let mut last = false;
                    while !last {
                        last = start.elapsed() >= turn;
                        *random = random
                            .wrapping_mul(6_364_136_223_846_793_005)
                            .wrapping_add(1_442_695_040_888_963_407);
                        counts[usize::from(each(*random >> 33, last))] += 1.0;
                    }
                    [counts[0], counts[1], processor("/proc/thread-self") - before]
                })
            });
            let running = running.collect::<Vec<_>>();
            running.into_iter().map(|worker| worker.join().expect("a worker")).collect::<Vec<_>>()
        });
        let seconds = start.elapsed().as_secs_f64();
        let [denied, granted, worked] =
            array::from_fn(|place| ended.iter().map(|worker| worker[place]).sum::<f64>());
        let (all, processor) = (denied + granted, worked + served(&self.servers) - before);
        Turn { rate: all / seconds, granted: granted / seconds, processor: processor / all }
    }
}

/// The time that a process or thread had a processor, in microseconds.
fn processor(folder: &str) -> f64 {
    let text = std::fs::read_to_string(format!("{folder}/schedstat")).expect("a local server");
    let nanoseconds: f64 = text.split(' ').next().and_then(|first| first.parse().ok()).expect("it");
    nanoseconds / 1e3
}

/// The rows of a query.
fn rows(to: &str, query: &str) -> Rows {
    let query = CString::new(query).expect("no zero in it");
    let mut connection = Connection::open(to, &[(c"query", &query)]).expect("a server");
    connection.run(&[(c"query", &[])]).expect("a server").remove(0)
}

/// Makes the circles, every other one after a share, and tables of the same columns.
fn prepare(to: &str, monitor: &Monitor) {
    let mut circles = Circles::connect(to).expect("a server");
    let mut shared = Monitor::resume(monitor.terms().clone(), monitor.state().clone()).expect("it");
    assert!(shared.request(asked(0)).expect("a share").is_grant());
    Connection::script(to, &format!("delete from circle where id >= {FIRST}")).expect("none");
    circles.create(FIRST, monitor).expect("a circle");
    circles.create(FIRST + 1, &shared).expect("another");
    let from = format!(
        "from circle, generate_series(2, {MOST} - 1, 2) as n where id in ({FIRST}, {FIRST} + 1)"
    );
    let mut script =
        vec![format!("insert into circle select id + n, version, terms, state {from}")];
    for table in [PLAIN, PACKED] {
        script.push(format!("set client_min_messages = error; drop table if exists {table}"));
        script.push(format!("create table {table} (like circle including all)"));
        script.push(format!("insert into {table} select * from circle where id >= {FIRST}"));
    }
    let hex = plain(monitor).iter().map(|byte| format!("{byte:02x}")).collect::<String>();
    script.push(format!("update {PLAIN} set state = '\\x{hex}'"));
    script.push("vacuum (full, analyze)".to_string());
    for statement in script {
        Connection::script(to, &statement).expect("tables");
    }
}

/// The words of a state as they are.
fn plain(monitor: &Monitor) -> Vec<u8> {
    monitor.state().words().iter().flat_map(|word| word.to_le_bytes()).collect()
}

fn asked(number: usize) -> Request {
    let (event, from, to) = ASKED[number];
    Request { event: Event(event), from: Member(from), to: Member(to) }
}

/// Asks, each time by a key of its own, the circle that was locked by the time before.
fn requests(to: &str, circles: i64) -> Worker {
    let mut connection = Circles::connect(to).expect("a server");
    let now = SystemTime::now().duration_since(UNIX_EPOCH).expect("after 1970").as_nanos();
    let mut key = now << 32;
    let mut circle = FIRST;
    Box::new(move |random, last| {
        let next = FIRST + (random / 4) as i64 % circles;
        key += 1;
        let request = asked(random as usize % ASKED.len());
        let ahead = (!last).then_some(next);
        let told = connection.request_before(circle, key.to_be_bytes(), request, ahead);
        circle = next;
        told.expect("a server").expect("an answer").is_grant()
    })
}

/// Writes a state, one byte of it another each time.
fn updates(to: &str, circles: i64, table: &str, mut state: Vec<u8>) -> Worker {
    let query = format!("update {table} set state = $2, version = version + 1 where id = $1");
    let query = CString::new(query).expect("no zero in it");
    let mut connection = Connection::open(to, &[(c"update", &query)]).expect("a server");
    let place = state.len() - 1;
    Box::new(move |random, _| {
        state[place] = random as u8 & 7;
        let id = (FIRST + (random / 4) as i64 % circles).to_be_bytes();
        connection.commit(&[(c"update", &[&id, &state])], &[]).expect("a server");
        true
    })
}
