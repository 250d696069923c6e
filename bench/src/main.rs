//! `bench replay`: runs a call list from standard input on the hand-written charger and prints what `replay` prints.
//! `bench random SEED CALLS`: prints a random call list.
//! `bench proved LINES REPORTS`, `bench plain LINES REPORTS`: usage reports that close nothing, on the proved session and on
//! the hand-written one; prints how many calls were accepted.
mod batch;
mod charger;

use batch::Call;
use charger::*;
use std::io::{BufRead, Write};

fn number<T: std::str::FromStr>(w: &str) -> T {
    w.parse().ok().expect("a number")
}

fn key(method: Method, w: &[&str]) -> (Option<Id>, usize) {
    if method == Method::Qos {
        let q: u32 = number(w[0]);
        return ((1..=63).contains(&q).then_some(Id { kind: 5, code: q as u64 }), 1);
    }
    let group: u32 = number(w[0]);
    let id: Option<u32> = if w[1] == "-" { None } else { Some(number(w[1])) };
    let fits = group <= 65535 && id.is_none_or(|i| i <= 65535);
    let code = group as u64 * 131_072 + id.map_or(0, |i| i as u64 + 1);
    (fits.then_some(Id { kind: 4, code }), 2)
}

fn reported(r: Result<(usize, Due), u8>) -> String {
    match r {
        Ok((n, Due::Nothing)) => format!("closed {n} nothing"),
        Ok((n, Due::Sent(m))) => format!("closed {n} sent {m}"),
        Ok((n, Due::Held(m))) => format!("closed {n} held {m}"),
        Err(e) => format!("refused {e}"),
    }
}

fn replay() {
    let mut out = std::io::BufWriter::new(std::io::stdout().lock());
    let mut session: Option<(Session, Method)> = None;
    let mut profile = Vec::new();
    let mut book: Option<Book> = None;
    let mut slip = false;
    for line in std::io::stdin().lock().lines() {
        let line = line.unwrap();
        let w: Vec<&str> = line.split_whitespace().take_while(|w| !w.starts_with('#')).collect();
        if w.is_empty() {
            continue;
        }
        match w[0] {
            "session" => {
                let method = match w[2] {
                    "converged" => Method::Converged,
                    "offline" => Method::Offline,
                    _ => Method::Qos,
                };
                let limits = [number(w[3]), number(w[4]), number(w[5]), number(w[6]), number(w[7])];
                let (s, refused) = Session::new(method, number(w[1]), limits);
                session = Some((s, method));
                match refused {
                    None => writeln!(out, "session: made").unwrap(),
                    Some(n) => writeln!(out, "session: refused {n}").unwrap(),
                }
            }
            "profile" => profile.push(Override {
                trigger: number(w[1]),
                switch: number(w[2]),
                category: number(w[3]),
                threshold: number(w[4]),
            }),
            "book" => {
                let mut places: usize = number(w[1]);
                if profile.len() > 32 {
                    writeln!(out, "book: refused 4").unwrap();
                    (places, profile) = (0, Vec::new());
                } else if places > 4096 {
                    writeln!(out, "book: refused 11 {places}").unwrap();
                    (places, profile) = (0, Vec::new());
                } else {
                    writeln!(out, "book: made").unwrap();
                }
                book = Some(Book { entries: Vec::new(), places, up: true, profile: profile.clone() });
            }
            "link" => book.as_mut().unwrap().up = w[1] == "up",
            name => {
                let (s, method) = session.as_mut().unwrap();
                let b = book.as_mut().unwrap();
                let t: u32 = number(w[w.len() - 1]);
                let answer = match name {
                    "open" => match s.open(t, b) {
                        Ok((a, p)) => {
                            slip = true;
                            format!("applied {a} passed {p}")
                        }
                        Err(e) => format!("refused {e}"),
                    },
                    "start" => reported(s.start(key(*method, &w[1..]).0, t, b)),
                    "usage" => {
                        let (id, n) = key(*method, &w[1..]);
                        reported(s.usage(id, number(w[n + 1]), number(w[n + 2]), t, b))
                    }
                    "end" => reported(s.end(key(*method, &w[1..]).0, t, b)),
                    "change" => reported(s.change(number(w[1]), t, b)),
                    "tick" => reported(s.tick(t, b)),
                    "intervene" => reported(s.intervene(t, b)),
                    "push" => reported(s.push(t, b)),
                    "finish" if !slip => "no slip".into(),
                    "shelve" if !slip => "no slip".into(),
                    "finish" => match s.finish(number(w[1]), t, b) {
                        Ok(n) => {
                            slip = false;
                            format!("sent {n}")
                        }
                        Err(e) => format!("refused {e}"),
                    },
                    "shelve" => match s.shelve(t) {
                        Ok(n) => {
                            slip = false;
                            format!("waiting {n}")
                        }
                        Err(e) => format!("refused {e}"),
                    },
                    _ => panic!("no such line"),
                };
                writeln!(out, "{name}: {answer}").unwrap();
            }
        }
    }
    if slip {
        let s = &mut session.as_mut().unwrap().0;
        let last = s.last();
        writeln!(out, "shelve: waiting {}", s.shelve(last).unwrap()).unwrap();
    }
    for e in book.iter().flat_map(|b| &b.entries) {
        writeln!(
            out,
            "{} {} {} {} {} {} {} {} {}",
            e.kind, e.cause, e.period, e.number, e.from, e.to, e.code, e.up, e.down
        )
        .unwrap();
    }
}

/// splitmix64
struct Random(u64);

impl Random {
    fn next(&mut self) -> u64 {
        self.0 = self.0.wrapping_add(0x9e3779b97f4a7c15);
        let mut z = self.0;
        z = (z ^ (z >> 30)).wrapping_mul(0xbf58476d1ce4e5b9);
        z = (z ^ (z >> 27)).wrapping_mul(0x94d049bb133111eb);
        z ^ (z >> 31)
    }

    fn below(&mut self, n: u64) -> u64 {
        self.next() % n
    }

    fn pick<T: Copy>(&mut self, xs: &[T]) -> T {
        xs[self.below(xs.len() as u64) as usize]
    }
}

fn random(seed: u64, calls: u64) {
    let mut r = Random(seed);
    let method = r.pick(&["converged", "offline", "qos"]);
    let limit = |r: &mut Random, xs: &[u64]| if r.below(2) == 0 { 0 } else { r.pick(xs) };
    let (a, b) = (limit(&mut r, &[1, 20, 50]), limit(&mut r, &[1, 500, 5000]));
    let (c, d) = (limit(&mut r, &[1, 2, 5]), limit(&mut r, &[1, 10, 30]));
    let e = limit(&mut r, &[1, 100, 999_999_999_999, 1_000_000_000_000]);
    println!("session {} {method} {a} {b} {c} {d} {e}", r.below(5));
    for _ in 0..r.pick(&[0, 0, 1, 3, 8, 32, 33]) {
        println!("profile {} {} {} {}", r.below(23), r.below(4), r.below(4), r.pick(&[0u64, 0, 0, 1, 7, 1000, 1_000_000_000_000]));
    }
    println!("book {}", r.pick(&[0, 1, 2, 10, 100, 400, 4096, 4097, 70000]));
    let keys = r.pick(&[1, 2, 4, 40]);
    let key = |r: &mut Random| {
        if method == "qos" {
            format!("{}", if r.below(20) == 0 { r.pick(&[0, 64, 256]) } else { 1 + r.below(keys) })
        } else if r.below(20) == 0 {
            r.pick(&["65536 -", "1 65536", "65535 65535"]).to_string()
        } else {
            let group = 1 + r.below(keys);
            if r.below(2) == 0 { format!("{group} -") } else { format!("{group} {}", r.below(2)) }
        }
    };
    let mut t = r.below(3);
    if r.below(20) != 0 {
        println!("open {t}");
    }
    for _ in 0..calls {
        t += r.pick(&[0, 0, 1, 1, 2, 10]);
        let at = if r.below(30) == 0 { t.saturating_sub(1 + r.below(3)) } else { t };
        match r.below(100) {
            0..20 => println!("start {} {at}", key(&mut r)),
            20..50 => {
                let (u, w) = (r.pick(&[0u32, 1, 99, 100, 250, 4_294_967_295]), r.pick(&[0, 1, 100, 400]));
                println!("usage {} {u} {w} {at}", key(&mut r))
            }
            50..58 => println!("end {} {at}", key(&mut r)),
            58..76 => println!("change {} {at}", r.pick(&[0, 1, 2, 3, 4, 5, 6, 7, 7, 8, 9, 10, 11, 12])),
            76..84 => println!("tick {at}"),
            84..87 => println!("intervene {at}"),
            87..91 => println!("push {at}"),
            91..96 => println!("link {}", r.pick(&["up", "down"])),
            96 => println!("open {at}"),
            97 if r.below(4) == 0 => println!("finish {} {at}", r.pick(&[18, 19, 20])),
            98 if r.below(8) == 0 => println!("shelve {at}"),
            _ => {}
        }
    }
    if r.below(3) != 0 {
        println!("link up\nfinish 19 {t}");
    }
}

/// So many lines, and so many usage reports on them in turn that close nothing.
fn reports(lines: u32, reports: usize) -> Vec<Call> {
    let start = |group| Call { is_usage: false, rating_group: group, uplink: 0, downlink: 0, time: 1 };
    let usage = |group| Call { is_usage: true, rating_group: group, uplink: 1, downlink: 2, time: 2 };
    (0..lines).map(start).chain((0..lines).cycle().take(reports).map(usage)).collect()
}

fn main() {
    let args: Vec<String> = std::env::args().collect();
    match args.get(1).map(String::as_str) {
        Some("replay") => replay(),
        Some("random") => random(number(&args[2]), number(&args[3])),
        Some("proved") => println!("{}", batch::proved(&reports(number(&args[2]), number(&args[3])))),
        Some("none") => println!("{}", reports(number(&args[2]), number(&args[3])).len()),
        Some("plain") => println!("{}", batch::plain(&reports(number(&args[2]), number(&args[3])))),
        _ => eprintln!("bench replay | random SEED CALLS | proved LINES REPORTS | plain LINES REPORTS"),
    }
}
