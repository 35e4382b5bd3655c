// The same evaluation in plain Rust: a constraint of four terms over a row of two parameters.
use std::cmp::Ordering;
use std::hint::black_box;
use std::time::Instant;

#[derive(Clone, Copy, PartialEq)]
enum Truth { Yes, No, Unknown }
#[derive(Clone, Copy)]
enum Rel { Eq, Ne, Gt, Ge, Lt, Le }
enum Literal { Number(i128), Words(String) }
enum Pred { ValueIs(usize, Rel, Literal), Like(usize, String), All(Vec<Pred>) }
struct Value { names: Vec<String> }
struct Param { numeric: bool, values: Vec<Value> }

impl Rel {
    fn holds(self, o: Ordering) -> bool {
        match self {
            Rel::Eq => o.is_eq(), Rel::Ne => o.is_ne(), Rel::Gt => o.is_gt(),
            Rel::Ge => o.is_ge(), Rel::Lt => o.is_lt(), Rel::Le => o.is_le(),
        }
    }
}

// A sign, up to 28 digits, a point and up to 9 digits, scaled by 10^9.
fn read_fixed(text: &str) -> Option<i128> {
    let bytes = text.as_bytes();
    let (minus, digits) = match bytes.first()? { b'-' => (true, &bytes[1..]), b'+' => (false, &bytes[1..]), _ => (false, bytes) };
    let (whole, decimals) = match digits.iter().position(|b| *b == b'.') { Some(i) => (&digits[..i], &digits[i + 1..]), None => (digits, &digits[..0]) };
    if whole.is_empty() || whole.len() > 28 || decimals.len() > 9 || !whole.iter().chain(decimals).all(u8::is_ascii_digit) { return None; }
    let mut n = 0i128;
    for d in whole.iter().chain(decimals) { n = n * 10 + i128::from(d - b'0'); }
    for _ in decimals.len()..9 { n *= 10; }
    Some(if minus { -n } else { n })
}

fn order_text(a: &str, b: &str, fold: bool) -> Ordering {
    if fold { a.bytes().map(|c| c.to_ascii_lowercase()).cmp(b.bytes().map(|c| c.to_ascii_lowercase())) } else { a.cmp(b) }
}

fn like(pattern: &str, text: &str, fold: bool) -> bool {
    let (p, t) = (pattern, text);
    let (mut pi, mut ti, mut star) = (0, 0, None);
    loop {
        let pc = p[pi..].chars().next();
        let tc = t[ti..].chars().next();
        match (pc, tc) {
            (Some('*'), _) => { star = Some((pi + 1, ti)); pi += 1; continue; }
            (Some(x), Some(c)) if x == '?' || x == c || (fold && x.eq_ignore_ascii_case(&c)) => { pi += x.len_utf8(); ti += c.len_utf8(); continue; }
            (None, None) => return true,
            _ => {}
        }
        let Some((back, from)) = star else { return false };
        let Some(c) = t[from..].chars().next() else { return false };
        star = Some((back, from + c.len_utf8()));
        pi = back; ti = from + c.len_utf8();
    }
}

struct Model { params: Vec<Param>, fold: bool }

impl Model {
    fn eval(&self, pred: &Pred, cells: &[Option<u16>]) -> Truth {
        let of = |b: bool| if b { Truth::Yes } else { Truth::No };
        match pred {
            Pred::ValueIs(p, rel, literal) => {
                let Some(v) = cells[*p] else { return Truth::Unknown };
                let param = &self.params[*p];
                let name = &param.values[v as usize].names[0];
                of(rel.holds(match literal {
                    Literal::Number(n) => { debug_assert!(param.numeric); read_fixed(name).unwrap_or(0).cmp(n) }
                    Literal::Words(w) => order_text(name, w, self.fold),
                }))
            }
            Pred::Like(p, pattern) => {
                let Some(v) = cells[*p] else { return Truth::Unknown };
                of(like(pattern, &self.params[*p].values[v as usize].names[0], self.fold))
            }
            Pred::All(parts) => {
                let mut so_far = Truth::Yes;
                for part in parts {
                    match self.eval(part, cells) { Truth::No => return Truth::No, Truth::Unknown => so_far = Truth::Unknown, Truth::Yes => {} }
                }
                so_far
            }
        }
    }
}

fn main() {
    let mut args = std::env::args().skip(1);
    let rule: usize = args.next().unwrap().parse().unwrap();
    let count: u64 = args.next().unwrap().parse().unwrap();
    let value = |names: &[&str]| Value { names: names.iter().map(|n| n.to_string()).collect() };
    let model = Model {
        params: vec![
            Param { numeric: true, values: vec![value(&["1"]), value(&["2.50"]), value(&["-3"])] },
            Param { numeric: false, values: vec![value(&["red", "rot"]), value(&["Green"])] },
        ],
        fold: true,
    };
    let number = |p, rel, n: &str| Pred::ValueIs(p, rel, Literal::Number(read_fixed(n).unwrap()));
    let words = |p, rel, w: &str| Pred::ValueIs(p, rel, Literal::Words(w.to_string()));
    let pattern = |p, w: &str| Pred::Like(p, w.to_string());
    let rules = [
        Pred::All(vec![number(0, Rel::Gt, "1.5"), number(0, Rel::Le, "9"), number(0, Rel::Ne, "3"), number(0, Rel::Ge, "1")]),
        Pred::All(vec![words(1, Rel::Eq, "RED"), words(1, Rel::Ne, "green"), words(1, Rel::Lt, "zebra"), words(1, Rel::Ge, "apple")]),
        Pred::All(vec![pattern(1, "r*"), pattern(1, "?ed"), pattern(1, "*e*"), pattern(1, "r?d")]),
    ];
    let cells = [Some(1), Some(0)];
    let start = Instant::now();
    let mut hits = 0u64;
    for _ in 0..count {
        if black_box(&model).eval(black_box(&rules[rule - 1]), black_box(&cells)) == Truth::Yes { hits += 1; }
    }
    let nanoseconds = start.elapsed().as_nanos() as u64;
    println!("{hits} held, {} evaluations a second", count * 1_000_000_000 / nanoseconds.max(1));
}
