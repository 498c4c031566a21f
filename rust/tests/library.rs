//! Writes the canonical text of standard input in both forms, by the crate `dnorm`, after the instance went through a
//! thread; a refusal is a line on standard error. The status is 2 for a refused text. With an argument, the text is in
//! the file of this name; its arcs are also written by the crate.
use dnorm::{
    ArcLine, CanonArc, Columns, Declared, Difference, Fit, Form, Instance, Item, Kind, ReadError,
    Reader, Refusal, Star,
};
use std::alloc::{GlobalAlloc, Layout, System};
use std::collections::HashMap;
use std::fs::File;
use std::io::{self, stdin, stdout, ErrorKind, Read, Write};
use std::process::ExitCode;
use std::sync::atomic::{AtomicUsize, Ordering};
use std::thread::{scope, spawn};

/// Units by pair.
type Sums = HashMap<(i64, i64), i64>;

/// Counts the bytes of memory that are asked for.
struct Counting;

#[global_allocator]
static COUNTING: Counting = Counting;
static ASKED: AtomicUsize = AtomicUsize::new(0);

unsafe impl GlobalAlloc for Counting {
    unsafe fn alloc(&self, layout: Layout) -> *mut u8 {
        ASKED.fetch_add(layout.size(), Ordering::Relaxed);
        System.alloc(layout)
    }

    unsafe fn dealloc(&self, made: *mut u8, layout: Layout) {
        System.dealloc(made, layout)
    }
}

/// A reader whose calls are interrupted by turns, and which perhaps fails behind its bytes.
struct Slow {
    left: &'static [u8],
    is_interrupted: bool,
    end: io::Result<usize>,
}

impl Read for Slow {
    fn read(&mut self, room: &mut [u8]) -> io::Result<usize> {
        self.is_interrupted = !self.is_interrupted;
        if self.is_interrupted {
            return Err(ErrorKind::Interrupted.into());
        }
        if self.left.is_empty() {
            return std::mem::replace(&mut self.end, Ok(0));
        }
        self.left.read(&mut room[..1])
    }
}

/// A writer that counts its pieces, and perhaps fails at the end.
struct Pieces {
    written: Vec<u8>,
    count: usize,
    end: io::Result<()>,
}

impl Write for Pieces {
    fn write(&mut self, piece: &[u8]) -> io::Result<usize> {
        self.count += 1;
        self.written.write(piece)
    }

    fn flush(&mut self) -> io::Result<()> {
        std::mem::replace(&mut self.end, Ok(()))
    }
}

/// Reads a text in pieces of this size.
fn read_in_pieces(text: &[u8], size: usize) -> Result<Instance, Refusal> {
    let mut reader = Reader::new()?;
    reader.feed(b"")?;
    assert_eq!(reader.declared(), None);
    for piece in text.chunks(size) {
        reader.feed(piece)?;
    }
    let declared = reader.declared().expect("a problem line");
    let made = reader.finish()?;
    let (kind, nodes, lines) = (made.kind(), made.nodes(), made.lines());
    assert_eq!(declared, Declared { kind, nodes, lines });
    Ok(made)
}

/// Checks that all ways to have the arcs agree.
fn check_arcs(instance: &Instance, form: Form) {
    let arcs: Vec<CanonArc> = instance.arcs(form).collect();
    assert_eq!(arcs.len(), instance.arc_count(form));
    let mut pairs: Vec<_> = arcs.iter().map(|it| (it.tail, it.head)).collect();
    pairs.dedup();
    assert_eq!(pairs.len() as u64, instance.pairs());
    let columns = instance.columns(form);
    let found = all(&columns);
    let numbers: [fn(&CanonArc) -> i64; 5] =
        [|it| it.tail, |it| it.head, |it| it.a, |it| it.b, |it| it.c];
    let has_all = instance.kind() == Kind::Min;
    for (at, of) in numbers.into_iter().enumerate() {
        let kept = arcs.iter().filter(|_| at < 3 || has_all).map(of);
        assert!(kept.eq(found[at].iter().copied()));
    }
    match instance.columns_32(form) {
        Ok(narrow) => assert_eq!(all(&narrow), found),
        Err(_) => assert!(found
            .concat()
            .into_iter()
            .any(|it| i32::try_from(it).is_err())),
    }
    check_star(instance, form, &columns);
}

/// Returns the columns, with numbers of 64 bits.
fn all<Number: Copy + Into<i64>>(it: &Columns<Number>) -> [Vec<i64>; 5] {
    let wide = |column: &Vec<Number>| column.iter().map(|it| (*it).into()).collect();
    [&it.tails, &it.heads, &it.a, &it.b, &it.c].map(wide)
}

/// Checks that a forward star has the arcs of each node.
fn check_star(instance: &Instance, form: Form, columns: &Columns<i64>) {
    match instance.star(form) {
        Ok(mut star) => {
            assert_eq!(star.columns, *columns);
            star.reverse();
            for node in 1..star.first.len() {
                let is_own = |tail: &i64| *tail == node as i64;
                assert!(columns.tails[star.arcs_of(node)].iter().all(is_own));
                let into = star.arcs_into(node);
                assert!(into.iter().all(|it| is_own(&columns.heads[*it])));
                assert!(into.windows(2).all(|it| it[0] < it[1]));
            }
            let all = (1..star.first.len())
                .map(|it| star.arcs_of(it).len())
                .sum::<usize>();
            assert_eq!((all, star.into.len()), (columns.tails.len(), all));
            check_narrow_star(instance, form, &star);
        }
        Err(why) => assert!(why.is_memory() && instance.nodes() > 1_000_000),
    }
}

/// Checks that a forward star of 32 bits is the same, or cannot be made.
fn check_narrow_star(instance: &Instance, form: Form, star: &Star) {
    match (instance.star_32(form), instance.columns_32(form)) {
        (Ok(mut narrow), Ok(columns)) => {
            assert_eq!(narrow.columns, columns);
            narrow.reverse();
            let same = |left: &[i32], right: &[usize]| {
                left.iter().map(|it| *it as usize).eq(right.iter().copied())
            };
            assert!(same(&narrow.first, &star.first));
            assert!(same(&narrow.into, &star.into));
            assert!(same(&narrow.into_first, &star.into_first));
        }
        (star, columns) => assert!(star.is_err() && columns.is_err()),
    }
}

/// Returns the arc lines of an accepted text, read word by word: the number of each, and its numbers.
fn lines_of(text: &[u8]) -> Vec<[i64; 6]> {
    let text = String::from_utf8_lossy(text);
    let mut found = Vec::new();
    for (line, words) in (1..).zip(text.split('\n').map(str::split_whitespace)) {
        let words: Vec<_> = words.collect();
        if words.first() == Some(&"a") {
            let number = |at: usize| words.get(at).map_or(0, |it| it.parse().expect("a number"));
            let [tail, head, a, b, c] = [1, 2, 3, 4, 5].map(number);
            found.push([line, tail, head, a, b, c]);
        }
    }
    found
}

/// Checks that the arc lines of a text are kept, and that a flow can be put back on them.
fn check_lines(text: &[u8]) -> Result<(), ReadError> {
    let wanted = lines_of(text);
    let whole = Instance::read_with_lines(text)?;
    let mut reader = Reader::with_lines()?;
    text.chunks(1).try_for_each(|it| reader.feed(it))?;
    let numbers = |it: &ArcLine| [it.line as i64, it.tail, it.head, it.a, it.b, it.c];
    for it in [&whole, &reader.finish()?] {
        let kept = it.arc_lines().expect("lines").iter().map(numbers);
        assert!(kept.eq(wanted.iter().copied()));
    }
    let without = Instance::from_bytes(text)?;
    assert!(without.arc_lines().is_none() && without.spread(Form::One, &[]).is_err());
    if ![Kind::Min, Kind::Max, Kind::Sp].contains(&whole.kind()) {
        assert!(whole.spread(Form::One, &[]).is_err());
        return Ok(());
    }
    let mut random = text.len() as u64;
    for form in [Form::One, Form::Two].repeat(3) {
        check_flow(&whole, form, &wanted, &mut random);
    }
    Ok(())
}

/// Returns a random number from 0 to this one.
fn up_to(most: i64, random: &mut u64) -> i64 {
    *random = random.wrapping_mul(6364136223846793005).wrapping_add(1);
    ((*random >> 1) % (most as u64 + 1)) as i64
}

/// Returns a flow whose sums by pair are these, in random parts.
fn flow_of(graph: &Instance, form: Form, mut left: Sums, random: &mut u64) -> Vec<i64> {
    let mut arcs = graph.arcs(form).map(|it| (it.tail, it.head)).peekable();
    let mut flow = Vec::new();
    while let Some(pair) = arcs.next() {
        let rest = left.get_mut(&pair).expect("a line");
        let is_last = arcs.peek() != Some(&pair);
        let some = if is_last { *rest } else { up_to(*rest, random) };
        flow.push(some);
        *rest -= some;
    }
    flow
}

/// Checks that a random flow is put on the cheapest arc lines, of equal ones on the first, and that others are none.
fn check_flow(graph: &Instance, form: Form, lines: &[[i64; 6]], random: &mut u64) {
    // The pair, the lower bound, the units above it, and the cost of each.
    let parts = lines.iter().map(|it| match graph.kind() {
        Kind::Min => ((it[1], it[2]), it[3], it[4] - it[3], it[5]),
        Kind::Max => ((it[1], it[2]), 0, it[3], 0),
        _ => ((it[1], it[2]), 0, i64::MAX, it[3]),
    });
    let mut parts: Vec<_> = parts.enumerate().collect();
    let (mut sums, mut left) = (Sums::new(), Sums::new());
    for (_, (pair, low, room, _)) in &parts {
        let some = [0, up_to(*room, random), *room][up_to(2, random) as usize];
        // Only in `sp`, the sum may be too large.
        for (of, units) in [(&mut sums, low + some), (&mut left, some)] {
            let sum = of.entry(*pair).or_insert(0);
            *sum = units.saturating_add(*sum);
        }
    }
    let mut flow = flow_of(graph, form, sums, random);
    let mut units = vec![0; lines.len()];
    parts.sort_by_key(|it| it.1 .3);
    for (at, (pair, low, room, _)) in parts {
        let rest = left.get_mut(&pair).expect("a pair");
        let some = room.min(*rest);
        units[at] = low + some;
        *rest -= some;
    }
    assert_eq!(graph.spread(form, &flow).as_ref(), Ok(&units));
    flow.push(0);
    assert!(graph.spread(form, &flow).is_err());
    flow.pop();
    if let Some(last) = flow.last_mut() {
        *last = -1;
        assert!(graph.spread(form, &flow).is_err());
        flow.pop();
        assert!(graph.spread(form, &flow).is_err());
    }
}

/// Checks that an instance has all that another one has, which reads as the same text.
fn check_same(instance: &Instance, again: &Instance, form: Form, text: &[u8]) {
    assert_eq!(again.compare(instance), None);
    assert_eq!(again.compare(again), None);
    assert_eq!((again.kind(), again.nodes(), again.pairs()), {
        (instance.kind(), instance.nodes(), instance.pairs())
    });
    assert!(again.arcs(form).eq(instance.arcs(form)));
    assert!(again.items().eq(instance.items()));
    assert_eq!(again.items().count() as u64, instance.item_count());
    // Several threads read one instance, and iterators go to other threads.
    let (mut arcs, mut items) = (again.arcs(form), instance.items());
    scope(|threads| {
        threads.spawn(|| check_arcs(again, form));
        threads.spawn(|| check_arcs(again, form));
        threads.spawn(move || arcs.next());
        threads.spawn(move || items.next());
    });
    let counted = text
        .split(|it| *it == b'\n')
        .filter(|it| it.starts_with(b"a "));
    assert_eq!(counted.count(), instance.arc_count(form));
}

/// Returns both canonical texts, once the instance was compared with what they read as.
fn texts_of(instance: Instance) -> Result<Vec<u8>, Refusal> {
    let one = instance.canon(Form::One)?;
    let two = instance.canon(Form::Two)?;
    for (form, text) in [(Form::One, &one), (Form::Two, &two)] {
        let again = spawn({
            let text = text.clone();
            move || read_in_pieces(&text, 7)
        });
        check_same(&instance, &again.join().expect("a thread")?, form, text);
    }
    // An instance can end while an iterator that is no longer used is there.
    let mut items = instance.items();
    let first = items.next();
    drop(instance);
    let has_items = |it: &[u8]| it[0] == b'\n' && b"nsqv".contains(&it[1]);
    assert_eq!(first.is_some(), one.windows(2).any(has_items));
    Ok([one, two].concat())
}

/// Texts, in which ` / ` stands for the end of a line, and what they differ in.
const DIFFERING: &str = "\
p sp 2 1 / a 1 2 7 ; p sp 2 1 / a 2 1 -7 ; Pair { tail: 1, head: 2, amount: 0, left: Some(7), right: None }
p sp 2 1 / a 1 2 7 ; p aux sp ss 1 / s 9 ; Kinds(Sp, Ss)
p sp 2 1 / a 1 2 7 ; p sp 3 0 ; Nodes(2, 3)
p min 1 0 / n 1 -9223372036854775808 ; p min 1 0 ; Supply(1, -9223372036854775808, 0)
p max 4 0 / n 1 s / n 2 t ; p max 4 0 / n 3 s / n 2 t ; Source(1, 3)
p max 4 0 / n 1 s / n 2 t ; p max 4 0 / n 1 s / n 4 t ; Sink(2, 4)
p aux sp p2p 1 / q 3 4 ; p aux sp p2p 0 ; Length(1, 0)
p aux sp ss 3 / s 9 / s 8 / s 7 ; p aux sp ss 3 / s 9 / s 8 / s 6 ; Item(3)
p aux sp co 1 / v 7 1 2 ; p aux sp co 1 / v 7 2 2 ; Point(7)
p min 3 1 / a 1 3 0 5 2 ; p min 3 1 / a 1 3 0 4 2 ; \
Pair { tail: 1, head: 3, amount: 5, left: Some(10), right: None }";

/// Checks what differs, with values, and which companions fit.
fn check_pairs() -> Result<(), Refusal> {
    let read = |text: &str| Instance::from_bytes(text.replace(" / ", "\n").as_bytes());
    for row in DIFFERING.lines() {
        let parts: Vec<_> = row.split(" ; ").collect();
        let found: Option<Difference> = read(parts[0])?.compare(&read(parts[1])?);
        assert_eq!(format!("{found:?}"), format!("Some({})", parts[2]));
    }
    let graph = read("p sp 2 1 / a 1 2 7")?;
    let [near, far] = ["p aux sp ss 1 / s 2", "p aux sp ss 1 / s 9"].map(read);
    let far = far?;
    assert_eq!(graph.fits(&near?), Fit::Fits);
    assert_eq!(graph.fits(&far), Fit::NotInGraph(9));
    assert_eq!([far.fits(&graph), graph.fits(&graph)], [Fit::NotKinds; 2]);
    Ok(())
}

/// Checks that a graph of few arcs takes little memory, and that a text is written in large pieces, whose failures are
/// seen.
fn check_costs() -> Result<(), Refusal> {
    for text in ["p sp 2 2\na 1 2 7\na 2 1 7\n", "p aux sp ss 1\ns 9\n"] {
        let before = ASKED.load(Ordering::Relaxed);
        let small = Instance::from_bytes(text.as_bytes())?;
        let count = small.arcs(Form::One).count() + small.items().count();
        let asked = ASKED.load(Ordering::Relaxed) - before;
        assert!(count > 0 && asked < 1000, "{asked} bytes for {text}");
    }
    let arcs: Vec<CanonArc> = (1..=9000).map(arc_of).collect();
    let mut pieces = Pieces {
        written: Vec::new(),
        count: 0,
        end: Err(ErrorKind::TimedOut.into()),
    };
    let failed = dnorm::write(&mut pieces, Kind::Sp, 9000, &[], &arcs).map_err(|it| it.kind());
    assert_eq!(failed, Err(ErrorKind::TimedOut));
    assert!(pieces.count <= 1 + pieces.written.len() / 4096);
    let read = Instance::from_bytes(&pieces.written)?;
    assert!(read.arcs(Form::One).eq(arcs) && read.lines() == 9000);
    let full = File::options().write(true).open("/dev/full");
    assert!(dnorm::write(full.expect("/dev/full"), Kind::Sp, 1, &[], &[]).is_err());
    Ok(())
}

/// Returns how reading a text slowly from a source that ends so ends itself: the number of lines, or the error.
fn read_slowly(left: &'static [u8], end: io::Result<usize>) -> Result<i64, String> {
    let source = Slow {
        left,
        is_interrupted: false,
        end,
    };
    let read = Instance::read(source).map(|it| it.lines());
    read.map_err(|it| match it {
        ReadError::Failed(why) => format!("{:?}", why.kind()),
        other => other
            .refusal()
            .map_or_else(String::new, |why| why.name().to_string()),
    })
}

/// Checks that sources are read to their end, and which error comes first.
fn check_sources() {
    let failed = |kind: ErrorKind| Err(io::Error::from(kind));
    assert_eq!(read_slowly(b"p sp 2 1\na 1 2 7\n", Ok(0)), Ok(1));
    let cut = read_slowly(b"p sp 2 1\n", failed(ErrorKind::TimedOut));
    assert_eq!(cut, Err("TimedOut".to_string()));
    let refused = read_slowly(b"p sp 2 1\nq\n", failed(ErrorKind::TimedOut));
    assert_eq!(refused, Err("WrongLine".to_string()));
    let kind = Instance::open("/none").map_err(|it| match it {
        ReadError::Failed(why) => Some(why.kind()),
        _ => None,
    });
    assert_eq!(kind.err(), Some(Some(ErrorKind::NotFound)));
}

/// Checks what each public type is expected to have.
fn check_habits() {
    let refused = Instance::from_bytes(b"p sp 1 1\n").unwrap_err();
    assert_eq!(refused.number, 20);
    let graph = Instance::from_bytes(b"p sp 3 3\na 1 2 4\na 2 3 1\na 1 3 9\n").expect("a graph");
    assert_eq!(
        format!("{graph:?}"),
        "Instance { kind: Sp, nodes: 3, lines: 3, .. }"
    );
    assert!(format!("{:?} {:?}", graph.arcs(Form::One), Reader::new()).contains("Rows"));
    let mut arcs = graph.arcs(Form::One);
    for left in (0..3).rev() {
        assert!(arcs.next().is_some());
        assert_eq!(arcs.size_hint(), (left, Some(left)));
    }
    assert_eq!(graph.items().size_hint(), (0, Some(0)));
    assert_eq!((&graph).into_iter().map(|it| it.a).sum::<i64>(), 14);
    assert_eq!("max".parse(), Ok(Kind::Max));
    assert!("sp ".parse::<Kind>().is_err());
    assert_eq!(format!("{:>4}", Kind::P2p), " p2p");
    let mut star: dnorm::StarOf<usize, i64> = graph.star(Form::One).expect("a star");
    star.reverse();
    assert_eq!((star.arcs_of(1), star.arcs_into(3)), (0..2, &[1, 2][..]));
    let mut empty = dnorm::Star::default();
    empty.reverse();
    assert!(empty.into_first.is_empty());
    let (mut out, line) = (Vec::new(), dnorm::ArcLine::default());
    assert!(dnorm::write_flow(&mut out, &[line, line], &[4]).is_err() && out.is_empty());
}

/// Checks that the error of a file names it once.
fn check_names(file: &str) {
    let error = Instance::open(file).unwrap_err();
    assert_eq!(error.to_string().matches(file).count(), 1);
    assert!(std::error::Error::source(&error).is_none());
}

fn arc_of(tail: i64) -> CanonArc {
    CanonArc {
        tail,
        head: 1,
        a: -7,
        ..CanonArc::default()
    }
}

/// Writes the text in a file by the crate, once it has no arcs too many.
fn print_file(name: &str) -> Result<(), ReadError> {
    let instance = Instance::open(name)?;
    let items: Vec<Item> = instance.items().collect();
    let arcs: Vec<CanonArc> = instance.arcs(Form::One).collect();
    dnorm::write(stdout(), instance.kind(), instance.nodes(), &items, &arcs)?;
    Ok(())
}

fn print() -> Result<(), ReadError> {
    let mut given = Vec::new();
    stdin().read_to_end(&mut given)?;
    let instance = Instance::read(&given[..])?;
    check_arcs(&instance, Form::One);
    check_lines(&given)?;
    let text = spawn(move || texts_of(instance)).join();
    stdout().write_all(&text.expect("a thread")?)?;
    Ok(())
}

fn main() -> ExitCode {
    check_pairs().expect("instances");
    check_costs().expect("instances");
    check_sources();
    check_habits();
    check_names("/none");
    match std::env::args()
        .nth(1)
        .map_or_else(print, |it| print_file(&it))
    {
        Ok(()) => ExitCode::SUCCESS,
        Err(error) => {
            eprintln!("{error}");
            let refusal = error.refusal();
            assert!(refusal.map_or(true, |it| format!("{it:?}") == it.to_string()));
            ExitCode::from(if refusal.is_some() { 2 } else { 4 })
        }
    }
}
