//! How much of its stack a call uses: a thread on lent memory full of a pattern, of which the lowest byte that was
//! written is looked for afterwards.
use super::faults::{FUNCTIONS, Function, Input, least};
use super::rooms::Fenced;
use crate::generators::random::{Rng, stride, turns};
use crate::generators::records::random::EXAMPLES;
use crate::generators::{large, mixed};
use port::document;
use port::plans::plan;
use port::records::Rooms;
use preset::owned;
use std::ffi::{c_int, c_void};

// Linux, 64 bits: what pthread_attr_t takes.
#[repr(C, align(8))]
struct Attributes([u8; 56]);

type Start = extern "C" fn(*mut c_void) -> *mut c_void;

unsafe extern "C" {
    fn pthread_attr_init(attr: *mut Attributes) -> c_int;
    fn pthread_attr_setstack(attr: *mut Attributes, at: *mut c_void, n: usize) -> c_int;
    fn pthread_attr_destroy(attr: *mut Attributes) -> c_int;
    fn pthread_create(
        thread: *mut usize,
        attr: *const Attributes,
        start: Start,
        work: *mut c_void,
    ) -> c_int;
    fn pthread_join(thread: usize, result: *mut *mut c_void) -> c_int;
}

// What the thread is to do, and where its stack stands when it does.
struct Job<'a> {
    work: &'a mut (dyn FnMut() + Send),
    from: usize,
}

extern "C" fn start(job: *mut c_void) -> *mut c_void {
    // SAFETY: `on` hands out its own job, and waits for this thread before it looks at it again.
    let job = unsafe { &mut *job.cast::<Job>() };
    job.from = (&raw const job) as usize;
    (job.work)();
    std::ptr::null_mut()
}

// Where the stack stands when the work begins.
fn on(stack: &mut [u8], work: &mut (dyn FnMut() + Send)) -> usize {
    let mut job = Job { work, from: 0 };
    let (mut attr, mut thread) = (Attributes([0; 56]), 0);
    let (at, n) = (stack.as_mut_ptr().cast(), stack.len());
    // SAFETY: the stack is live memory that nobody else uses until the thread is joined, as is the job.
    unsafe {
        assert_eq!(pthread_attr_init(&mut attr), 0);
        assert_eq!(pthread_attr_setstack(&mut attr, at, n), 0);
        let job = (&raw mut job).cast();
        assert_eq!(pthread_create(&mut thread, &attr, start, job), 0);
        assert_eq!(pthread_join(thread, std::ptr::null_mut()), 0);
        pthread_attr_destroy(&mut attr);
    }
    job.from
}

const SIZE: usize = 1 << 18;

/// The bytes below the caller's frame that a call wrote to, by two patterns, the greater.
pub fn used(mut work: impl FnMut() + Send) -> usize {
    let mut memory = Fenced::new(SIZE);
    let by = [0xC3, 0x3A].map(|pattern| {
        memory.bytes().fill(pattern);
        let from = on(memory.bytes(), &mut work);
        let stack = memory.bytes();
        let untouched = stack.iter().take_while(|b| **b == pattern).count();
        from - (stack.as_ptr() as usize + untouched)
    });
    by[0].max(by[1])
}

/// Does the work on a stack of so many bytes, with a protected page below.
pub fn within(bytes: usize, mut work: impl FnMut() + Send) {
    on(Fenced::new(bytes).bytes(), &mut work);
}

/// What is called, the most bytes of stack that it takes, and on which text.
pub type Most = (&'static str, usize, &'static str);

/// Of each function that starts from a text, and of the views of each sort, with the Rust that copies out what they
/// show.
pub fn most() -> Vec<Most> {
    let texts = texts();
    let calls = [&DOCUMENT].into_iter().chain(FUNCTIONS);
    let calls = calls.map(|f| greatest(f.called, &texts, |text| text.calling(f)));
    let views = VIEWS.iter();
    let views = views.map(|(what, view)| greatest(what, &texts, |text| text.viewing(*view)));
    calls.chain(views).collect()
}

fn greatest(called: &'static str, texts: &[Text], bytes: impl Fn(&Text) -> usize) -> Most {
    let each = texts.iter().map(|text| (bytes(text), text.called));
    let (bytes, text) = each.max().expect("some texts");
    (called, bytes, text)
}

const DOCUMENT: Function = Function {
    called: "document_read",
    rooms: 2,
    last: 16,
    call: |i, [store, tree, _]| document::read(i.text, store, tree).into(),
};

// Of a preset that was planned, and each key that it can be planned with.
type View = fn(Rooms, &[Vec<u8>]);

const VIEWS: [(&str, View); 4] = [
    ("views of a tree", |rooms, _| {
        document::rebuild(rooms.tree, rooms.store, rooms.made).expect("a tree");
    }),
    ("views of a preset", |rooms, _| {
        owned::preset(rooms, NAME).expect("records");
    }),
    ("views of a plan of the boot chain", |rooms, _| {
        owned::plan(rooms, NAME, None.into()).expect("a plan");
    }),
    ("views of a plan of an application", |rooms, keys| {
        for key in keys {
            owned::plan(rooms, NAME, Some(&key[..]).into()).expect("a plan");
        }
    }),
];

const NAME: &[u8] = b"board";

// A text; where it is a preset that can be planned, its rooms after that, and the applications that go with it.
struct Text {
    called: &'static str,
    bytes: Vec<u8>,
    planned: Option<Planned>,
}

struct Planned {
    store: Vec<u8>,
    tree: Vec<u8>,
    made: usize,
    keys: Vec<Vec<u8>>,
}

impl Text {
    fn new(called: &'static str, bytes: impl Into<Vec<u8>>) -> Self {
        let bytes = bytes.into();
        let planned = Planned::new(&bytes);
        Text {
            called,
            bytes,
            planned,
        }
    }

    // With fewer applications, since all views of a plan are called for each: the first, one between and the last.
    fn fewer(mut self) -> Self {
        if let Some(Planned { keys, .. }) = &mut self.planned
            && keys.len() > 3
        {
            *keys = [0, keys.len() / 2, keys.len() - 1]
                .map(|i| keys[i].clone())
                .into();
        }
        self
    }

    // With each application that can be selected, and with one that cannot; once where none is asked for.
    fn calling(&self, function: &Function) -> usize {
        let mut rooms = rooms();
        let most = if function.last < 80 { 1 } else { usize::MAX };
        let keys = self.planned.iter().flat_map(|p| &p.keys);
        let keys = keys.map(Vec::as_slice).chain([&b"undeclared"[..]]);
        let keys: Vec<_> = keys.take(most).collect();
        let (text, name) = (&self.bytes[..], NAME);
        used(|| {
            for key in &keys {
                let input = Input { text, name, key };
                (function.call)(input, rooms.each_mut().map(Vec::as_mut_slice));
            }
        })
    }

    fn viewing(&self, view: View) -> usize {
        let shown = |p: &Planned| used(|| view(p.rooms(), &p.keys));
        self.planned.as_ref().map_or(0, shown)
    }
}

impl Planned {
    fn new(text: &[u8]) -> Option<Self> {
        let [mut store, mut tree, _] = rooms();
        let made = made_of(text, None, &mut store, &mut tree)?;
        let mut out = Planned {
            store,
            tree,
            made,
            keys: Vec::new(),
        };
        let apps = owned::preset(out.rooms(), NAME).expect("records").apps;
        let [mut store, mut tree, _] = rooms();
        let keys = apps.into_keys().map(String::into_bytes);
        let selected = |k: &Vec<u8>| made_of(text, Some(k), &mut store, &mut tree).is_some();
        out.keys.extend(keys.filter(selected));
        Some(out)
    }

    fn rooms(&self) -> Rooms<'_> {
        let Planned { tree, store, .. } = self;
        let made = self.made;
        Rooms { tree, store, made }
    }
}

fn rooms() -> [Vec<u8>; 3] {
    least(NAME).map(|length| vec![0; length])
}

// How many values there are in the rooms of a plan; nothing, where it is refused.
fn made_of(text: &[u8], key: Option<&[u8]>, store: &mut [u8], tree: &mut [u8]) -> Option<usize> {
    let got = plan(text, NAME, key.into(), store, tree);
    (got.number == 0).then_some(got.made as usize)
}

const SEED: u64 = 64;
const RANDOM: usize = 300;

// Every application is selected in the fullest of them, or each fifth where programs are emulated.
fn texts() -> Vec<Text> {
    let mut fullest = Text::new("all lists full, with long names", large::named());
    let keys = &mut fullest.planned.as_mut().expect("a plan").keys;
    assert_eq!(keys.len(), 64, "applications of the fullest");
    *keys = keys.iter().step_by(stride()).cloned().collect();
    let full = large::full();
    let others: [(_, String); 10] = [
        ("all lists full", full.clone()),
        (
            "all lists full, with long names to escape",
            large::long_names(true),
        ),
        ("the longest listing", large::escaped()),
        ("the same in the longest text", large::commented(&full)),
        ("all lists full, of one package", large::shared()),
        ("lists 16 deep in a full preset", large::deep(300) + &full),
        (
            "lists 16 deep in the longest text",
            large::commented(&large::deep(2_000)),
        ),
        ("example.toml", EXAMPLES[0].into()),
        ("stage-d13x.toml", EXAMPLES[1].into()),
        ("tour-d21x.toml", EXAMPLES[2].into()),
    ];
    let mut r = Rng::new(SEED);
    let random = (0..turns(RANDOM)).map(|_| Text::new("a random text", mixed::text(&mut r)));
    let others = others
        .into_iter()
        .map(|(called, text)| Text::new(called, text));
    [fullest]
        .into_iter()
        .chain(others.chain(random).map(Text::fewer))
        .collect()
}
