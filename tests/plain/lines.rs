//! Words, numbers, and the lines between sites.

pub const MAX_SITES: u64 = 16;
pub const MAX_AMOUNT: u64 = 1_000_000_000;
pub const MAX_ANSWER: usize = 16;
const MAX_MOVES: usize = 16;

// ---- words and numbers

/// Takes the text up to the byte, and leaves what is behind it.
pub fn split<'a>(rest: &mut &'a [u8], byte: u8) -> &'a [u8] {
    let text = *rest;
    match text.iter().position(|&it| it == byte) {
        Some(place) => {
            *rest = &text[place + 1..];
            &text[..place]
        }
        None => {
            *rest = &[];
            text
        }
    }
}

pub fn number(text: &[u8]) -> Option<u64> {
    if text.is_empty() || text.len() > 19 || (text[0] == b'0' && text.len() > 1) {
        return None;
    }
    let mut value = 0;
    for byte in text {
        let digit = byte.wrapping_sub(b'0');
        if digit > 9 {
            return None;
        }
        value = value * 10 + u64::from(digit);
    }
    Some(value)
}

pub fn site(text: &[u8]) -> Option<u8> {
    number(text).filter(|it| (1..=MAX_SITES).contains(it)).map(|it| it as u8)
}

pub fn amount(text: &[u8]) -> Option<u64> {
    number(text).filter(|it| (1..=MAX_AMOUNT).contains(it))
}

pub fn put_number(out: &mut Vec<u8>, number: u64) {
    let mut digits = [0; 20];
    let mut place = digits.len();
    let mut rest = number;
    loop {
        place -= 1;
        digits[place] = b'0' + (rest % 10) as u8;
        rest /= 10;
        if rest == 0 {
            break;
        }
    }
    out.extend_from_slice(&digits[place..]);
}

pub fn put_fields(out: &mut Vec<u8>, letter: u8, numbers: &[u64]) {
    out.push(letter);
    for number in numbers {
        out.push(b' ');
        put_number(out, *number);
    }
}

// ---- entries and messages

#[derive(Clone, Copy)]
pub enum Move {
    Issue(u64),
    Spend(u64),
    Grant { peer: u8, amount: u64, ask: u64 },
    Give { peer: u8, amount: u64 },
    /// How far each site was applied stands beside the moves.
    Close,
    TakeBack { peer: u8, amount: u64 },
}

impl Move {
    pub fn read(field: &[u8]) -> Option<Move> {
        let mut rest = field;
        match split(&mut rest, b':') {
            b"I" => Some(Move::Issue(amount(rest)?)),
            b"S" => Some(Move::Spend(amount(rest)?)),
            b"G" => Some(Move::Grant {
                peer: site(split(&mut rest, b':'))?,
                amount: amount(split(&mut rest, b':'))?,
                ask: number(rest)?,
            }),
            b"R" => Some(Move::Give { peer: site(split(&mut rest, b':'))?, amount: amount(rest)? }),
            b"V" => Some(Move::TakeBack { peer: site(split(&mut rest, b':'))?, amount: number(rest)? }),
            _ => None,
        }
    }

    pub fn put(&self, out: &mut Vec<u8>) {
        let (letter, numbers): (&[u8], [u64; 3]) = match *self {
            Move::Issue(amount) => (b"I", [amount, 0, 0]),
            Move::Spend(amount) => (b"S", [amount, 0, 0]),
            Move::Grant { peer, amount, ask } => (b"G", [peer.into(), amount, ask]),
            Move::Give { peer, amount } => (b"R", [peer.into(), amount, 0]),
            Move::Close => (b"K", [0; 3]),
            Move::TakeBack { peer, amount } => (b"V", [peer.into(), amount, 0]),
        };
        out.extend_from_slice(letter);
        for number in numbers.into_iter().take_while(|it| *it > 0) {
            out.push(b':');
            put_number(out, number);
        }
    }

    /// To whom it gives, and how much.
    pub fn gift(&self) -> Option<(u8, u64)> {
        match *self {
            Move::Grant { peer, amount, .. } | Move::Give { peer, amount } => Some((peer, amount)),
            _ => None,
        }
    }
}

/// How far a closing site applied each one, which is spelled behind its closing move.
pub type Ends = [u32; MAX_SITES as usize];

fn read_ends(field: &[u8]) -> Option<Box<Ends>> {
    let mut rest = field.strip_prefix(b"K:")?;
    let mut ends = Box::new([0; MAX_SITES as usize]);
    for end in ends.iter_mut() {
        if !rest.is_empty() {
            *end = number(split(&mut rest, b':'))? as u32;
        }
    }
    Some(ends)
}

pub struct Entry {
    pub origin: u8,
    pub prev: u32,
    pub moves: Vec<Move>,
    pub ends: Option<Box<Ends>>,
}

impl Entry {
    pub fn own(&self) -> u32 {
        self.prev + self.moves.len() as u32
    }

    pub fn closes(&self) -> bool {
        self.ends.is_some()
    }

    pub fn read(part: &[u8]) -> Option<Entry> {
        let mut rest = part;
        if split(&mut rest, b' ') != b"E" {
            return None;
        }
        let origin = site(split(&mut rest, b' '))?;
        let prev = number(split(&mut rest, b' '))? as u32;
        let own = number(split(&mut rest, b' '))? as u32;
        let mut moves = Vec::with_capacity((own.wrapping_sub(prev) as usize).min(MAX_MOVES));
        let mut ends = None;
        while !rest.is_empty() {
            let field = split(&mut rest, b' ');
            let next = match Move::read(field) {
                Some(next) => next,
                None => {
                    ends = Some(read_ends(field)?);
                    Move::Close
                }
            };
            if next.gift().is_some_and(|(peer, _)| peer == origin) || moves.len() == MAX_MOVES {
                return None;
            }
            moves.push(next);
        }
        let entry = Entry { origin, prev, moves, ends };
        (!entry.moves.is_empty() && entry.own() == own).then_some(entry)
    }
}

pub enum Message {
    Push(Entry),
    Query { asker: u8, first: u32, last: u32 },
    Answer(Vec<Entry>),
    Beat(u32),
    Ask { asker: u8, ask: u64, amount: u64 },
    Deny { denier: u8, ask: u64 },
}

impl Message {
    pub fn read(line: &[u8]) -> Option<Message> {
        let text = line.strip_suffix(b"\n")?;
        let mut rest = text;
        match text.first()? {
            b'E' => Some(Message::Push(Entry::read(text)?)),
            b'A' => {
                split(&mut rest, b';');
                let mut entries = Vec::with_capacity(MAX_ANSWER);
                while !rest.is_empty() {
                    entries.push(Entry::read(split(&mut rest, b';'))?);
                }
                Some(Message::Answer(entries))
            }
            b'B' => {
                split(&mut rest, b' ');
                site(split(&mut rest, b' '))?;
                Some(Message::Beat(number(rest)? as u32))
            }
            letter => {
                split(&mut rest, b' ');
                let asker = site(split(&mut rest, b' '))?;
                site(split(&mut rest, b' '))?;
                let first = number(split(&mut rest, b' '))?;
                match letter {
                    b'Q' => Some(Message::Query { asker, first: first as u32, last: number(rest)? as u32 }),
                    b'W' => Some(Message::Ask { asker, ask: first, amount: amount(rest)? }),
                    b'D' => Some(Message::Deny { denier: asker, ask: first }),
                    _ => None,
                }
            }
        }
    }
}
