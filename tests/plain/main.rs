//! The loads of `./bench sim`, answered by plain Rust: the same lines in and out, the same data, and no proofs.
//! It is there to be measured beside the program. It knows all commands, and trusts the loads: refusals that they do
//! not meet are left out, and all noise is taken for a line of no kind.

mod lines;
mod sites;

use lines::{Entry, MAX_AMOUNT, Message, Move, amount, number, put_fields, put_number, site, split};
use sites::{Desk, Link, MAX_REQUESTS, Request, Verdict};
use std::io::{self, Read, Write};

const BLOCK: usize = 65_536;

unsafe extern "C" {
    fn memchr(text: *const u8, byte: i32, length: usize) -> *const u8;
}

/// Where the byte stands first. `std` has no search for a byte that is as fast as the C library's.
fn position(text: &[u8], byte: u8) -> Option<usize> {
    // SAFETY: the pointer and the length are those of one slice.
    let found = unsafe { memchr(text.as_ptr(), byte.into(), text.len()) };
    (!found.is_null()).then(|| found as usize - text.as_ptr() as usize)
}

// ---- all sites

enum Body {
    Entry(usize),
    Line(Vec<u8>),
}

struct Packet {
    from: u8,
    to: u8,
    body: Body,
}

struct World {
    desks: Vec<Desk>,
    links: Vec<Vec<Link>>,
    packets: Vec<Packet>,
    verdicts: Vec<Verdict>,
}

impl World {
    fn new(sites: usize) -> World {
        let links = |_| (0..sites).map(|_| Link::new()).collect();
        World {
            desks: (1..=sites).map(|it| Desk::new(it as u8)).collect(),
            links: (0..sites).map(links).collect(),
            packets: Vec::new(),
            verdicts: Vec::new(),
        }
    }

    fn desk(&mut self, site: u8) -> &mut Desk {
        &mut self.desks[site as usize - 1]
    }

    fn link(&mut self, site: u8, origin: u8) -> &mut Link {
        &mut self.links[site as usize - 1][origin as usize - 1]
    }

    fn line<'a>(&'a self, packet: &'a Packet) -> &'a [u8] {
        match &packet.body {
            Body::Entry(index) => self.desks[packet.from as usize - 1].log.line(*index),
            Body::Line(line) => line,
        }
    }

    /// Keeps a packet, and says its number and line.
    fn send(&mut self, from: u8, to: u8, body: Body, out: &mut Vec<u8>) {
        self.packets.push(Packet { from, to, body });
        out.extend_from_slice(b"packet ");
        put_number(out, self.packets.len() as u64);
        out.push(b' ');
        if let Some(packet) = self.packets.last() {
            out.extend_from_slice(self.line(packet));
        }
    }

    fn send_fields(&mut self, from: u8, to: u8, letter: u8, numbers: &[u64], out: &mut Vec<u8>) {
        let mut line = Vec::with_capacity(40);
        put_fields(&mut line, letter, numbers);
        line.push(b'\n');
        self.send(from, to, Body::Line(line), out);
    }

    fn arrive(&mut self, to: u8, number: usize, out: &mut Vec<u8>) {
        let packet = match number.checked_sub(1).and_then(|it| self.packets.get(it)) {
            Some(packet) if packet.to == to => packet,
            Some(_) => return say(out, b"error NotForSite"),
            None => return say(out, b"error NoPacket"),
        };
        let from = packet.from;
        match Message::read(self.line(packet)) {
            Some(Message::Push(entry)) => self.take_in(to, from, [entry], out),
            Some(Message::Answer(entries)) => self.take_in(to, from, entries, out),
            Some(Message::Query { asker, first, last }) => {
                let line = self.desk(to).log.answer(asker, first, last);
                self.send(to, asker, Body::Line(line), out);
            }
            Some(Message::Beat(number)) => {
                self.link(to, from).hear(number);
                say(out, b"beat");
            }
            Some(Message::Ask { asker, ask, amount }) => self.grant(to, asker, ask, amount, out),
            Some(Message::Deny { denier, ask }) => {
                self.desk(to).end_ask(denier.into(), ask);
                say(out, b"noted");
            }
            None => say(out, b"error"),
        }
    }

    fn take_in(&mut self, to: u8, from: u8, entries: impl IntoIterator<Item = Entry>, out: &mut Vec<u8>) {
        self.verdicts.clear();
        let link = &mut self.links[to as usize - 1][from as usize - 1];
        for entry in entries {
            link.offer(entry, &mut self.verdicts);
        }
        for (place, verdict) in self.verdicts.iter().enumerate() {
            if place > 0 {
                out.push(b' ');
            }
            match verdict {
                Verdict::Ready(number) => {
                    out.extend_from_slice(b"ready ");
                    put_number(out, u64::from(*number));
                }
                Verdict::Held => out.extend_from_slice(b"held"),
                Verdict::Repeat => out.extend_from_slice(b"repeat"),
                Verdict::Full => out.extend_from_slice(b"full"),
            }
        }
        out.push(b'\n');
    }

    fn grant(&mut self, to: u8, asker: u8, ask: u64, amount: u64, out: &mut Vec<u8>) {
        let desk = self.desk(to);
        let (answered, granted) = desk.answered[asker as usize];
        if ask < answered {
            return say(out, b"old");
        }
        if ask == answered && granted {
            return say(out, b"repeated");
        }
        let available = desk.held.saturating_sub(desk.queued);
        let may_grant = ask > answered && available > 0 && !desk.closed() && !desk.accounts[asker as usize].closed;
        desk.answered[asker as usize] = (ask, may_grant);
        if may_grant {
            let number = desk.write(&[Move::Grant { peer: asker, amount: amount.min(available), ask }]);
            return say_number(out, b"granted ", number.into());
        }
        out.extend_from_slice(b"denied ");
        self.send_fields(to, asker, b'D', &[to.into(), asker.into(), ask], out);
    }
}

// ---- the script

fn say(out: &mut Vec<u8>, text: &[u8]) {
    out.extend_from_slice(text);
    out.push(b'\n');
}

fn say_number(out: &mut Vec<u8>, word: &[u8], number: u64) {
    out.extend_from_slice(word);
    put_number(out, number);
    out.push(b'\n');
}

fn say_fields<const N: usize>(out: &mut Vec<u8>, words: [&[u8]; N], numbers: [u64; N]) {
    for (word, number) in words.into_iter().zip(numbers) {
        out.extend_from_slice(word);
        put_number(out, number);
    }
    out.push(b'\n');
}

enum Command<'a> {
    Sites(usize),
    /// The site, and the words of the moves.
    Post(u8, &'a [u8]),
    Issue(u8, u64),
    Give(u8, u8, u64),
    Spend(u8, u64, u64),
    Serve(u8),
    Expire(u8, u64),
    Status(u8, u64),
    Plan(u8),
    Ask(u8, u8),
    Publish(u8, u8),
    Beat(u8, u8),
    Query(u8, u8, bool),
    Arrive(u8, usize),
    Noise(u8, u8),
    Take(u8, u8),
    Close(u8, Option<u8>),
    Report,
}

impl<'a> Command<'a> {
    fn read(line: &'a [u8]) -> Option<Command<'a>> {
        let mut rest = line;
        let rest = &mut rest;
        let first = split(rest, b' ');
        let command = match first {
            b"arrive" => Command::Arrive(site(split(rest, b' '))?, number(split(rest, b' '))? as usize),
            b"publish" => Command::Publish(site(split(rest, b' '))?, site(split(rest, b' '))?),
            b"take" => Command::Take(site(split(rest, b' '))?, site(split(rest, b' '))?),
            b"spend" => {
                let (site, amount) = (site(split(rest, b' '))?, amount(split(rest, b' '))?);
                Command::Spend(site, amount, number(split(rest, b' '))?)
            }
            b"query" => Command::Query(site(split(rest, b' '))?, site(split(rest, b' '))?, false),
            b"give" => Command::Give(site(split(rest, b' '))?, site(split(rest, b' '))?, amount(split(rest, b' '))?),
            b"serve" => Command::Serve(site(split(rest, b' '))?),
            b"status" => Command::Status(site(split(rest, b' '))?, number(split(rest, b' '))?),
            b"plan" => Command::Plan(site(split(rest, b' '))?),
            b"ask" => Command::Ask(site(split(rest, b' '))?, site(split(rest, b' '))?),
            _ => return Command::read_rare(first, rest),
        };
        rest.is_empty().then_some(command)
    }

    fn read_rare(first: &[u8], rest: &mut &'a [u8]) -> Option<Command<'a>> {
        let command = match first {
            b"sites" => Command::Sites(number(split(rest, b' '))? as usize),
            b"issue" => Command::Issue(site(split(rest, b' '))?, amount(split(rest, b' '))?),
            b"beat" => Command::Beat(site(split(rest, b' '))?, site(split(rest, b' '))?),
            b"requery" => Command::Query(site(split(rest, b' '))?, site(split(rest, b' '))?, true),
            b"expire" => Command::Expire(site(split(rest, b' '))?, number(split(rest, b' '))?),
            b"post" => Command::Post(site(split(rest, b' '))?, std::mem::take(rest)),
            b"noise" => {
                let (site, origin) = (site(split(rest, b' '))?, site(split(rest, b' '))?);
                *rest = &[];
                Command::Noise(site, origin)
            }
            b"close" => {
                let site = site(split(rest, b' '))?;
                let heir = if rest.is_empty() { None } else { Some(self::site(split(rest, b' '))?) };
                Command::Close(site, heir)
            }
            b"report" => Command::Report,
            _ => return None,
        };
        rest.is_empty().then_some(command)
    }

    /// The greatest site that it names.
    fn greatest(&self) -> usize {
        let site = match *self {
            Command::Sites(_) | Command::Report => 0,
            Command::Post(site, _)
            | Command::Issue(site, _)
            | Command::Give(site, _, _)
            | Command::Spend(site, _, _)
            | Command::Serve(site)
            | Command::Expire(site, _)
            | Command::Status(site, _)
            | Command::Plan(site)
            | Command::Arrive(site, _)
            | Command::Close(site, _) => site,
            Command::Ask(site, other)
            | Command::Publish(site, other)
            | Command::Beat(site, other)
            | Command::Query(site, other, _)
            | Command::Noise(site, other)
            | Command::Take(site, other) => site.max(other),
        };
        site.into()
    }
}

impl World {
    #[inline(always)]
    fn answer(&mut self, command: &Command, out: &mut Vec<u8>) {
        match *command {
            Command::Sites(_) => say(out, b"error BadCommand"),
            Command::Post(site, words) => match words.split(|it| *it == b' ').map(Move::read).collect() {
                Some(moves) => self.post::<Vec<_>>(site, moves, out),
                None => say(out, b"error BadCommand"),
            },
            Command::Issue(site, amount) => self.post(site, [Move::Issue(amount)], out),
            Command::Give(site, peer, amount) => self.post(site, [Move::Give { peer, amount }], out),
            Command::Spend(site, amount, deadline) => self.spend(site, amount, deadline, out),
            Command::Serve(site) => self.serve(site, out),
            Command::Expire(site, time) => self.expire(site, time, out),
            Command::Status(site, ticket) => self.status(site, ticket, out),
            Command::Plan(site) => {
                let sites = self.desks.len();
                say_number(out, b"asks ", self.desk(site).plan(sites));
            }
            Command::Ask(site, peer) => match self.desk(site).outstanding[peer as usize] {
                Some((ask, amount)) => {
                    let numbers = [site.into(), peer.into(), ask, amount];
                    self.send_fields(site, peer, b'W', &numbers, out);
                }
                None => say(out, b"nothing"),
            },
            Command::Publish(site, peer) => self.publish(site, peer, out),
            Command::Beat(site, peer) => self.beat(site, peer, out),
            Command::Query(site, origin, again) => match self.link(site, origin).want(again) {
                Some((first, last)) => {
                    let numbers = [site.into(), origin.into(), first.into(), last.into()];
                    self.send_fields(site, origin, b'Q', &numbers, out);
                }
                None => say(out, b"nothing"),
            },
            Command::Arrive(site, packet) => self.arrive(site, packet, out),
            Command::Noise(..) => say(out, b"refused 3"),
            Command::Take(site, origin) => self.take(site, origin, out),
            Command::Close(site, heir) => self.close(site, heir, out),
            Command::Report => self.report(out),
        }
    }

    fn beat(&mut self, site: u8, peer: u8, out: &mut Vec<u8>) {
        let numbers = [site.into(), self.desk(site).log.end.into()];
        self.send_fields(site, peer, b'B', &numbers, out);
    }

    fn post<M: AsRef<[Move]>>(&mut self, site: u8, moves: M, out: &mut Vec<u8>) {
        let (desk, moves) = (self.desk(site), moves.as_ref());
        let named = moves.iter().filter_map(Move::gift);
        if desk.closed() {
            say(out, b"error Closed");
        } else if named.into_iter().any(|(peer, _)| desk.accounts[peer as usize].closed) {
            say(out, b"error PeerClosed");
        } else if desk.covers(moves) {
            say_number(out, b"number ", desk.write(moves).into());
        } else {
            say(out, b"error Short");
        }
    }

    fn spend(&mut self, site: u8, amount: u64, deadline: u64, out: &mut Vec<u8>) {
        let desk = self.desk(site);
        if desk.closed() {
            return say(out, b"error Closed");
        }
        if desk.waiting.is_empty() && desk.held >= amount {
            let number = desk.write(&[Move::Spend(amount)]);
            return say_number(out, b"spent ", number.into());
        }
        if desk.waiting.len() + desk.unread.len() >= MAX_REQUESTS {
            return say(out, b"error QueueFull");
        }
        desk.tickets += 1;
        desk.queued += amount;
        let ticket = desk.tickets;
        desk.waiting.push_back(Request { ticket, amount, deadline });
        say_number(out, b"queued ", ticket);
    }

    fn serve(&mut self, site: u8, out: &mut Vec<u8>) {
        let desk = self.desk(site);
        match desk.waiting.pop_front() {
            Some(request) if request.amount <= desk.held => {
                desk.queued -= request.amount;
                let number = desk.write(&[Move::Spend(request.amount)]);
                desk.unread.push((request.ticket, Some(number)));
                out.extend_from_slice(b"served ");
                put_number(out, request.ticket);
                out.push(b' ');
                put_number(out, number.into());
                out.push(b'\n');
            }
            other => {
                if let Some(request) = other {
                    desk.waiting.push_front(request);
                }
                say(out, b"nothing");
            }
        }
    }

    fn expire(&mut self, site: u8, time: u64, out: &mut Vec<u8>) {
        let desk = self.desk(site);
        if time < desk.now {
            return say(out, b"error TimeWentBack");
        }
        desk.now = time;
        let before = desk.unread.len();
        desk.unread.extend(desk.waiting.iter().filter(|it| it.deadline < time).map(|it| (it.ticket, None)));
        desk.waiting.retain(|it| it.deadline >= time);
        desk.queued = desk.waiting.iter().map(|it| it.amount).sum();
        say_number(out, b"expired ", (desk.unread.len() - before) as u64);
    }

    fn status(&mut self, site: u8, ticket: u64, out: &mut Vec<u8>) {
        let desk = self.desk(site);
        match desk.unread.iter().position(|it| it.0 == ticket) {
            Some(place) => match desk.unread.swap_remove(place).1 {
                Some(number) => say_number(out, b"spent ", number.into()),
                None => say(out, b"expired"),
            },
            None if desk.waiting.iter().any(|it| it.ticket == ticket) => say(out, b"waiting"),
            None => say(out, b"unknown"),
        }
    }

    fn publish(&mut self, site: u8, peer: u8, out: &mut Vec<u8>) {
        let log = &mut self.desk(site).log;
        let index = log.cursors[peer as usize] as usize;
        if index == log.rows.len() {
            return say(out, b"nothing");
        }
        log.cursors[peer as usize] += 1;
        self.send(site, peer, Body::Entry(index), out);
    }
}

impl World {
    fn take(&mut self, site: u8, origin: u8, out: &mut Vec<u8>) {
        if self.desk(site).closed() {
            return say(out, b"nothing");
        }
        let Some(entry) = self.link(site, origin).put.pop_front() else {
            return say(out, b"nothing");
        };
        let back = self.desk(site).apply(&entry);
        out.extend_from_slice(b"taken ");
        put_number(out, entry.own().into());
        if let Some(number) = back {
            out.extend_from_slice(b" back ");
            put_number(out, number.into());
        }
        out.push(b'\n');
    }

    fn close(&mut self, site: u8, heir: Option<u8>, out: &mut Vec<u8>) {
        let sites = self.desks.len();
        let desk = self.desk(site);
        if desk.closed() {
            return say(out, b"error Closed");
        }
        if !desk.waiting.is_empty() {
            return say(out, b"error QueueBusy");
        }
        let mut moves = Vec::with_capacity(2);
        if let Some(peer) = heir {
            if desk.accounts[peer as usize].closed {
                return say(out, b"error PeerClosed");
            }
            if desk.held > MAX_AMOUNT {
                return say(out, b"error HeldTooMuch");
            }
            if desk.held > 0 {
                moves.push(Move::Give { peer, amount: desk.held });
            }
        }
        let applied = |it: usize| if it == site as usize { 0 } else { desk.accounts[it].end };
        let ends: Vec<u32> = (1..=sites).map(applied).collect();
        moves.push(Move::Close);
        say_number(out, b"number ", desk.write_with(&moves, &ends).into());
    }

    fn report(&self, out: &mut Vec<u8>) {
        let (mut issued, mut spent, mut held, mut way) = (0, 0, 0, 0);
        for desk in &self.desks {
            let own = &desk.accounts[desk.site as usize];
            say_fields(
                out,
                [b"site ", b" number ", b" issued ", b" spent ", b" held ", b" closed "],
                [desk.site.into(), own.end.into(), own.issued, own.spent, desk.held, own.closed.into()],
            );
            issued += own.issued;
            spent += own.spent;
            held += desk.held;
        }
        for (desk, links) in self.desks.iter().zip(&self.links) {
            let me = desk.site as usize;
            for (origin, link) in self.desks.iter().zip(links).filter(|it| it.0.site != desk.site) {
                let it = origin.site as usize;
                let given = origin.accounts[it].given[me];
                let on_way = given - desk.accounts[it].given[me] - origin.back[me];
                say_fields(
                    out,
                    [b"pair ", b" ", b" applied ", b" put ", b" way "],
                    [desk.site.into(), origin.site.into(), desk.accounts[it].end.into(), link.last.into(), on_way],
                );
                way += on_way;
            }
        }
        say_fields(out, [b"total issued ", b" spent ", b" held ", b" way "], [issued, spent, held, way]);
    }
}

fn answer_line(world: &mut Option<World>, line: &[u8], out: &mut Vec<u8>) {
    match (Command::read(line), world) {
        (None, _) => say(out, b"error BadCommand"),
        (Some(Command::Sites(sites)), world @ None) => {
            *world = Some(World::new(sites));
            say(out, b"ok");
        }
        (Some(_), None) => say(out, b"error NoWorld"),
        (Some(command), Some(world)) if command.greatest() > world.desks.len() => {
            say(out, b"error NoSuchSite");
        }
        (Some(command), Some(world)) => world.answer(&command, out),
    }
}

fn main() -> io::Result<()> {
    let (mut input, mut output) = (io::stdin().lock(), io::stdout().lock());
    let mut block = vec![0; BLOCK];
    let mut carry = Vec::new();
    let mut out = Vec::with_capacity(BLOCK);
    let mut world = None;
    loop {
        let length = input.read(&mut block)?;
        if length == 0 {
            break;
        }
        let mut rest = &block[..length];
        while let Some(end) = position(rest, b'\n') {
            if carry.is_empty() {
                answer_line(&mut world, &rest[..end], &mut out);
            } else {
                carry.extend_from_slice(&rest[..end]);
                answer_line(&mut world, &carry, &mut out);
                carry.clear();
            }
            rest = &rest[end + 1..];
        }
        carry.extend_from_slice(rest);
        output.write_all(&out)?;
        out.clear();
    }
    output.flush()?;
    // The system takes the memory of all lists back at once.
    std::process::exit(0)
}
