"""How the two ends of a lane wait for each other: a model of crates/thread_parts/src/bells.rt and ends.rt.

No contract speaks of that. The model has each function there that takes part, line by line: a line of the code stands
above what it does, and a test compares these lines with the code. So an edit of the code that the model does not follow
fails. At each `await` of a word that both ends see, the other end may go on; the code's steps are sequentially
consistent. Items have no names here, since it is proved that they come in order, each once. tests/lane_orders.py runs
the ends in every order of their steps.
"""

import types


@types.coroutine
def step():
    """The other end may go on before the next step of this one."""
    yield


class Word:
    """A word that both ends see, in single steps."""

    def __init__(self, value):
        self.value = value

    async def load(self):
        await step()
        return self.value

    async def store(self, value):
        await step()
        self.value = value

    async def swap(self, value):
        await step()
        old, self.value = self.value, value
        return old


class Heard:
    """The value of a count of rings at some time. What counts is whether it is still the same."""

    def __init__(self, rings):
        self.rings, self.value = rings, rings.value

    def is_current(self):
        return self.value == self.rings.value


class Rings(Word):
    """The count of a bell's rings. An end may sleep until it changes."""

    def __init__(self, lane):
        self.lane, self.value = lane, 0

    async def load(self):
        await step()
        return Heard(self)

    async def fetch_add(self, count):
        await step()
        self.value += count

    async def park(self, heard):
        await step()
        if heard.is_current():
            self.lane.sleepers[self.lane.runs] = self

    async def wake_all(self):
        await step()
        for end, rings in list(self.lane.sleepers.items()):
            if rings is self:
                del self.lane.sleepers[end]


class Bell:
    def __init__(self, lane):
        self.lane, self.rings, self.is_awaited = lane, Rings(lane), Word(False)
        # No part of the code: whether an end listens, and no ring has answered it yet.
        self.is_owed = False

    async def ring(self):
        # if self.is_awaited.load(Ordering::SeqCst) && self.is_awaited.swap(false, Ordering::SeqCst) {
        if await self.is_awaited.load() and await self.is_awaited.swap(False):
            self.answer()
            # self.rings.fetch_add(1, Ordering::SeqCst);
            await self.rings.fetch_add(1)
            # self.rings.wake_all();
            await self.rings.wake_all()

    async def listen(self):
        # let heard = (self.rings.load(Ordering::SeqCst) & 0xffff_ffff) as u32;
        heard = await self.rings.load()
        # self.is_awaited.store(true, Ordering::SeqCst);
        await self.is_awaited.store(True)
        self.is_owed = True
        # heard
        return heard

    async def sleep(self, heard, has_to):
        # if has_to {
        if has_to:
            # self.rings.park(rt, heard);
            await self.rings.park(heard)
        # self.is_awaited.store(false, Ordering::SeqCst);
        await self.is_awaited.store(False)
        self.is_owed = False

    def answer(self):
        if not self.is_owed:
            self.lane.faults.add("wasted")
        self.is_owed = False


class BellPull:
    def __init__(self, put, taken):
        self.put, self.taken = put, taken

    async def drop(self):
        # let Self { bells } = self;
        # bells.put.ring();
        await self.put.ring()
        # bells.taken.ring();
        await self.taken.ring()


class Ring:
    """What rtrb keeps."""

    def __init__(self, capacity):
        self.capacity, self.items = capacity, Word(0)
        self.inlet_is_gone, self.outlet_is_gone = Word(False), Word(False)


class Producer:
    def __init__(self, ring):
        # How many places are known to be free.
        self.ring, self.free = ring, ring.capacity

    async def is_full(self):
        if self.free > 0:
            return False
        self.free = self.ring.capacity - await self.ring.items.load()
        return self.free == 0

    async def push(self):
        if await self.is_full():
            return False
        await step()
        self.free -= 1
        self.ring.items.value += 1
        return True

    async def is_abandoned(self):
        return await self.ring.outlet_is_gone.load()

    async def drop(self):
        await self.ring.inlet_is_gone.store(True)


class Consumer:
    def __init__(self, ring):
        # How many items are known to wait.
        self.ring, self.known = ring, 0

    async def is_empty(self):
        if self.known > 0:
            return False
        self.known = await self.ring.items.load()
        return self.known == 0

    async def pop(self):
        if await self.is_empty():
            return False
        await step()
        self.known -= 1
        self.ring.items.value -= 1
        return True

    async def is_abandoned(self):
        return await self.ring.inlet_is_gone.load()

    async def drop(self):
        await self.ring.outlet_is_gone.store(True)


class Looks:
    """How often an end looked in vain. Once or never is enough here; the code says 64."""

    def __init__(self, most):
        self.most, self.count = most, 0

    def looks_again(self):
        # if *looks >= LOOKS {
        if self.count >= self.most:
            # return false;
            return False
        # hint::spin_loop();
        # *looks += 1;
        self.count += 1
        # true
        return True


class Inlet:
    def __init__(self, lane):
        self.lane, self.producer, self.pull = lane, Producer(lane.ring), BellPull(lane.put, lane.taken)

    async def send(self):
        # if self.dead {
        # return Err(item);
        # let mut item = item;
        # let mut looks = 0;
        looks = Looks(self.lane.looks)
        # for _ in rt.forever() {
        while True:
            # if self.is_cut() {
            if await self.is_cut():
                # self.dead = true;
                # return Err(item);
                return False
            # match self.send_ready(item) {
            # Ok(()) => return Ok(()),
            if await self.send_ready():
                return True
            # Err(back) => item = back,
            # if !looks_again(&mut looks) {
            if not looks.looks_again():
                # self.sleep(rt);
                await self.sleep()
        # unreachable!()

    async def is_cut(self):
        # self.producer.is_abandoned()
        return await self.producer.is_abandoned()

    async def send_ready(self):
        # if let Err(PushError::Full(back)) = self.producer.push(item) {
        if not await self.producer.push():
            # return Err(back);
            return False
        # self.pull.bells.put.ring();
        await self.pull.put.ring()
        # Ok(())
        return True

    async def sleep(self):
        # let heard = self.pull.bells.taken.listen();
        heard = await self.pull.taken.listen()
        # let has_to = self.producer.is_full() && !self.is_cut();
        has_to = await self.producer.is_full() and not await self.is_cut()
        # self.pull.bells.taken.sleep(rt, heard, has_to);
        await self.pull.taken.sleep(heard, has_to)

    async def drop_fields(self):
        # pub(crate) producer: LaneProducer<A>,
        await self.producer.drop()
        # pub(crate) dead: bool,
        # pub(crate) pull: BellPull<A>,
        await self.pull.drop()


class Outlet:
    def __init__(self, lane):
        self.lane, self.consumer, self.pull = lane, Consumer(lane.ring), BellPull(lane.put, lane.taken)

    async def receive(self):
        # if self.dead {
        # return None;
        # let mut looks = 0;
        looks = Looks(self.lane.looks)
        # for _ in rt.forever() {
        while True:
            # let is_cut = self.is_cut();
            is_cut = await self.is_cut()
            # if let Some(item) = self.receive_ready() {
            if await self.receive_ready():
                # return Some(item);
                return True
            # if is_cut {
            if is_cut:
                # self.dead = true;
                # return None;
                return False
            # if !looks_again(&mut looks) {
            if not looks.looks_again():
                # self.sleep(rt);
                await self.sleep()
        # unreachable!()

    async def sleep(self):
        # let heard = self.pull.bells.put.listen();
        heard = await self.pull.put.listen()
        # let has_to = self.consumer.is_empty() && !self.is_cut();
        has_to = await self.consumer.is_empty() and not await self.is_cut()
        # self.pull.bells.put.sleep(rt, heard, has_to);
        await self.pull.put.sleep(heard, has_to)

    async def is_cut(self):
        # self.consumer.is_abandoned()
        return await self.consumer.is_abandoned()

    async def receive_ready(self):
        # if self.dead {
        # return None;
        # let Ok(item) = self.consumer.pop() else {
        if not await self.consumer.pop():
            # return None;
            return False
        # self.pull.bells.taken.ring();
        await self.pull.taken.ring()
        # Some(item)
        return True

    async def drop_fields(self):
        # pub(crate) consumer: LaneConsumer<A>,
        await self.consumer.drop()
        # pub(crate) dead: bool,
        # pub(crate) pull: BellPull<A>,
        await self.pull.drop()


class Lane:
    """A lane whose inlet puts so many items and goes, and whose outlet takes as many as come, at most so many, and
    goes."""

    def __init__(self, capacity, puts, takes, looks):
        self.looks, self.faults = looks, set()
        self.ring, self.put, self.taken = Ring(capacity), Bell(self), Bell(self)
        # Which end makes a step, and where each end sleeps that does.
        self.runs, self.sleepers = None, {}
        self.inlet, self.outlet = Inlet(self), Outlet(self)
        self.ends = {"inlet": self.put_all(puts), "outlet": self.take_all(takes)}

    async def put_all(self, left):
        while left > 0:
            left -= 1
            if not await self.inlet.send():
                self.untrue_unless(self.ring.outlet_is_gone.value)
                left = 0
        await self.inlet.drop_fields()

    async def take_all(self, left):
        while left > 0:
            left -= 1
            if not await self.outlet.receive():
                self.untrue_unless(self.ring.inlet_is_gone.value and self.ring.items.value == 0)
                left = 0
        await self.outlet.drop_fields()

    def untrue_unless(self, is_true):
        if not is_true:
            self.faults.add("untrue")
