//! The memory of docs/MODEL.md in plain Rust: the map, the write buffer, the cache and the board.

/// A write: its value replaces some lanes of a word.
#[derive(Clone, Copy)]
pub struct Store {
    pub word: u32,
    pub lanes: u8,
    pub value: u16,
}

impl Store {
    fn over(self, old: u16) -> u16 {
        match self.lanes {
            1 => (old & 0xff00) | (self.value & 0x00ff),
            2 => (old & 0x00ff) | (self.value & 0xff00),
            _ => self.value,
        }
    }
}

/// A refusal by its number, with its place and floor.
#[derive(Clone, Copy)]
pub struct Fault {
    pub number: u8,
    pub place: u32,
    pub floor: u8,
}

/// The marks of a line.
#[derive(Clone, Copy)]
pub struct Marks {
    pub cacheable: bool,
    pub protect: bool,
}

/// A map, or a stage over one.
pub trait Memory {
    fn words(&self) -> u32;
    fn floor(&self) -> u8;
    fn marks(&self, line: u32) -> Result<Marks, Fault>;
    fn waiting(&self) -> u32;
    fn read(&mut self, word: u32) -> Result<u16, Fault>;
    fn write(&mut self, write: Store) -> Result<(), Fault>;
    fn advance(&mut self);
    fn settled_read(&self, word: u32) -> Result<u16, Fault>;
    fn outside_write(&mut self, write: Store) -> Result<(), Fault>;
    fn snoop(&mut self, word: u32) -> Result<(), Fault>;
    fn flush(&mut self);

    fn check_word(&self, word: u32) -> Result<(), Fault> {
        if word < self.words() {
            Ok(())
        } else {
            Err(Fault { number: 1, place: word, floor: self.floor() })
        }
    }

    fn check_write(&self, write: Store) -> Result<(), Fault> {
        self.check_word(write.word)?;
        if matches!(write.lanes, 1..=3) {
            Ok(())
        } else {
            Err(Fault { number: 2, place: write.word, floor: self.floor() })
        }
    }

    fn settle_all(&mut self) {
        while self.waiting() > 0 {
            self.advance();
        }
    }
}

/// A line of RAM.
#[derive(Clone, Copy)]
pub struct Line {
    pub words: [u16; 8],
    pub cacheable: bool,
    pub protect: bool,
    pub readable: [bool; 8],
}

impl Line {
    pub const ZEROED: Line = Line {
        words: [0; 8],
        cacheable: true,
        protect: false,
        readable: [true; 8],
    };
}

/// RAM with EPROM behind it.
pub struct Map {
    ram: Vec<Line>,
    eprom: Vec<u8>,
    split: u32,
    size: u32,
}

impl Map {
    pub fn new(ram: Vec<Line>, eprom: Vec<u8>) -> Map {
        let split = ram.len() as u32 * 8;
        let size = split + eprom.len() as u32 / 2;
        Map { ram, eprom, split, size }
    }
}

impl Memory for Map {
    fn words(&self) -> u32 {
        self.size
    }

    fn floor(&self) -> u8 {
        1
    }

    fn marks(&self, line: u32) -> Result<Marks, Fault> {
        if line >= self.size / 8 {
            return Err(Fault { number: 1, place: line, floor: 1 });
        }
        Ok(match self.ram.get(line as usize) {
            Some(line) => Marks { cacheable: line.cacheable, protect: line.protect },
            None => Marks { cacheable: true, protect: true },
        })
    }

    fn waiting(&self) -> u32 {
        0
    }

    fn read(&mut self, word: u32) -> Result<u16, Fault> {
        self.settled_read(word)
    }

    fn write(&mut self, write: Store) -> Result<(), Fault> {
        self.outside_write(write)
    }

    fn advance(&mut self) {}

    fn settled_read(&self, word: u32) -> Result<u16, Fault> {
        self.check_word(word)?;
        if word < self.split {
            let line = &self.ram[word as usize / 8];
            let place = word as usize % 8;
            if line.readable[place] {
                Ok(line.words[place])
            } else {
                Err(Fault { number: 3, place: word, floor: 0 })
            }
        } else {
            let at = (word - self.split) as usize * 2;
            Ok(u16::from_le_bytes([self.eprom[at], self.eprom[at + 1]]))
        }
    }

    fn outside_write(&mut self, write: Store) -> Result<(), Fault> {
        self.check_write(write)?;
        if write.word < self.split {
            let line = &mut self.ram[write.word as usize / 8];
            if !line.protect {
                let word = &mut line.words[write.word as usize % 8];
                *word = write.over(*word);
            }
        }
        Ok(())
    }

    fn snoop(&mut self, word: u32) -> Result<(), Fault> {
        self.check_word(word)
    }

    fn flush(&mut self) {}
}

/// A stage that holds up to four writes back, in a ring.
pub struct Buffer<M> {
    below: M,
    ring: [Store; 4],
    oldest: usize,
    len: usize,
    size: u32,
    level: u8,
}

impl<M: Memory> Buffer<M> {
    pub fn new(below: M) -> Buffer<M> {
        let size = below.words();
        let level = below.floor().saturating_add(1);
        let ring = [Store { word: 0, lanes: 3, value: 0 }; 4];
        Buffer { below, ring, oldest: 0, len: 0, size, level }
    }

    // Sends the oldest write below, where one waits.
    fn send(&mut self) -> bool {
        if self.len == 0 {
            return false;
        }
        let write = self.ring[self.oldest];
        self.oldest = (self.oldest + 1) % 4;
        self.len -= 1;
        // It was checked when it joined.
        let _ = self.below.write(write);
        true
    }
}

impl<M: Memory> Memory for Buffer<M> {
    fn words(&self) -> u32 {
        self.size
    }

    fn floor(&self) -> u8 {
        self.level
    }

    fn marks(&self, line: u32) -> Result<Marks, Fault> {
        if line >= self.size / 8 {
            return Err(Fault { number: 1, place: line, floor: self.level });
        }
        self.below.marks(line)
    }

    fn waiting(&self) -> u32 {
        self.below.waiting().saturating_add(self.len as u32)
    }

    fn read(&mut self, word: u32) -> Result<u16, Fault> {
        self.check_word(word)?;
        while self.send() {}
        self.below.read(word)
    }

    fn write(&mut self, write: Store) -> Result<(), Fault> {
        self.check_write(write)?;
        if self.len == 4 {
            self.send();
        }
        self.ring[(self.oldest + self.len) % 4] = write;
        self.len += 1;
        Ok(())
    }

    fn advance(&mut self) {
        if self.below.waiting() > 0 || self.send() && self.below.waiting() > 0 {
            self.below.advance();
        }
    }

    fn settled_read(&self, word: u32) -> Result<u16, Fault> {
        self.check_word(word)?;
        self.below.settled_read(word)
    }

    fn outside_write(&mut self, write: Store) -> Result<(), Fault> {
        self.check_write(write)?;
        self.below.outside_write(write)
    }

    fn snoop(&mut self, word: u32) -> Result<(), Fault> {
        self.check_word(word)?;
        self.below.snoop(word)
    }

    fn flush(&mut self) {
        self.below.flush();
    }
}

// One way of a set; it holds a line where it is valid.
#[derive(Clone, Copy)]
struct Way {
    valid: bool,
    protect: bool,
    tag: u32,
    words: [u16; 8],
}

// The four ways of a set and its three marks.
#[derive(Clone, Copy)]
struct Set {
    ways: [Way; 4],
    marks: [bool; 3],
}

impl Set {
    const EMPTY: Set = Set {
        ways: [Way { valid: false, protect: false, tag: 0, words: [0; 8] }; 4],
        marks: [false; 3],
    };

    fn find(&self, line: u32) -> Option<usize> {
        self.ways.iter().position(|way| way.valid && way.tag == line / 256)
    }

    fn touch(&mut self, way: usize) {
        self.marks[0] = way < 2;
        self.marks[1 + way / 2] = way % 2 == 0;
    }

    fn victim(&self) -> usize {
        match self.marks {
            [false, false, _] => 0,
            [false, true, _] => 1,
            [true, _, false] => 2,
            [true, _, true] => 3,
        }
    }
}

// A line that is being fetched word by word.
struct Fill {
    line: u32,
    first: u8,
    way: usize,
    protect: bool,
    // A bit for each place that is there.
    ticks: u8,
    words: [u16; 8],
}

impl Fill {
    fn next_place(&self) -> u8 {
        self.first ^ self.ticks.count_ones() as u8
    }

    fn put(&mut self, value: u16) {
        let place = self.next_place() % 8;
        self.words[place as usize] = value;
        self.ticks |= 1 << place;
    }
}

/// The 82396SX as a stage.
pub struct Cache<M> {
    below: M,
    sets: Box<[Set; 256]>,
    fill: Option<Fill>,
    size: u32,
    level: u8,
}

impl<M: Memory> Cache<M> {
    pub fn new(below: M) -> Cache<M> {
        let size = below.words();
        let level = below.floor().saturating_add(1);
        Cache { below, sets: Box::new([Set::EMPTY; 256]), fill: None, size, level }
    }

    fn set_of(&mut self, line: u32) -> &mut Set {
        &mut self.sets[line as usize % 256]
    }

    // The word, where the line buffer has fetched it.
    fn fetched(&self, word: u32) -> Option<u16> {
        let fill = self.fill.as_ref()?;
        let place = word % 8;
        (fill.line == word / 8 && (fill.ticks >> place) & 1 == 1).then(|| fill.words[place as usize])
    }

    // The word, where a way holds its line; the way is touched.
    fn hit(&mut self, word: u32) -> Option<u16> {
        let set = self.set_of(word / 8);
        let way = set.find(word / 8)?;
        set.touch(way);
        Some(set.ways[way].words[word as usize % 8])
    }

    // Fetches the next word of the fill, where one is under way.
    fn fetch(&mut self) {
        let Some(fill) = &mut self.fill else { return };
        let word = fill.line * 8 + u32::from(fill.next_place());
        match self.below.read(word) {
            Ok(value) => fill.put(value),
            Err(_) => {
                self.fill = None;
                return;
            }
        }
        if fill.ticks == 0xff {
            let set = &mut self.sets[fill.line as usize % 256];
            set.ways[fill.way] = Way {
                valid: true,
                protect: fill.protect,
                tag: fill.line / 256,
                words: fill.words,
            };
            set.touch(fill.way);
            self.fill = None;
        }
    }

    fn finish(&mut self) {
        while self.fill.is_some() {
            self.fetch();
        }
    }

    // Forgets a line, also where it is under fill.
    fn forget(&mut self, line: u32) {
        if self.fill.as_ref().is_some_and(|fill| fill.line == line) {
            self.fill = None;
        }
        let set = self.set_of(line);
        if let Some(way) = set.find(line) {
            set.ways[way].valid = false;
        }
    }
}

impl<M: Memory> Memory for Cache<M> {
    fn words(&self) -> u32 {
        self.size
    }

    fn floor(&self) -> u8 {
        self.level
    }

    fn marks(&self, line: u32) -> Result<Marks, Fault> {
        if line >= self.size / 8 {
            return Err(Fault { number: 1, place: line, floor: self.level });
        }
        self.below.marks(line)
    }

    fn waiting(&self) -> u32 {
        self.below.waiting()
    }

    fn read(&mut self, word: u32) -> Result<u16, Fault> {
        self.check_word(word)?;
        if let Some(value) = self.fetched(word) {
            return Ok(value);
        }
        if let Some(value) = self.hit(word) {
            return Ok(value);
        }
        if self.fill.is_some() {
            self.finish();
            if let Some(value) = self.hit(word) {
                return Ok(value);
            }
        }
        let value = self.below.read(word)?;
        let line = word / 8;
        let marks = self.below.marks(line)?;
        if marks.cacheable {
            let mut fill = Fill {
                line,
                first: (word % 8) as u8,
                way: self.set_of(line).victim(),
                protect: marks.protect,
                ticks: 0,
                words: [0; 8],
            };
            fill.put(value);
            self.fill = Some(fill);
        }
        Ok(value)
    }

    fn write(&mut self, write: Store) -> Result<(), Fault> {
        self.check_write(write)?;
        let line = write.word / 8;
        if self.fill.as_ref().is_some_and(|fill| fill.line == line && !fill.protect) {
            self.finish();
        }
        let set = self.set_of(line);
        if let Some(number) = set.find(line) {
            set.touch(number);
            let way = &mut set.ways[number];
            if !way.protect {
                let word = &mut way.words[write.word as usize % 8];
                *word = write.over(*word);
            }
        }
        self.below.write(write)
    }

    fn advance(&mut self) {
        self.fetch();
        self.below.advance();
    }

    fn settled_read(&self, word: u32) -> Result<u16, Fault> {
        self.check_word(word)?;
        self.below.settled_read(word)
    }

    fn outside_write(&mut self, write: Store) -> Result<(), Fault> {
        self.check_write(write)?;
        self.forget(write.word / 8);
        self.below.outside_write(write)
    }

    fn snoop(&mut self, word: u32) -> Result<(), Fault> {
        self.check_word(word)?;
        self.forget(word / 8);
        self.below.snoop(word)
    }

    fn flush(&mut self) {
        self.sets.fill(Set::EMPTY);
        self.fill = None;
        self.below.flush();
    }
}

/// A call of the board.
#[derive(Clone, Copy)]
pub enum Call {
    Read(u32),
    Write(Store),
    Unposted(Store),
    Advance,
    Lock,
    LockedRead(u32),
    LockedWrite(Store),
    Unlock,
    Ask,
    MasterRead(u32),
    MasterWrite(Store),
    Give,
    Snoop(u32),
    Flush,
}

/// What a call that is taken answers.
#[derive(Clone, Copy)]
pub enum Answer {
    Done,
    Word(u16),
}

#[derive(Clone, Copy, PartialEq)]
enum Mode {
    Free,
    Locked,
    Granted,
}

/// A memory behind a lock and a grant.
pub struct Board<M> {
    memory: M,
    mode: Mode,
}

impl<M: Memory> Board<M> {
    pub fn new(mut memory: M) -> Board<M> {
        memory.settle_all();
        Board { memory, mode: Mode::Free }
    }

    pub fn words(&self) -> u32 {
        self.memory.words()
    }

    pub fn waiting(&self) -> u32 {
        self.memory.waiting()
    }

    // Refuses a call in the wrong mode.
    fn check_mode(&self, fits: bool, number: u8, place: u32) -> Result<(), Fault> {
        if fits {
            Ok(())
        } else {
            Err(Fault { number, place, floor: self.memory.floor().saturating_add(1) })
        }
    }

    fn write_through(&mut self, write: Store) -> Result<Answer, Fault> {
        self.memory.write(write)?;
        self.memory.settle_all();
        Ok(Answer::Done)
    }

    pub fn call(&mut self, call: Call) -> Result<Answer, Fault> {
        let mode = self.mode;
        match call {
            Call::Read(word) => {
                self.check_mode(mode != Mode::Locked, 4, word)?;
                self.memory.read(word).map(Answer::Word)
            }
            Call::Write(write) => {
                self.check_mode(mode != Mode::Locked, 4, write.word)?;
                self.memory.write(write).map(|()| Answer::Done)
            }
            Call::Unposted(write) => {
                self.check_mode(mode != Mode::Locked, 4, write.word)?;
                self.write_through(write)
            }
            Call::LockedRead(word) => {
                self.check_mode(mode == Mode::Locked, 6, word)?;
                self.memory.settled_read(word).map(Answer::Word)
            }
            Call::LockedWrite(write) => {
                self.check_mode(mode == Mode::Locked, 6, write.word)?;
                self.write_through(write)
            }
            Call::MasterRead(word) => {
                self.check_mode(mode == Mode::Granted, 6, word)?;
                self.memory.settled_read(word).map(Answer::Word)
            }
            Call::MasterWrite(write) => {
                self.check_mode(mode == Mode::Granted, 6, write.word)?;
                self.memory.outside_write(write).map(|()| Answer::Done)
            }
            Call::Snoop(word) => self.memory.snoop(word).map(|()| Answer::Done),
            Call::Advance => {
                self.memory.advance();
                Ok(Answer::Done)
            }
            Call::Flush => {
                self.memory.flush();
                Ok(Answer::Done)
            }
            Call::Lock => {
                self.check_mode(mode != Mode::Locked, 4, 0)?;
                self.check_mode(mode != Mode::Granted, 5, 0)?;
                self.memory.settle_all();
                self.mode = Mode::Locked;
                Ok(Answer::Done)
            }
            Call::Ask => {
                self.check_mode(mode != Mode::Locked, 4, 0)?;
                self.check_mode(mode != Mode::Granted, 5, 0)?;
                self.mode = Mode::Granted;
                Ok(Answer::Done)
            }
            Call::Unlock => {
                self.check_mode(mode == Mode::Locked, 6, 0)?;
                self.mode = Mode::Free;
                Ok(Answer::Done)
            }
            Call::Give => {
                self.check_mode(mode == Mode::Granted, 6, 0)?;
                self.mode = Mode::Free;
                Ok(Answer::Done)
            }
        }
    }
}
