//! Cap'n Proto frames in plain Rust, with the checks that ixflow makes and the places that it tells.

/// The rule that a frame breaks, as ixflow names them.
#[derive(Clone, Copy, Debug)]
pub enum Rule {
    F1,
    F2,
    F3,
    F4,
    F5,
    F6,
    F7,
    F8,
}

/// The first fault, and the pointer at which it stands.
#[derive(Debug)]
#[allow(dead_code)]
pub struct Fault {
    pub rule: Rule,
    pub segment: u32,
    pub word: u32,
}

/// An opened file.
pub struct Frame<'a> {
    pub segments: Vec<&'a [u8]>,
}

pub fn u32_in(bytes: &[u8], at: usize) -> u32 {
    u32::from_le_bytes(bytes[at..at + 4].try_into().unwrap())
}

pub fn word_in(bytes: &[u8], word: usize) -> u64 {
    u64::from_le_bytes(bytes[8 * word..8 * word + 8].try_into().unwrap())
}

pub fn open(bytes: &[u8]) -> Result<Frame<'_>, Rule> {
    if bytes.len() < 4 {
        return Err(Rule::F1);
    }
    let count = u32_in(bytes, 0) as usize + 1;
    if count > 512 {
        return Err(Rule::F2);
    }
    let mut at = 8 * (count / 2 + 1);
    if bytes.len() < at {
        return Err(Rule::F1);
    }
    let mut segments = vec![];
    for i in 0..count {
        let length = 8 * u32_in(bytes, 4 + 4 * i) as usize;
        if bytes.len() < at + length {
            return Err(Rule::F1);
        }
        segments.push(&bytes[at..at + length]);
        at += length;
    }
    if at == bytes.len() { Ok(Frame { segments }) } else { Err(Rule::F1) }
}

/// What a pointer leads to, before its size is asked.
#[derive(Clone, Copy)]
pub struct Aim {
    pub described: u64,
    pub segment: u32,
    pub start: i64,
}

pub fn near(segment: u32, word: u32, described: u64) -> Aim {
    let offset = (described as u32 as i32) >> 2;
    Aim { described, segment, start: word as i64 + 1 + offset as i64 }
}

pub fn target(frame: &Frame, segment: u32, word: u32) -> Result<Option<Aim>, Rule> {
    let pointer = word_in(frame.segments[segment as usize], word as usize);
    if pointer == 0 {
        return Ok(None);
    }
    match pointer & 3 {
        0 | 1 => Ok(Some(near(segment, word, pointer))),
        3 => Err(Rule::F5),
        _ => {
            let home = (pointer >> 32) as u32;
            let at = (pointer >> 3) as u32 & 0x1fff_ffff;
            let two = pointer & 4 != 0;
            let Some(&bytes) = frame.segments.get(home as usize) else { return Err(Rule::F3) };
            if bytes.len() < 8 * (at as usize + 1 + two as usize) {
                return Err(Rule::F3);
            }
            let pad = word_in(bytes, at as usize);
            if !two {
                return match pad & 3 {
                    3 => Err(Rule::F5),
                    2 => Err(Rule::F4),
                    _ if pad == 0 => Ok(None),
                    _ => Ok(Some(near(home, at, pad))),
                };
            }
            let tag = word_in(bytes, at as usize + 1);
            if pad & 3 != 2 || pad & 4 != 0 || tag & 3 >= 2 {
                return Err(Rule::F4);
            }
            let start = (pad >> 3 & 0x1fff_ffff) as i64;
            Ok(Some(Aim { described: tag, segment: (pad >> 32) as u32, start }))
        }
    }
}

/// The segment in which these words of an object lie, and where they begin.
pub fn place<'a>(frame: &Frame<'a>, aim: Aim, words: u32) -> Result<(u32, &'a [u8], u32), Rule> {
    let Some(&bytes) = frame.segments.get(aim.segment as usize) else { return Err(Rule::F3) };
    if aim.start < 0 || 8 * (aim.start as u64 + words as u64) > bytes.len() as u64 {
        return Err(Rule::F3);
    }
    Ok((aim.segment, bytes, aim.start as u32))
}

pub fn charge(left: &mut u64, cost: u64) -> Result<(), Rule> {
    if cost > *left {
        return Err(Rule::F7);
    }
    *left -= cost;
    Ok(())
}

/// A struct.
#[derive(Clone, Copy)]
pub struct Obj<'a> {
    pub frame: &'a Frame<'a>,
    pub segment: u32,
    pub bytes: &'a [u8],
    pub start: u32,
    pub data: u16,
    pub pointers: u16,
}

/// A list of structs, by its first; or of numbers or pointers, by its place.
#[derive(Clone, Copy)]
pub struct List<'a> {
    pub first: Obj<'a>,
    pub count: u32,
}

impl<'a> Obj<'a> {
    pub fn empty(frame: &'a Frame<'a>) -> Obj<'a> {
        Obj { frame, segment: 0, bytes: frame.segments[0], start: 0, data: 0, pointers: 0 }
    }

    pub fn u32_at(&self, slot: u32) -> u32 {
        if slot < 2 * self.data as u32 {
            u32_in(self.bytes, 8 * self.start as usize + 4 * slot as usize)
        } else {
            0
        }
    }

    pub fn has(&self, slot: u32) -> bool {
        slot < self.pointers as u32 && word_in(self.bytes, (self.start + self.data as u32 + slot) as usize) != 0
    }

    /// Follows a pointer by one of the functions below; `default` stands past the pointer section.
    pub fn follow<T>(
        &self,
        slot: u32,
        default: T,
        found: impl FnOnce(u32) -> Result<T, Rule>,
    ) -> Result<T, Fault> {
        if slot >= self.pointers as u32 {
            return Ok(default);
        }
        let word = self.start + self.data as u32 + slot;
        found(word).map_err(|rule| Fault { rule, segment: self.segment, word })
    }

    pub fn obj(&self, slot: u32, left: &mut u64) -> Result<Obj<'a>, Fault> {
        self.follow(slot, Obj::empty(self.frame), |word| obj(self.frame, self.segment, word, left))
    }

    pub fn text(&self, slot: u32, left: &mut u64) -> Result<&'a str, Fault> {
        self.follow(slot, "", |word| text(self.frame, self.segment, word, left))
    }

    pub fn list(&self, slot: u32, left: &mut u64) -> Result<List<'a>, Fault> {
        let default = List { first: Obj::empty(self.frame), count: 0 };
        self.follow(slot, default, |word| list(self.frame, self.segment, word, left))
    }

    /// A list of numbers (element size 4) or of texts (6).
    pub fn plain(&self, size: u64, slot: u32, left: &mut u64) -> Result<List<'a>, Fault> {
        let default = List { first: Obj::empty(self.frame), count: 0 };
        self.follow(slot, default, |word| plain(self.frame, self.segment, word, size, left))
    }
}

impl<'a> List<'a> {
    pub fn at(&self, i: u32) -> Obj<'a> {
        let step = self.first.data as u32 + self.first.pointers as u32;
        Obj { start: self.first.start + i * step, ..self.first }
    }

    pub fn text_at(&self, i: u32, left: &mut u64) -> Result<&'a str, Fault> {
        let (segment, word) = (self.first.segment, self.first.start + i);
        text(self.first.frame, segment, word, left).map_err(|rule| Fault { rule, segment, word })
    }
}

pub fn obj<'a>(frame: &'a Frame<'a>, segment: u32, word: u32, left: &mut u64) -> Result<Obj<'a>, Rule> {
    let Some(aim) = target(frame, segment, word)? else { return Ok(Obj::empty(frame)) };
    if aim.described & 3 != 0 {
        return Err(Rule::F4);
    }
    let (data, pointers) = ((aim.described >> 32) as u16, (aim.described >> 48) as u16);
    let words = data as u32 + pointers as u32;
    let (segment, bytes, start) = place(frame, aim, words)?;
    charge(left, words.max(1) as u64)?;
    Ok(Obj { frame, segment, bytes, start, data, pointers })
}

pub fn text<'a>(frame: &'a Frame<'a>, segment: u32, word: u32, left: &mut u64) -> Result<&'a str, Rule> {
    let Some(aim) = target(frame, segment, word)? else { return Ok("") };
    if aim.described & 3 != 1 || aim.described >> 32 & 7 != 2 {
        return Err(Rule::F4);
    }
    let count = (aim.described >> 35) as u32;
    let words = count.div_ceil(8);
    let (_, bytes, start) = place(frame, aim, words)?;
    let cost = words.max(1) as u64;
    if cost > *left {
        return Err(Rule::F7);
    }
    let bytes = &bytes[8 * start as usize..8 * start as usize + count as usize];
    let Some((&0, front)) = bytes.split_last() else { return Err(Rule::F6) };
    let text = std::str::from_utf8(front).map_err(|_| Rule::F6)?;
    *left -= cost;
    Ok(text)
}

pub fn list<'a>(frame: &'a Frame<'a>, segment: u32, word: u32, left: &mut u64) -> Result<List<'a>, Rule> {
    let Some(aim) = target(frame, segment, word)? else {
        return Ok(List { first: Obj::empty(frame), count: 0 });
    };
    if aim.described & 3 != 1 || aim.described >> 32 & 7 != 7 {
        return Err(Rule::F4);
    }
    let words = (aim.described >> 35) as u32;
    let (segment, bytes, start) = place(frame, aim, words + 1)?;
    let tag = word_in(bytes, start as usize);
    if tag & 3 != 0 {
        return Err(Rule::F8);
    }
    let (count, data, pointers) = ((tag >> 2) as u32 & 0x3fff_ffff, (tag >> 32) as u16, (tag >> 48) as u16);
    let step = data as u64 + pointers as u64;
    if count as u64 * step > words as u64 {
        return Err(Rule::F8);
    }
    charge(left, 1 + words as u64 + if step == 0 { count as u64 } else { 0 })?;
    Ok(List { first: Obj { frame, segment, bytes, start: start + 1, data, pointers }, count })
}

pub fn plain<'a>(
    frame: &'a Frame<'a>,
    segment: u32,
    word: u32,
    size: u64,
    left: &mut u64,
) -> Result<List<'a>, Rule> {
    let Some(aim) = target(frame, segment, word)? else {
        return Ok(List { first: Obj::empty(frame), count: 0 });
    };
    if aim.described & 3 != 1 || aim.described >> 32 & 7 != size {
        return Err(Rule::F4);
    }
    let count = (aim.described >> 35) as u32;
    let words = if size == 4 { count.div_ceil(2) } else { count };
    let (segment, bytes, start) = place(frame, aim, words)?;
    charge(left, words.max(1) as u64)?;
    Ok(List { first: Obj { frame, segment, bytes, start, data: 0, pointers: 0 }, count })
}

pub fn budget(frame: &Frame) -> u64 {
    2 * frame.segments.iter().map(|s| s.len() as u64 / 8).sum::<u64>() + 64
}

pub fn root<'a>(frame: &'a Frame<'a>, left: &mut u64) -> Result<Obj<'a>, Fault> {
    let fault = |rule| Fault { rule, segment: 0, word: 0 };
    if frame.segments[0].len() < 8 {
        return Err(fault(Rule::F3));
    }
    obj(frame, 0, 0, left).map_err(fault)
}
