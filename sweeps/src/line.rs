//! Lines of text in a place of their own: what is written on one asks for no memory.
use chumsky::error::RichPattern;
use chumsky::prelude::*;
use extending::merges::Merges;
use std::io;
use std::io::Write;

/// A line that is being written. What is written past its room is lost.
#[derive(Clone, Copy)]
pub struct Line {
    bytes: [u8; 320],
    length: usize,
}

impl Line {
    /// Nothing yet.
    pub fn new() -> Line {
        Line {
            bytes: [0; 320],
            length: 0,
        }
    }

    /// One byte more.
    pub fn byte(&mut self, byte: u8) {
        if let Some(place) = self.bytes.get_mut(self.length) {
            *place = byte;
            self.length = self.length.wrapping_add(1);
        }
    }

    /// A text.
    pub fn text(&mut self, text: &str) {
        for byte in text.as_bytes() {
            self.byte(*byte);
        }
    }

    /// A number in decimal digits, or `many` for one of 1,000 and more.
    pub fn number(&mut self, number: usize) {
        if number >= 1000 {
            self.text("many");
            return;
        }
        if number >= 100 {
            self.digit(number / 100);
        }
        if number >= 10 {
            self.digit(number / 10 % 10);
        }
        self.digit(number % 10);
    }

    /// One decimal digit.
    fn digit(&mut self, digit: usize) {
        match u8::try_from(digit) {
            Ok(digit) => self.byte(b'0'.wrapping_add(digit)),
            Err(_) => self.byte(b'?'),
        }
    }

    /// What was written so far.
    pub fn written(&self) -> &[u8] {
        match self.bytes.get(..self.length) {
            Some(bytes) => bytes,
            None => &[],
        }
    }

    /// All of another line.
    pub fn line(&mut self, other: &Line) {
        for byte in other.written() {
            self.byte(*byte);
        }
    }
}

/// What a program prints: it is on one line, with `|` at the end of each of its own.
impl Write for Line {
    fn write(&mut self, buf: &[u8]) -> io::Result<usize> {
        for byte in buf {
            self.byte(if *byte == b'\n' { b'|' } else { *byte });
        }
        Ok(buf.len())
    }

    fn flush(&mut self) -> io::Result<()> {
        Ok(())
    }
}

/// What can be written on a line.
pub trait Say: Drop {
    fn say(&self, line: &mut Line);
}

impl Say for () {
    fn say(&self, line: &mut Line) {
        line.text("()");
    }
}

impl Say for char {
    fn say(&self, line: &mut Line) {
        match u8::try_from(u32::from(*self)) {
            Ok(byte) => line.byte(byte),
            Err(_) => line.byte(b'?'),
        }
    }
}

impl Say for usize {
    fn say(&self, line: &mut Line) {
        line.number(*self);
    }
}

impl<'a> Say for &'a str {
    fn say(&self, line: &mut Line) {
        line.text(*self);
    }
}

impl<A: Say, B: Say> Say for (A, B) {
    fn say(&self, line: &mut Line) {
        self.0.say(line);
        line.byte(b' ');
        self.1.say(line);
    }
}

impl<A: Say, B: Say, C: Say> Say for (A, B, C) {
    fn say(&self, line: &mut Line) {
        self.0.say(line);
        line.byte(b' ');
        self.1.say(line);
        line.byte(b' ');
        self.2.say(line);
    }
}

impl<A: Say> Say for Option<A> {
    fn say(&self, line: &mut Line) {
        match self {
            Some(value) => value.say(line),
            None => line.text("none"),
        }
    }
}

impl<A: Say> Say for Vec<A> {
    fn say(&self, line: &mut Line) {
        line.byte(b'[');
        for item in self.as_slice() {
            item.say(line);
        }
        line.byte(b']');
    }
}

impl Say for EmptyErr {
    fn say(&self, line: &mut Line) {
        line.text("error");
    }
}

impl Say for Merges {
    fn say(&self, line: &mut Line) {
        for c in self.text.as_slice() {
            c.say(line);
        }
    }
}

impl<T: Say> Say for Rich<T> {
    fn say(&self, line: &mut Line) {
        let span = *self.span();
        line.number(span.start);
        line.text("..");
        line.number(span.end);
        line.text(" expected");
        for pattern in self.expected().as_slice() {
            line.byte(b' ');
            say_pattern(pattern, line);
        }
        line.text(" found ");
        match self.found() {
            Some(token) => token.say(line),
            None => line.text("end"),
        }
    }
}

/// What was expected.
fn say_pattern<T: Say>(pattern: &RichPattern<T>, line: &mut Line) {
    match pattern {
        RichPattern::Token(token) => token.say(line),
        RichPattern::Any => line.text("any"),
        RichPattern::SomethingElse => line.text("something"),
        RichPattern::EndOfInput => line.text("end"),
        RichPattern::Label(text) => line.text(text.as_str()),
    }
}
