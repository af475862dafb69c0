//! How values are cloned, and what they are made of.
use crate::line::Line;
use crate::run::say_stop;
use chumsky::extra::RichText;
use chumsky::prelude::*;
use chumsky::primitive::Just;
use chumsky::recursive::Node;
use chumsky::util::MaybeRef;
use chumsky::{DefaultExpected, Stop};
use std::alloc::{AllocError, Global};

/// A parser whose clone takes memory.
pub type Held<'src> = Just<String, &'src str, RichText>;

/// Values that are made and cloned, and what is written of it.
#[derive(Drop)]
pub struct Cloning {
    alloc: Global,
    again: bool,
    refused: bool,
    line: Line,
}

impl Cloning {
    /// Nothing yet.
    pub fn new(alloc: Global, again: bool) -> Cloning {
        Cloning {
            alloc,
            again,
            refused: false,
            line: Line::new(),
        }
    }

    /// A text of its own, made once more where that is refused.
    pub fn text(&mut self) -> String {
        match String::from_str(self.alloc, "ab") {
            Ok(text) => text,
            Err(_) => {
                self.refused = true;
                match String::from_str(self.alloc, "ab") {
                    Ok(text) => text,
                    Err(_) => String::new(self.alloc),
                }
            }
        }
    }

    /// A parser of a text of its own.
    pub fn held<'src>(&mut self) -> Held<'src> {
        just(self.text())
    }

    /// Clones a value, once or twice, and writes a line each time. The first is that of the refusal where one was met while the
    /// value was made.
    pub fn show<T: Clone + Drop>(&mut self, value: T) {
        if self.refused {
            say_stop(&mut self.line, Stop::Memory);
        } else {
            self.say_clone(&value);
        }
        if self.again {
            self.line.byte(b'\n');
            self.say_clone(&value);
        }
    }

    /// Writes whether a clone is made.
    fn say_clone<T: Clone + Drop>(&mut self, value: &T) {
        match value.clone() {
            Ok(copy) => {
                drop(copy);
                self.line.text("ok");
            }
            Err(_) => say_stop(&mut self.line, Stop::Memory),
        }
    }

    /// Puts a text into a list, once more where that is refused.
    pub fn fill(&mut self, list: &mut Vec<String>, text: String) {
        if list.reserve(1).is_err() {
            self.refused = true;
        }
        let _ = list.push(text);
    }

    /// A rule, declared once more where that is refused.
    pub fn rule(&mut self) -> Option<Recursive> {
        let mut rules = Rules::new(self.alloc);
        match rules.declare() {
            Ok(rule) => Some(rule),
            Err(_) => {
                self.refused = true;
                rules.declare().ok()
            }
        }
    }

    /// A node, made once more where that is refused.
    pub fn node(&mut self) -> Option<Node> {
        let mut rules = Rules::new(self.alloc);
        match rules.leaf(0) {
            Ok(node) => Some(node),
            Err(_) => {
                self.refused = true;
                rules.leaf(0).ok()
            }
        }
    }

    /// Makes an expectation of a text that is lent one of its own, as `show` makes a clone.
    pub fn show_owned(&mut self, text: &String) {
        if self.refused {
            say_stop(&mut self.line, Stop::Memory);
        } else {
            self.say_owned(text);
        }
        if self.again {
            self.line.byte(b'\n');
            self.say_owned(text);
        }
    }

    /// Writes whether an expectation of a text that is lent is made one of its own.
    fn say_owned(&mut self, text: &String) {
        let lent = DefaultExpected::Token(MaybeRef::Ref(text));
        let owned: Result<DefaultExpected<'static, String>, AllocError> = lent.into_owned();
        match owned {
            Ok(DefaultExpected::Token(MaybeRef::Val(owned))) if owned == *text => {
                self.line.text("ok");
            }
            Ok(_) => self.line.text("another"),
            Err(_) => say_stop(&mut self.line, Stop::Memory),
        }
    }

    /// Writes that there is no such row.
    pub fn none(&mut self) {
        self.line.text("no such row");
    }

    /// What was written.
    pub fn line(&self) -> Line {
        self.line
    }
}
