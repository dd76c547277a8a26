//! Calls as docs/CALLS.md writes them: the name, then each argument in the documented order.

use crate::side::{Action, Queue};
use std::str::{FromStr, Split};

/// A plain send, or a queued one where it has a value.
#[derive(Clone, Copy, Debug, PartialEq, Eq)]
pub struct Send {
    pub by: u32,
    pub to: u32,
    pub thread: u32,
    pub signal: u32,
    pub value: Option<u64>,
}

impl Send {
    pub fn queue(&self) -> Queue {
        Queue {
            process: self.to,
            thread: self.thread,
        }
    }
}

#[derive(Clone, Copy, Debug, PartialEq, Eq)]
pub struct AddProcess {
    pub id: u32,
    pub real: u32,
    pub effective: u32,
    pub saved: u32,
    pub session: u32,
    pub thread: u32,
    pub mask: u64,
}

#[derive(Clone, Copy, Debug, PartialEq, Eq)]
pub enum Call {
    Clear,
    AddProcess(AddProcess),
    AddThread {
        creator: u32,
        id: u32,
    },
    EndProcess {
        id: u32,
    },
    EndThread {
        id: u32,
    },
    Send(Send),
    Sigaction {
        process: u32,
        signal: u32,
        new: Option<Action>,
    },
    Sigmask {
        thread: u32,
        way: u32,
        set: Option<u64>,
    },
    Sigpending {
        thread: u32,
    },
    Look {
        thread: u32,
    },
    Who {
        process: u32,
    },
    Take {
        thread: u32,
    },
    Sigreturn {
        thread: u32,
        mask: u64,
    },
}

/// The words of a line, read from the first to the last.
pub struct Words<'a>(Split<'a, char>);

impl<'a> Words<'a> {
    pub fn of(line: &'a str) -> Words<'a> {
        Words(line.split(' '))
    }

    pub fn next(&mut self) -> Option<&'a str> {
        self.0.next()
    }

    fn at_end(&self) -> bool {
        self.0.clone().next().is_none()
    }

    /// The text of a word `name=text`.
    fn text(&mut self, name: &str) -> Result<&'a str, String> {
        let word = self.next().ok_or_else(|| format!("{name}= is missing"))?;
        word.strip_prefix(name)
            .and_then(|rest| rest.strip_prefix('='))
            .ok_or_else(|| format!("`{word}` stands where {name}= should"))
    }

    pub fn number<T: FromStr>(&mut self, name: &str) -> Result<T, String> {
        number(self.text(name)?)
    }

    /// A set, written `name=0x..`.
    pub fn hex(&mut self, name: &str) -> Result<u64, String> {
        let text = self.text(name)?;
        text.strip_prefix("0x")
            .and_then(|digits| u64::from_str_radix(digits, 16).ok())
            .ok_or_else(|| format!("`{text}` is no hexadecimal number"))
    }

    pub fn word(&mut self, wanted: &str) -> Result<(), String> {
        match self.next() {
            Some(word) if word == wanted => Ok(()),
            _ => Err(format!("the word {wanted} is missing")),
        }
    }

    pub fn end(&mut self) -> Result<(), String> {
        match self.next() {
            None => Ok(()),
            Some(word) => Err(format!("`{word}` is one word too many")),
        }
    }
}

/// A number of the type that is asked for.
pub fn number<T: FromStr>(text: &str) -> Result<T, String> {
    text.parse()
        .map_err(|_| format!("`{text}` is no number of its kind"))
}

impl Call {
    pub fn parse(line: &str) -> Result<Call, String> {
        let mut words = Words::of(line);
        let name = words.next().unwrap_or_default();
        let call = Call::of(name, &mut words)?;
        words.end()?;
        Ok(call)
    }

    fn of(name: &str, words: &mut Words) -> Result<Call, String> {
        Ok(match name {
            "clear" => Call::Clear,
            "add_process" => Call::AddProcess(AddProcess::of(words)?),
            "add_thread" => Call::AddThread {
                creator: words.number("creator")?,
                id: words.number("id")?,
            },
            "end_process" => Call::EndProcess {
                id: words.number("id")?,
            },
            "end_thread" => Call::EndThread {
                id: words.number("id")?,
            },
            "kill" => Call::Send(Send::of(words, false)?),
            "queue" => Call::Send(Send::of(words, true)?),
            _ => return Call::of_one(name, words),
        })
    }

    /// The calls of one process or thread.
    fn of_one(name: &str, words: &mut Words) -> Result<Call, String> {
        Ok(match name {
            "action" => Call::Sigaction {
                process: words.number("process")?,
                signal: words.number("signal")?,
                new: new_action(words)?,
            },
            "mask" => Call::Sigmask {
                thread: words.number("thread")?,
                way: words.number("way")?,
                set: if words.at_end() {
                    None
                } else {
                    Some(words.number("set")?)
                },
            },
            "pending" => Call::Sigpending {
                thread: words.number("thread")?,
            },
            "look" => Call::Look {
                thread: words.number("thread")?,
            },
            "who" => Call::Who {
                process: words.number("process")?,
            },
            "take" => Call::Take {
                thread: words.number("thread")?,
            },
            "return" => Call::Sigreturn {
                thread: words.number("thread")?,
                mask: words.number("mask")?,
            },
            _ => return Err(format!("`{name}` is no call")),
        })
    }
}

impl AddProcess {
    fn of(words: &mut Words) -> Result<AddProcess, String> {
        Ok(AddProcess {
            id: words.number("id")?,
            real: words.number("real")?,
            effective: words.number("effective")?,
            saved: words.number("saved")?,
            session: words.number("session")?,
            thread: words.number("thread")?,
            mask: words.number("mask")?,
        })
    }
}

impl Send {
    fn of(words: &mut Words, queued: bool) -> Result<Send, String> {
        Ok(Send {
            by: words.number("by")?,
            to: words.number("to")?,
            thread: words.number("thread")?,
            signal: words.number("signal")?,
            value: if queued {
                Some(words.number("value")?)
            } else {
                None
            },
        })
    }
}

fn new_action(words: &mut Words) -> Result<Option<Action>, String> {
    if words.at_end() {
        return Ok(None);
    }
    Ok(Some(Action {
        handler: words.number("handler")?,
        flags: words.number("flags")?,
        mask: words.number("mask")?,
    }))
}
