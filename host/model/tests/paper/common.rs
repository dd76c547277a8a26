//! Process 100 of user 1000 with thread 200, and calls on it.

use rrezhbuta_model::{Action, Answer, Call, Model, NewProcess, Record, Set};

/// A process of a user in session 7.
pub fn process(id: u32, user: u32, thread: u32, mask: u64) -> Call {
    Call::AddProcess(NewProcess {
        id,
        real: user,
        effective: user,
        saved: user,
        session: 7,
        thread,
        mask,
    })
}

/// A store with process 100 alone.
pub fn one(mask: u64) -> Model {
    let mut model = Model::new();
    assert_eq!(model.call(&process(100, 1000, 200, mask)), Ok(Answer::Done));
    model
}

/// Process 100 sends itself a signal.
pub fn kill(thread: u32, signal: u32) -> Call {
    Call::Kill {
        by: 100,
        to: 100,
        thread,
        signal,
    }
}

/// The same with a value.
pub fn sigqueue(thread: u32, signal: u32, value: u64) -> Call {
    Call::Sigqueue {
        by: 100,
        to: 100,
        thread,
        signal,
        value,
    }
}

/// An action of process 100 is stored.
pub fn store(signal: u32, handler: u64, flags: u64, mask: u64) -> Call {
    Call::Sigaction {
        process: 100,
        signal,
        new: Some(Action {
            handler,
            flags,
            mask: Set(mask),
        }),
    }
}

/// An action of process 100 is asked for.
pub fn ask(signal: u32) -> Call {
    Call::Sigaction {
        process: 100,
        signal,
        new: None,
    }
}

/// Thread 200's mask is changed.
pub fn sigmask(way: u32, set: u64) -> Call {
    Call::Sigmask {
        thread: 200,
        way,
        set: Some(set),
    }
}

/// Thread 200's mask.
pub fn mask_now(model: &mut Model) -> u64 {
    let ask = Call::Sigmask {
        thread: 200,
        way: 7,
        set: None,
    };
    match model.call(&ask) {
        Ok(Answer::OldMask(set)) => set.0,
        other => panic!("{other:?}"),
    }
}

/// Thread 200 takes.
pub const TAKE: Call = Call::Take { thread: 200 };

/// Thread 200 takes and returns from the handler; what it took.
pub fn taken(model: &mut Model) -> Record {
    let Ok(Answer::Handler { record, saved, .. }) = model.call(&TAKE) else {
        panic!("a handler was expected");
    };
    let back = Call::Sigreturn {
        thread: 200,
        mask: saved.0,
    };
    assert!(matches!(model.call(&back), Ok(Answer::OldMask(_))));
    record
}

/// What the calls answer, one after another.
pub fn answers(model: &mut Model, calls: &[Call]) -> Vec<Result<Answer, u32>> {
    calls.iter().map(|call| model.call(call)).collect()
}
