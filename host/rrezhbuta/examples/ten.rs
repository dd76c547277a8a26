//! Adds a process, queues a signal to it and takes it.

use rrezhbuta::{Action, Errno, NewProcess, ProcessId, Signal, Tables, Taken, Target, ThreadId};

fn main() -> Result<(), Errno> {
    let (id, thread, signal) = (ProcessId(100), ThreadId(200), Signal(40));
    let (mut process, mut action) = (NewProcess::default(), Action::default());
    (process.id, process.thread, action.handler) = (id, thread, 5000);
    let mut tables = Tables::new();
    tables.clear()?;
    tables.add_process(process)?;
    tables.set_sigaction(id, signal, action)?;
    tables.sigqueue(id, Target::Process(id), signal, 7)?;
    if let Taken::Handler(taken) = tables.take(thread)? {
        let (handler, signal, value) = (taken.handler, taken.signal, taken.info.value);
        println!("handler {handler}, signal {signal}, value {value}");
    }
    Ok(())
}
