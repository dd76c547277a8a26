//! The loop of a host: it sends, asks who can take, takes, and does what the answer says. The tables are lent to one
//! caller at a time, so a host with several threads puts a lock around the calls.

use rrezhbuta::{Action, Errno, NewProcess, ProcessId, Signal, Tables, Taken, Target, ThreadId};

const PROCESS: ProcessId = ProcessId(100);
const TERM: Signal = Signal(15);
const FACET: Signal = Signal(40);

/// The threads of the process take signals until none can, or until it is gone.
fn deliver(tables: &mut Tables) -> Result<(), Errno> {
    while let Some(thread) = tables.who(PROCESS)? {
        match tables.take(thread)? {
            Taken::Handler(taken) => {
                // here the host runs the handler on that thread, with the mask that the take has set
                let (handler, signal, value) = (taken.handler, taken.signal, taken.info.value);
                println!("thread {thread} runs handler {handler}: signal {signal}, value {value}");
                let blocked = tables.sigreturn(thread, taken.saved)?;
                println!("thread {thread} returns; meanwhile it blocked {blocked}");
            }
            Taken::Stop(signal) => {
                // its threads neither run nor take until a CONT is sent
                println!("signal {signal} has stopped process {PROCESS}");
            }
            Taken::NoAction(signal) => {
                // CONT: the process has run since it was sent, so there is nothing to do
                println!("signal {signal} asks for no action");
            }
            Taken::End(signal) => {
                // the tables no longer have it; the host frees what it keeps for it
                println!("signal {signal} has ended process {PROCESS}");
                return Ok(());
            }
            // not after `who`, but for a host that takes without asking: the thread runs on
            Taken::Nothing => println!("thread {thread} has nothing to take"),
        }
    }
    Ok(())
}

fn main() -> Result<(), Errno> {
    let (mut process, mut action) = (NewProcess::default(), Action::default());
    (process.id, process.thread, action.handler) = (PROCESS, ThreadId(200), 5000);
    let (mut tables, to) = (Tables::new(), Target::Process(PROCESS));
    tables.add_process(process)?;
    tables.set_sigaction(PROCESS, FACET, action)?;
    tables.sigqueue(PROCESS, to, FACET, 7)?;
    deliver(&mut tables)?;
    // a KILL or STOP would answer `Sent::Acted`: it is carried out by the send, and nobody takes it
    for signal in [Signal::TSTP, Signal::CONT, TERM] {
        tables.kill(PROCESS, to, signal)?;
        deliver(&mut tables)?;
    }
    Ok(())
}
