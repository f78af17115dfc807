//! Tasks on threads, and objects under locks.
use crate::call::{Call, Kind, Record, Reply, Script};
use crate::space::{Space, MAX_AREAS};
use crate::table::Table;
use crate::locks::{Mutex, RwLock};
use std::sync::Barrier;
use std::thread;

/// Two lines wide, so that no two objects share one.
#[repr(align(128))]
pub enum Object {
    Space(RwLock<Space>),
    Table(Mutex<Table>),
}

/// The objects of a script, with room for all calls that change them.
pub fn objects(script: &Script) -> Vec<Object> {
    let mut changes = vec![0; script.names.len()];
    for call in script
        .tasks
        .iter()
        .flatten()
        .filter(|call| call.kind.is_logged())
    {
        changes[call.object as usize] += 1;
    }
    let make = |(&is_space, &changes): (&bool, &usize)| {
        let log = Vec::with_capacity(changes);
        if is_space {
            let areas = Vec::with_capacity(MAX_AREAS + 2);
            Object::Space(RwLock::new(Space { areas, log }))
        } else {
            Object::Table(Mutex::new(Table {
                files: [None; 64],
                log,
            }))
        }
    };
    script.is_space.iter().zip(&changes).map(make).collect()
}

/// Does one call, the one of this number of its task.
fn perform(task: u8, number: u32, call: &Call, object: &Object, seen: u32) -> Record {
    match (object, call.kind) {
        (_, Kind::Signal) => Record {
            reply: Reply::Sent,
            logged: seen,
        },
        (Object::Space(lock), Kind::Fault) => {
            let space = lock.read().unwrap();
            Record {
                reply: space.fault(call.first, call.prot),
                logged: space.log.len() as u32,
            }
        }
        (Object::Space(lock), _) => {
            let mut space = lock.write().unwrap();
            let logged = space.log.len() as u32;
            let reply = space.change(call);
            space.log.push((task, number));
            Record { reply, logged }
        }
        (Object::Table(lock), Kind::Get) => {
            let table = lock.lock().unwrap();
            Record {
                reply: table.get(call.first),
                logged: table.log.len() as u32,
            }
        }
        (Object::Table(lock), _) => {
            let mut table = lock.lock().unwrap();
            let logged = table.log.len() as u32;
            let reply = table.change(call);
            table.log.push((task, number));
            Record { reply, logged }
        }
    }
}

fn run_task(task: u8, calls: &[Call], objects: &[Object]) -> Vec<Record> {
    let mut records = Vec::with_capacity(calls.len());
    let mut seen = [0; 16];
    for (number, call) in calls.iter().enumerate() {
        let object = call.object as usize;
        let record = perform(task, number as u32, call, &objects[object], seen[object]);
        seen[object] = record.logged + u32::from(call.kind.is_logged());
        records.push(record);
    }
    records
}

/// Runs each task on a thread, and answers what each call replied. Over the kernel's locks no thread
/// ends before all are done: others may look at its task and at its nodes in queues.
pub fn run(script: &Script, objects: &[Object]) -> Vec<Vec<Record>> {
    let done = Barrier::new(script.tasks.len());
    thread::scope(|scope| {
        let mut threads = Vec::with_capacity(script.tasks.len());
        for (task, calls) in script.tasks.iter().enumerate() {
            let done = &done;
            threads.push(scope.spawn(move || {
                #[cfg(kernel)]
                unsafe {
                    crate::locks::kernel::task_begin(task as i32);
                }
                let records = run_task(task as u8, calls, objects);
                if cfg!(kernel) {
                    done.wait();
                }
                records
            }));
        }
        let joined = threads.into_iter().map(|thread| thread.join().unwrap());
        joined.collect()
    })
}
