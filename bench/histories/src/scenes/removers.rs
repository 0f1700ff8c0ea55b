//! Two threads that remove one value, one after the other, while it is held.
use crate::caller::Caller;
use std::thread;

fn removed_in_a_thread(caller: &mut impl Caller, key: u64) -> bool {
    thread::scope(|scope| scope.spawn(|| caller.remove(key)).join().expect("the thread ends well"))
}

pub fn play<C: Caller>(callers: Vec<C>) -> String {
    let [mut holder, mut first, mut second]: [C; 3] = callers.try_into().ok().expect("there are three callers");
    let key = holder.insert(7);
    let mut removed = 0;
    holder.hold(key, &mut |_| {
        removed += u32::from(removed_in_a_thread(&mut first, key));
        removed += u32::from(removed_in_a_thread(&mut second, key));
    });
    format!("; {removed} of 2 callers removed the value\n")
}
