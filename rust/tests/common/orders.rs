//! Whether some order of the tasks keeps every pair, answered in two independent ways.
//!
//! The first is the definition, for a few tasks: it builds every order of them and looks at the pairs in each. The second
//! asks whether a task can be reached from itself by going from senders to receivers (a cycle). They agree. Along a cycle
//! every task would have to stand before the next and so before itself, which no order allows. Without a cycle some
//! task is no pair's receiver (otherwise one could go back from receiver to sender without end, and on finitely many
//! tasks that is a cycle), so it can be put first, and so on with the rest. A pair that names a task outside 0 to
//! N - 1 is kept by no order, because an order does not hold that task.

/// The most tasks for which every order is tried; 7 tasks have 5,040 orders.
const TRIED: usize = 7;

pub fn some_order(n: usize, pairs: &[(u16, u16)]) -> bool {
    let without_cycle = all_tasks_known(n, pairs) && !has_cycle(pairs);
    if n <= TRIED {
        let tried = some_order_by_trial(n, pairs);
        assert_eq!(tried, without_cycle, "{n} tasks, pairs {pairs:?}");
    }
    without_cycle
}

fn all_tasks_known(n: usize, pairs: &[(u16, u16)]) -> bool {
    let known = |task| usize::from(task) < n;
    pairs
        .iter()
        .all(|&(sender, receiver)| known(sender) && known(receiver))
}

fn some_order_by_trial(n: usize, pairs: &[(u16, u16)]) -> bool {
    let mut order: Vec<u16> = (0..n as u16).collect();
    try_orders(&mut order, 0, pairs)
}

/// Tries every order that has the first `fixed` tasks as they stand and the others in any order behind them.
fn try_orders(order: &mut [u16], fixed: usize, pairs: &[(u16, u16)]) -> bool {
    if fixed == order.len() {
        return pairs.iter().all(|&pair| keeps(order, pair));
    }
    for next in fixed..order.len() {
        order.swap(fixed, next);
        let found = try_orders(order, fixed + 1, pairs);
        order.swap(fixed, next);
        if found {
            return true;
        }
    }
    false
}

/// The sender stands before the receiver in the order.
fn keeps(order: &[u16], (sender, receiver): (u16, u16)) -> bool {
    let place = |task| order.iter().position(|&t| t == task);
    match (place(sender), place(receiver)) {
        (Some(before), Some(after)) => before < after,
        _ => false,
    }
}

fn has_cycle(pairs: &[(u16, u16)]) -> bool {
    let mut senders: Vec<u16> = pairs.iter().map(|&(sender, _)| sender).collect();
    senders.sort_unstable();
    senders.dedup();
    let returns = |&task: &u16| reached(task, pairs).contains(&task);
    senders.iter().any(returns)
}

/// The tasks that are reached from `task` over one pair or more, by depth-first search.
pub fn reached(task: u16, pairs: &[(u16, u16)]) -> Vec<u16> {
    let mut reached = Vec::new();
    let mut open = vec![task];
    while let Some(here) = open.pop() {
        for &(sender, receiver) in pairs {
            if sender == here && !reached.contains(&receiver) {
                reached.push(receiver);
                open.push(receiver);
            }
        }
    }
    reached
}
