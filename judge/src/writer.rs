//! The text of a task: its lines in their order, each as the rules of the bench describe it.

use crate::task::{Facts, Op, Task};

/// The task's text. Every part of the form leaves one way to write it, so a task has no second text.
pub fn written(task: &Task) -> Vec<u8> {
    let mut lines = vec![
        format!("edition={}", task.edition()),
        format!("vars={}", task.dom.len()),
        format!("dom={}", numbers(&task.dom)),
        format!("init={}", numbers(&task.init)),
        format!("goal={}", facts(&task.goal)),
    ];
    lines.extend(task.quota.map(|quota| format!("quota={}", quota)));
    lines.push(format!("ops={}", task.ops.len()));
    lines.extend(task.ops.iter().map(|op| operator(op, task.quota.is_some())));
    lines.push(format!("maps={}", task.maps.len()));
    lines.extend(task.maps.iter().map(|map| format!("map={}", classes(map))));
    lines.extend(task.shares.iter().map(|row| format!("share={}", or_dash(numbers(row)))));
    lines.iter().flat_map(|line| line.bytes().chain([b'\n'])).collect()
}

/// Its fields; the fourth is of edition 2.
fn operator(op: &Op, marked: bool) -> String {
    let fields = format!("op={};{};{}", op.cost, facts(&op.pre), facts(&op.eff));
    if marked {
        return format!("{};{}", fields, u8::from(op.stores));
    }
    fields
}

/// A dash stands for a list of nothing.
fn or_dash(list: String) -> String {
    if list.is_empty() {
        return "-".to_string();
    }
    list
}

fn numbers<T: ToString>(row: &[T]) -> String {
    row.iter().map(T::to_string).collect::<Vec<_>>().join(",")
}

/// The facts that there are, in rising order of variable.
fn facts(list: &Facts) -> String {
    let fact = |(v, value): (usize, &Option<usize>)| value.map(|value| format!("{}:{}", v, value));
    or_dash(list.iter().enumerate().filter_map(fact).collect::<Vec<_>>().join(","))
}

fn classes(map: &[Vec<usize>]) -> String {
    map.iter().map(|classes| numbers(classes)).collect::<Vec<_>>().join("/")
}
