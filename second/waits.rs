//! The independent program for "how long can a packet wait", written from the customer's words only: "From the acceptance of a packet,
//! with D bytes then in its class's queue and a class of weight w, the whole link sends at most (D/w rounded up, plus 1) times Q bytes
//! until it has gone", and "Balances, .. D, Q and the bytes sent .. use charges from now on, and Q adds the charge of each longest
//! packet". It reads a plan from standard input and prints `wait` class alone full for each leaf in class order: the bound for the leaf's
//! longest packet alone in its queue, and as the last of 32 such packets, which is all that a queue holds; or `stop` number place. It is
//! plain and slow on purpose: what is rounded up is counted one by one. Build: rustc -O --edition 2021 waits.rs; test: rustc -O --edition
//! 2021 --test waits.rs -o waits_test

#[path = "plan.rs"]
mod plan;

use plan::*;
use std::io::Write;

/// "that leaf already holds 32 packets": no queue holds more.
const MOST_WAITING: u64 = 32;

/// "D/w rounded up": the least whole number that, times w, is at least D.
fn rounded_up(d: u64, w: u64) -> u64 {
    let mut rounds = 0;
    let mut covered = 0;
    while covered < d {
        covered = add(covered, w);
        rounds = add(rounds, 1);
    }
    rounds
}

/// "(D/w rounded up, plus 1) times Q bytes".
fn bound(tree: &Tree, leaf: usize, d: u64) -> u64 {
    mul(add(rounded_up(d, tree.classes[leaf].weight), 1), tree.round_size())
}

/// The lines for an input.
fn lines_of(input: &[u8]) -> Vec<String> {
    let stop = |refusal: Refusal| vec![format!("stop {} {}", refusal.number, refusal.place)];
    if input.len() > MOST_INPUT {
        return stop(Refusal { number: 10, place: MOST_INPUT });
    }
    let tree = match read_plan(input) {
        Ok((tree, _)) => tree,
        Err(refusal) => return stop(refusal),
    };
    let line = |leaf: usize| {
        let one = charge(tree.classes[leaf].longest);
        format!("wait {leaf} {} {}", bound(&tree, leaf, one), bound(&tree, leaf, mul(MOST_WAITING, one)))
    };
    (1..tree.classes.len()).filter(|&class| tree.is_leaf(class)).map(line).collect()
}

/// Input or output that fails ends with 1, a failed assertion (its message is on standard error) with 2.
fn main() {
    let Ok(input) = read_input() else { std::process::exit(1) };
    let Ok(lines) = std::panic::catch_unwind(|| lines_of(&input)) else { std::process::exit(2) };
    let text = lines.join("\n") + "\n";
    if std::io::stdout().write_all(text.as_bytes()).is_err() {
        std::process::exit(1);
    }
}

#[cfg(test)]
mod tests {
    use super::*;

    /// Tree P by hand: Q 262, every longest packet charged 84, weights 1, 2 and 4.
    #[test]
    fn tree_p() {
        let input = include_bytes!("tree_p.bin");
        let full = [(32 * 84 + 1) * 262, (16 * 84 + 1) * 262, (8 * 84 + 1) * 262];
        let lines = [format!("wait 2 22270 {}", full[0]), format!("wait 3 11266 {}", full[1]), format!("wait 4 5764 {}", full[2])];
        assert_eq!(lines_of(input), lines);
    }

    #[test]
    fn rounding() {
        assert_eq!([(0, 5), (1, 5), (5, 5), (6, 5), (84, 1_000_000)].map(|(d, w)| rounded_up(d, w)), [0, 1, 1, 2, 1]);
    }

    #[test]
    fn refused_plans() {
        assert_eq!(lines_of(&[]), ["stop 1 0"]);
        assert_eq!(lines_of(&[0]), ["stop 9 0"]);
        assert_eq!(lines_of(&[0; MOST_INPUT + 1]), ["stop 10 65536"]);
    }
}
