//! Namings of dynamic variables in ancilla arguments, and the lets that help them (02, F-2).
//!
//! An occurrence of a dynamic variable is a use if no ancilla argument stands between its binder and it, else a naming. A naming is
//! helped by a let or let pair whose bound term holds the whole of the outermost ancilla argument between binder and naming, which has
//! the variable in scope, and whose body uses it. Any such let is enough, and nothing else helps.

use crate::uses::Uses;

/// An ancilla argument around the term at hand.
struct Argument {
    /// Variables in scope where it stands: those, and no others, have it between their binder and the term.
    variables: usize,
    /// Lets whose bound term holds the whole of it.
    lets: usize,
}

/// A let or let pair in whose bound term the term at hand stands.
struct AroundBound {
    entry: u16,
    variables: usize,
}

/// A naming that no let has helped so far.
struct Naming {
    variable: usize,
    place: u32,
    /// The entries of the lets that could help, the outermost first.
    lets: Vec<u16>,
}

/// What stands around the term at hand, from the function's body inwards, and the namings that wait for a body.
#[derive(Default)]
pub struct Namings {
    arguments: Vec<Argument>,
    lets: Vec<AroundBound>,
    waiting: Vec<Naming>,
}

impl Namings {
    pub fn enter_argument(&mut self, variables: usize) {
        self.arguments.push(Argument { variables, lets: self.lets.len() });
    }

    pub fn leave_argument(&mut self) {
        self.arguments.pop();
    }

    pub fn enter_bound(&mut self, entry: u16, variables: usize) {
        self.lets.push(AroundBound { entry, variables });
    }

    pub fn leave_bound(&mut self) {
        self.lets.pop();
    }

    /// Whether a variable that is named here is used by it: not if an ancilla argument stands between.
    pub fn is_use(&self, variable: usize) -> bool {
        self.arguments.last().is_none_or(|innermost| variable >= innermost.variables)
    }

    /// Notes a naming; false if no let could help it. Lets inside the outermost ancilla argument between binder and naming, and lets
    /// outside the binder, could not.
    pub fn waits(&mut self, variable: usize, place: u32) -> bool {
        let between = |argument: &&Argument| variable < argument.variables;
        let around = self.arguments.iter().find(between).map_or(0, |outermost| outermost.lets);
        let in_scope = |around: &&AroundBound| variable < around.variables;
        let lets: Vec<u16> = self.lets[..around].iter().filter(in_scope).map(|around| around.entry).collect();
        let waits = !lets.is_empty();
        if waits {
            self.waiting.push(Naming { variable, place, lets });
        }
        waits
    }

    /// After a let's body, whose uses are given: the namings that it helps wait no longer, and where it is the last that could have
    /// helped, which is the outermost, the others are refused. The lowest place of those.
    pub fn settle(&mut self, entry: u16, body: Uses) -> Option<u32> {
        if self.waiting.is_empty() {
            return None;
        }
        self.waiting.retain(|naming| !(naming.lets.contains(&entry) && body.has(naming.variable)));
        let refused = |naming: &&Naming| naming.lets.first() == Some(&entry);
        self.waiting.iter().filter(refused).map(|naming| naming.place).min()
    }
}
