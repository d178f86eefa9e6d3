//! Stored nodes (document 01, "The stream"): which number stands for what now, what is kept and
//! what was given out again. Reading and writing both use these terms.

/// What a node that has been read or written stands as.
///
/// `(A)` around a kept A stands for the same as A, so it has A's standing.
#[derive(Clone, Copy, Debug, PartialEq, Eq)]
pub enum Standing {
    /// The constant.
    Constant,
    /// A number, with how often it had been given out when this part got it.
    Number { number: u64, giving: u64 },
    /// "Any other node is *temporary*."
    Temporary,
}

impl Standing {
    /// "A is *kept* if it is `0`, a number, a node that was given a number, or `(A)` around a
    /// kept one."
    pub fn kept(self) -> bool {
        self != Standing::Temporary
    }

    /// The number that it stands for, if any.
    pub fn number(self) -> Option<u64> {
        match self {
            Standing::Number { number, .. } => Some(number),
            Standing::Constant | Standing::Temporary => None,
        }
    }
}

/// A stored two-child node; a child that is the constant is None.
#[derive(Clone, Copy, Debug, PartialEq, Eq)]
pub struct Stored {
    pub level: u32,
    pub first: Option<u64>,
    pub second: Option<u64>,
    pub turn: bool,
}

impl Stored {
    pub fn has_child(&self, number: u64) -> bool {
        self.first == Some(number) || self.second == Some(number)
    }
}

/// The table: for each number the node stored under it now, and how often it was given out.
#[derive(Clone, Debug, Default)]
pub struct Table {
    slots: Vec<Slot>,
}

#[derive(Clone, Copy, Debug, Default)]
struct Slot {
    stored: Option<Stored>,
    givings: u64,
}

impl Table {
    pub fn new() -> Table {
        Table::default()
    }

    /// The node stored under a number now.
    pub fn get(&self, number: u64) -> Option<Stored> {
        self.slot(number).and_then(|slot| slot.stored)
    }

    /// A number as it stands now.
    pub fn standing(&self, number: u64) -> Standing {
        let giving = self.slot(number).map_or(0, |slot| slot.givings);
        Standing::Number { number, giving }
    }

    /// The number has been given out again since this part got it.
    pub fn given_again(&self, part: Standing) -> bool {
        match part {
            Standing::Number { number, .. } => self.standing(number) != part,
            Standing::Constant | Standing::Temporary => false,
        }
    }

    /// Some stored node has the number as a child.
    pub fn is_child(&self, number: u64) -> bool {
        self.all().any(|(_, stored)| stored.has_child(number))
    }

    /// Give a number out: the node is stored under it from now on.
    pub fn put(&mut self, number: u64, node: Stored) -> Standing {
        let index = usize::try_from(number).expect("a number in the table is small");
        if self.slots.len() <= index {
            self.slots.resize(index + 1, Slot::default());
        }
        self.slots[index].stored = Some(node);
        self.slots[index].givings += 1;
        self.standing(number)
    }

    /// Take the node under a number out of the table, before the number is given out again.
    pub fn take(&mut self, number: u64) -> Option<Stored> {
        let index = usize::try_from(number).expect("a number in the table is small");
        self.slots.get_mut(index)?.stored.take()
    }

    /// All stored nodes with their numbers, lowest number first.
    pub fn all(&self) -> impl Iterator<Item = (u64, Stored)> + '_ {
        let numbered = (0u64..).zip(&self.slots);
        numbered.filter_map(|(number, slot)| slot.stored.map(|stored| (number, stored)))
    }

    fn slot(&self, number: u64) -> Option<&Slot> {
        self.slots.get(usize::try_from(number).ok()?)
    }
}
