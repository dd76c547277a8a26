//! Ids that a search by hints finds hard. The library looks for an id in two slots of a small table of hints before it
//! searches place by place; the ids of a family meet in these slots, so that tests reach every turn of that search.

/// The capacities, from the one file that names them.
pub use rrezhbuta_limits as limits;

/// How many slots there are for hints.
pub const HINTS: u32 = 4 * limits::THREAD_PLACES as u32;

/// The two slots that an id is looked for in.
pub fn slots(id: u32) -> [u32; 2] {
    let spread = (id as u64 % (1 << 31)) * 2_654_435_769 / (1 << 20);
    [id % HINTS, (spread % HINTS as u64) as u32]
}

/// What the ids of a family have in common.
#[derive(Clone, Copy, Debug, PartialEq, Eq)]
pub enum Family {
    /// They are the numbers of places, from 1 on.
    Places,
    /// The first slot, which is the lowest.
    First,
    /// The second slot, which is the lowest.
    Second,
    /// Both slots.
    Both,
    /// Both slots, which are one and the same.
    Same,
    /// A slot that is the first of some and the second of the others.
    Crossing,
    /// They are as large as ids can be.
    Largest,
}

impl Family {
    /// All of them.
    pub const ALL: [Family; 7] = [
        Family::Places,
        Family::First,
        Family::Second,
        Family::Both,
        Family::Same,
        Family::Crossing,
        Family::Largest,
    ];

    /// Does the id belong to the family, if the family goes by slots?
    fn has(self, id: u32) -> bool {
        let [first, second] = slots(id);
        match self {
            Family::Places | Family::Largest => true,
            Family::First => first == 0,
            Family::Second => second == 0,
            Family::Both => [first, second] == [5, 9],
            Family::Same => [first, second] == [3, 3],
            Family::Crossing => (first == 11) != (second == 11),
        }
    }

    /// So many ids of the family, each once, found by trying them in turn.
    pub fn ids(self, count: usize) -> Vec<u32> {
        let all = 1..=limits::LARGEST_ID;
        if self == Family::Largest {
            return all.rev().take(count).collect();
        }
        all.filter(|&id| self.has(id)).take(count).collect()
    }
}
