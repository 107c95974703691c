//! A slice to lend, with room on both sides in which nothing may be written.

/// How many places of room there are on each side.
const ROOM: usize = 64;

pub struct Guarded<T> {
    places: Vec<T>,
    guard: T,
}

impl<T: Copy + PartialEq> Guarded<T> {
    pub fn new(lent: &[T], guard: T) -> Guarded<T> {
        let room = &[guard; ROOM][..];
        let places = [room, lent, room].concat();
        Guarded { places, guard }
    }

    pub fn lent(&mut self) -> &mut [T] {
        let end = self.places.len() - ROOM;
        &mut self.places[ROOM..end]
    }

    /// What was lent, and whether the room is as it was.
    pub fn back(mut self) -> (Vec<T>, bool) {
        let lent = self.lent().to_vec();
        let end = self.places.len() - ROOM;
        let mut room = self.places[..ROOM].iter().chain(&self.places[end..]);
        let kept = room.all(|place| *place == self.guard);
        (lent, kept)
    }
}

#[cfg(test)]
mod tests {
    use super::*;

    #[test]
    fn what_is_written_in_the_room_is_seen() {
        for (at, kept) in [(ROOM - 1, false), (ROOM, true), (ROOM + 2, false)] {
            let mut guarded = Guarded::new(&[1, 2], 9);
            guarded.places[at] = 7;
            assert_eq!(guarded.back().1, kept);
        }
    }

    #[test]
    fn what_was_lent_comes_back() {
        let mut guarded = Guarded::new(&[1, 2], 9);
        guarded.lent()[1] = 7;
        assert_eq!(guarded.back(), (vec![1, 7], true));
        assert_eq!(Guarded::new(&[], 9).back(), (vec![], true));
    }
}
