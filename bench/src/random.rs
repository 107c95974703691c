//! A source of random numbers, those of the second program, for 32-bit numbers.
//! A seed fixes all that is drawn from it.

use second::generate::random;

pub struct Random(random::Random);

impl Random {
    pub fn new(seed: u64) -> Random {
        Random(random::Random::new(seed))
    }

    pub fn draw(&mut self) -> u64 {
        self.0.draw()
    }

    /// A number from 0 up to but not including `end`, which is not 0.
    pub fn below(&mut self, end: u32) -> u32 {
        (self.draw() % u64::from(end)) as u32
    }

    pub fn one_in(&mut self, chances: u32) -> bool {
        self.below(chances) == 0
    }

    pub fn pick<T: Copy>(&mut self, from: &[T]) -> T {
        from[self.index(from)]
    }

    /// The first, the last or any of so many places, if there is one.
    pub fn place(&mut self, count: usize) -> Option<usize> {
        let last = count.checked_sub(1)?;
        let any = self.below(count as u32) as usize;
        Some(self.pick(&[0, last, any]))
    }

    /// The first, the last or any of them, if there is one.
    pub fn some<T>(&mut self, from: impl IntoIterator<Item = T>) -> Option<T> {
        let mut from: Vec<T> = from.into_iter().collect();
        let place = self.place(from.len())?;
        Some(from.swap_remove(place))
    }

    pub fn index<T>(&mut self, of: &[T]) -> usize {
        self.below(of.len() as u32) as usize
    }

    pub fn shuffle<T>(&mut self, items: &mut [T]) {
        for end in (1..items.len()).rev() {
            let other = self.index(&items[..=end]);
            items.swap(end, other);
        }
    }
}
