//! The list land: its ranges are recorded inside the free memory.

use core::fmt;

use crate::handle::{ListHandle, Mode, Range};
use crate::ranges::Land;
use crate::{calls, Found, Ranges, Refusal};

/// A set of free ranges of an arena, recorded in the first words of the ranges themselves.
///
/// The arena's words are borrowed: exactly (limit - base) / 8 of them, the word at address a being number
/// (a - base) / 8. Addresses are numbers of the host's own choice. A refused call leaves the land as it was.
pub struct ListLand<'w> {
    handle: ListHandle,
    words: &'w mut [u64],
}

impl<'w> ListLand<'w> {
    /// A land with no ranges. Base is not 0, base <= limit <= 2^40, both multiples of the alignment, which is a power
    /// of two from 8 to 4,096: of all 64-bit numbers exactly these ten pass, which is proved. No word is written.
    ///
    /// ```
    /// use limbegoru::{ListLand, Refusal};
    ///
    /// let mut words = [0; 8];
    /// assert!(ListLand::open(4096, 4160, 8, &mut words).is_ok());
    /// assert_eq!(ListLand::open(4096, 4160, 4, &mut words).err(), Some(Refusal::SetUp));
    /// ```
    pub fn open(base: u64, limit: u64, align: u64, words: &'w mut [u64]) -> Result<ListLand<'w>, Refusal> {
        let opened = calls::list_open(base, limit, align, words);
        Refusal::check(opened.answer)?;
        Ok(ListLand { handle: opened.land, words })
    }

    /// The land of a handle and words kept elsewhere. Every handle is allowed: a bad one is refused by the next call.
    pub fn from_parts(handle: ListHandle, words: &'w mut [u64]) -> ListLand<'w> {
        ListLand { handle, words }
    }

    /// The handle and the words.
    #[must_use = "the land is in it"]
    pub fn into_parts(self) -> (ListHandle, &'w mut [u64]) {
        (self.handle, self.words)
    }

    /// The handle.
    pub fn handle(&self) -> ListHandle {
        self.handle
    }

    /// Low water: the least number of free bytes after any accepted call, from the first that left the land non-empty
    /// on; nothing before that one.
    ///
    /// ```
    /// # use limbegoru::{ListLand, Mode, Range, Refusal};
    /// # let mut words = [0; 8];
    /// let mut land = ListLand::open(4096, 4160, 8, &mut words)?;
    /// assert_eq!(land.low_water(), None);
    /// land.insert(Range::new(4096, 4160))?;
    /// let found = land.find_first(24, Mode::Low)?;
    /// land.insert(found.range)?;
    /// assert_eq!((land.handle().bytes, land.low_water()), (64, Some(40)));
    /// # Ok::<(), Refusal>(())
    /// ```
    pub fn low_water(&self) -> Option<u64> {
        self.handle.low_water()
    }

    /// All words of the arena.
    pub fn words(&self) -> &[u64] {
        self.words
    }

    /// All words of the arena, for the host's own bytes. The host may write every word that is not free. Writing a free
    /// one may damage the list, which later calls answer with [`Refusal::Damaged`]; it is never unsafe.
    pub fn words_mut(&mut self) -> &mut [u64] {
        self.words
    }

    /// Makes a range free that has no free byte. Returns the isolated range that then contains it.
    ///
    /// ```
    /// # use limbegoru::{ListLand, Range, Refusal};
    /// # let mut words = [0; 8];
    /// let mut land = ListLand::open(4096, 4160, 8, &mut words)?;
    /// land.insert(Range::new(4096, 4112))?;
    /// land.insert(Range::new(4120, 4128))?;
    /// assert_eq!(land.insert(Range::new(4112, 4120)), Ok(Range::new(4096, 4128)));
    /// assert_eq!(land.insert(Range::new(4104, 4136)), Err(Refusal::Overlap));
    /// # Ok::<(), Refusal>(())
    /// ```
    #[inline]
    pub fn insert(&mut self, range: Range) -> Result<Range, Refusal> {
        let changed = calls::list_insert_at(&mut self.handle, self.words, range);
        Refusal::check(changed.answer).map(|()| changed.range)
    }

    /// Takes out a range that is all free. Returns the isolated range that contained it.
    ///
    /// ```
    /// # use limbegoru::{ListLand, Range, Refusal};
    /// # let mut words = [0; 8];
    /// let mut land = ListLand::open(4096, 4160, 8, &mut words)?;
    /// land.insert(Range::new(4096, 4128))?;
    /// assert_eq!(land.delete(Range::new(4104, 4112)), Ok(Range::new(4096, 4128)));
    /// assert_eq!(land.delete(Range::new(4096, 4128)), Err(Refusal::Overlap));
    /// assert_eq!((land.handle().ranges, land.handle().bytes), (2, 24));
    /// # Ok::<(), Refusal>(())
    /// ```
    #[inline]
    pub fn delete(&mut self, range: Range) -> Result<Range, Refusal> {
        let changed = calls::list_delete_at(&mut self.handle, self.words, range);
        Refusal::check(changed.answer).map(|()| changed.range)
    }

    /// Finds the isolated range of at least the size with the lowest base. The size is a multiple of the alignment, and
    /// not 0.
    ///
    /// ```
    /// # use limbegoru::{ListLand, Mode, Range, Refusal};
    /// # let mut words = [0; 8];
    /// let mut land = ListLand::open(4096, 4160, 8, &mut words)?;
    /// land.insert(Range::new(4096, 4160))?;
    /// let found = land.find_first(24, Mode::Low)?;
    /// assert_eq!(found.range, Range::new(4096, 4120));
    /// assert_eq!(found.old, Range::new(4096, 4160));
    /// assert_eq!(land.find_first(48, Mode::Low), Err(Refusal::NoneFound));
    /// # Ok::<(), Refusal>(())
    /// ```
    #[inline]
    pub fn find_first(&mut self, size: u64, mode: Mode) -> Result<Found, Refusal> {
        let found = calls::list_find_first(self.handle, self.words, size, mode.number());
        self.handle = found.land;
        Refusal::check(found.answer).map(|()| Found { range: found.range, old: found.old })
    }

    /// Finds the isolated range of at least the size with the highest base. The size is a multiple of the alignment,
    /// and not 0.
    #[inline]
    pub fn find_last(&mut self, size: u64, mode: Mode) -> Result<Found, Refusal> {
        let found = calls::list_find_last(self.handle, self.words, size, mode.number());
        self.handle = found.land;
        Refusal::check(found.answer).map(|()| Found { range: found.range, old: found.old })
    }

    /// Finds the longest isolated range, the lowest base among equals, if it reaches the size. The size is a multiple
    /// of the alignment; 0 takes any. Low and high take all.
    #[inline]
    pub fn find_largest(&mut self, size: u64, mode: Mode) -> Result<Found, Refusal> {
        let found = calls::list_find_largest(self.handle, self.words, size, mode.number());
        self.handle = found.land;
        Refusal::check(found.answer).map(|()| Found { range: found.range, old: found.old })
    }

    /// The isolated range of lowest base at or above a number.
    #[inline]
    pub fn walk(&self, from: u64) -> Result<Range, Refusal> {
        let changed = calls::list_walk(self.handle, self.words, from);
        Refusal::check(changed.answer).map(|()| changed.range)
    }

    /// All ranges in address order, each met by a walk from the limit of the one before. A refusal other than
    /// [`Refusal::NoneFound`] is the last item.
    ///
    /// ```
    /// # use limbegoru::{ListLand, Range, Refusal};
    /// # let mut words = [0; 8];
    /// let mut land = ListLand::open(4096, 4160, 8, &mut words)?;
    /// land.insert(Range::new(4120, 4128))?;
    /// land.insert(Range::new(4096, 4112))?;
    /// let ranges: Result<Vec<Range>, Refusal> = land.ranges().collect();
    /// assert_eq!(ranges, Ok(vec![Range::new(4096, 4112), Range::new(4120, 4128)]));
    ///
    /// land.words_mut()[0] = 4121; // a free word
    /// assert_eq!(land.ranges().next(), Some(Err(Refusal::Damaged)));
    /// # Ok::<(), Refusal>(())
    /// ```
    pub fn ranges(&self) -> Ranges<'_> {
        Ranges::new(Land::List(self))
    }

    /// Goes on with the next handle.
    pub(crate) fn follow(&mut self, next: ListHandle) {
        self.handle = next;
    }
}

impl fmt::Debug for ListLand<'_> {
    fn fmt(&self, f: &mut fmt::Formatter<'_>) -> fmt::Result {
        f.debug_struct("ListLand").field("handle", &self.handle).finish_non_exhaustive()
    }
}
