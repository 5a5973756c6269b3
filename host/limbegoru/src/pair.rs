//! The pair: a list land that takes over where a block land of the same arena has no room.

use core::fmt;

use crate::handle::{Mode, PairHandle, Range};
use crate::{calls, sys, BlockLand, Found, ListLand, Refusal};

/// A list land and a block land of the same arena, with no byte free in both.
///
/// Free means free in either land. What has no room in node space is kept in the list, so that no call answers
/// [`Refusal::Full`]. A range that is returned is one of the land concerned. Each land keeps a low water of its own, read
/// after each accepted call on the pair. A refused call leaves both lands as they were.
pub struct Pair<'w> {
    list: ListLand<'w>,
    block: BlockLand<'w>,
}

impl<'w> Pair<'w> {
    /// The pair of two lands. Any two are allowed: the next call refuses lands of different arenas with
    /// [`Refusal::SetUp`] and lands that overlap with [`Refusal::Damaged`].
    ///
    /// ```
    /// use limbegoru::{BlockLand, ListLand, Pair, Range, Refusal};
    ///
    /// let (mut words, mut nodes) = ([0; 8], [0; 2]);
    /// let list = ListLand::open(4096, 4160, 8, &mut words)?;
    /// let block = BlockLand::open(4096, 4168, 8, &mut nodes)?; // another limit
    /// assert_eq!(Pair::new(list, block).insert(Range::new(4096, 4104)), Err(Refusal::SetUp));
    /// # Ok::<(), Refusal>(())
    /// ```
    pub fn new(list: ListLand<'w>, block: BlockLand<'w>) -> Pair<'w> {
        Pair { list, block }
    }

    /// The pair of a handle, arena words and node space kept elsewhere. Every handle is allowed: a bad one is refused
    /// by the next call.
    pub fn from_parts(handle: PairHandle, words: &'w mut [u64], nodes: &'w mut [u64]) -> Pair<'w> {
        Pair::new(ListLand::from_parts(handle.list, words), BlockLand::from_parts(handle.block, nodes))
    }

    /// The handle, the arena words and node space.
    #[must_use = "both lands are in it"]
    pub fn into_parts(self) -> (PairHandle, &'w mut [u64], &'w mut [u64]) {
        let (list, words) = self.list.into_parts();
        let (block, nodes) = self.block.into_parts();
        (PairHandle { list, block }, words, nodes)
    }

    /// The two lands.
    #[must_use = "both lands are in it"]
    pub fn into_lands(self) -> (ListLand<'w>, BlockLand<'w>) {
        (self.list, self.block)
    }

    /// The handle.
    pub fn handle(&self) -> PairHandle {
        PairHandle { list: self.list.handle(), block: self.block.handle() }
    }

    /// The list land, to walk it and to read its low water.
    ///
    /// ```
    /// # use limbegoru::{BlockLand, ListLand, Pair, Range, Refusal};
    /// # let (mut words, mut nodes) = ([0; 8], [0; 2]);
    /// # let list = ListLand::open(4096, 4160, 8, &mut words)?;
    /// # let block = BlockLand::open(4096, 4160, 8, &mut nodes)?;
    /// let mut pair = Pair::new(list, block); // room for one range in node space
    /// pair.insert(Range::new(4096, 4104))?;
    /// assert_eq!((pair.list().low_water(), pair.block().low_water()), (None, Some(8)));
    /// pair.insert(Range::new(4112, 4128))?;
    /// pair.delete(Range::new(4096, 4104))?;
    /// pair.insert(Range::new(4136, 4152))?; // empties the list and fills it again, in one call
    /// assert_eq!((pair.list().low_water(), pair.block().low_water()), (Some(16), Some(0)));
    /// # Ok::<(), Refusal>(())
    /// ```
    pub fn list(&self) -> &ListLand<'w> {
        &self.list
    }

    /// The block land, to walk it and to read its low water.
    pub fn block(&self) -> &BlockLand<'w> {
        &self.block
    }

    /// All words of the arena, for the host's own bytes. The host may write every word that is free in neither land.
    /// Writing one that is free in the list may damage it, which later calls answer with [`Refusal::Damaged`]; it is
    /// never unsafe.
    pub fn words_mut(&mut self) -> &mut [u64] {
        self.list.words_mut()
    }

    /// Makes a range free that has no free byte. It first flushes the list, then inserts into the block land, and where
    /// that has no room into the list. Returns the isolated range, of the land that took it, that then contains it.
    ///
    /// ```
    /// # use limbegoru::{BlockLand, ListLand, Pair, Range, Refusal};
    /// # let (mut words, mut nodes) = ([0; 8], [0; 2]); // room for one range
    /// # let list = ListLand::open(4096, 4160, 8, &mut words)?;
    /// # let block = BlockLand::open(4096, 4160, 8, &mut nodes)?;
    /// let mut pair = Pair::new(list, block); // room for one range in node space
    /// pair.insert(Range::new(4096, 4104))?;
    /// assert_eq!(pair.insert(Range::new(4112, 4120)), Ok(Range::new(4112, 4120)));
    /// assert_eq!((pair.handle().block.ranges, pair.handle().list.ranges), (1, 1));
    /// assert_eq!(pair.insert(Range::new(4104, 4120)), Err(Refusal::Overlap));
    /// # Ok::<(), Refusal>(())
    /// ```
    #[inline]
    pub fn insert(&mut self, range: Range) -> Result<Range, Refusal> {
        let changed = calls::pair_insert(self.handle(), self.list.words_mut(), self.block.words_mut(), range);
        self.changed(changed)
    }

    /// Takes a range out of the land that holds all of it. Where the block land has no room for both ends that are
    /// left, the lower end stays there and the upper goes to the list. Returns the isolated range, of the land that
    /// held it, that contained it.
    ///
    /// ```
    /// # use limbegoru::{BlockLand, ListLand, Pair, Range, Refusal};
    /// # let (mut words, mut nodes) = ([0; 8], [0; 2]);
    /// # let list = ListLand::open(4096, 4160, 8, &mut words)?;
    /// # let block = BlockLand::open(4096, 4160, 8, &mut nodes)?;
    /// let mut pair = Pair::new(list, block); // room for one range in node space
    /// pair.insert(Range::new(4096, 4120))?;
    /// assert_eq!(pair.delete(Range::new(4104, 4112)), Ok(Range::new(4096, 4120)));
    /// assert_eq!(pair.block().walk(0), Ok(Range::new(4096, 4104)));
    /// assert_eq!(pair.list().walk(0), Ok(Range::new(4112, 4120)));
    /// # Ok::<(), Refusal>(())
    /// ```
    #[inline]
    pub fn delete(&mut self, range: Range) -> Result<Range, Refusal> {
        let changed = calls::pair_delete(self.handle(), self.list.words_mut(), self.block.words_mut(), range);
        self.changed(changed)
    }

    /// The lower of what the two lands find first. The size is a multiple of the alignment, and not 0. A run of free
    /// bytes that lies in both lands is not found whole.
    #[inline]
    pub fn find_first(&mut self, size: u64, mode: Mode) -> Result<Found, Refusal> {
        let (pair, mode) = (self.handle(), mode.number());
        let found = calls::pair_find_first(pair, self.list.words_mut(), self.block.words_mut(), size, mode);
        self.found(found)
    }

    /// The higher of what the two lands find last. The size is a multiple of the alignment, and not 0.
    #[inline]
    pub fn find_last(&mut self, size: u64, mode: Mode) -> Result<Found, Refusal> {
        let (pair, mode) = (self.handle(), mode.number());
        let found = calls::pair_find_last(pair, self.list.words_mut(), self.block.words_mut(), size, mode);
        self.found(found)
    }

    /// The longer of the two lands' largest, the lower base among equals, if it reaches the size. The size is a
    /// multiple of the alignment; 0 takes any. Low and high take all.
    #[inline]
    pub fn find_largest(&mut self, size: u64, mode: Mode) -> Result<Found, Refusal> {
        let (pair, mode) = (self.handle(), mode.number());
        let found = calls::pair_find_largest(pair, self.list.words_mut(), self.block.words_mut(), size, mode);
        self.found(found)
    }

    /// Goes on after an insert or a delete.
    fn changed(&mut self, changed: sys::lg_pair_changed) -> Result<Range, Refusal> {
        self.follow(changed.pair);
        Refusal::check(changed.answer).map(|()| changed.range)
    }

    /// Goes on after a find.
    fn found(&mut self, found: sys::lg_pair_found) -> Result<Found, Refusal> {
        self.follow(found.pair);
        Refusal::check(found.answer).map(|()| Found { range: found.range, old: found.old })
    }

    /// Goes on with the next handle.
    fn follow(&mut self, next: PairHandle) {
        self.list.follow(next.list);
        self.block.follow(next.block);
    }
}

impl fmt::Debug for Pair<'_> {
    fn fmt(&self, f: &mut fmt::Formatter<'_>) -> fmt::Result {
        f.debug_struct("Pair").field("handle", &self.handle()).finish_non_exhaustive()
    }
}
