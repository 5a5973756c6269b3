//! The block land: its ranges are recorded in separate node space.

use core::fmt;

use crate::handle::{BlockHandle, Mode, Range};
use crate::ranges::Land;
use crate::{calls, Found, Ranges, Refusal};

/// A set of free ranges of an arena, recorded in separate node space.
///
/// Node space is borrowed: at most 2,097,152 words, two for each range. A refused call leaves the land as it was.
pub struct BlockLand<'w> {
    handle: BlockHandle,
    nodes: &'w mut [u64],
}

impl<'w> BlockLand<'w> {
    /// A land with no ranges. Base is not 0, base <= limit <= 2^40, both multiples of the alignment, which is a power
    /// of two from 8 to 4,096: of all 64-bit numbers exactly these ten pass, which is proved. All pair words are set to
    /// 0; an odd last word is never written.
    ///
    /// ```
    /// use limbegoru::{BlockLand, Refusal};
    ///
    /// let mut nodes = [7; 3];
    /// assert!(BlockLand::open(4096, 1 << 40, 8, &mut nodes).is_ok());
    /// assert_eq!(nodes, [0, 0, 7]);
    /// assert_eq!(BlockLand::open(0, 4096, 8, &mut nodes).err(), Some(Refusal::SetUp));
    /// ```
    pub fn open(base: u64, limit: u64, align: u64, nodes: &'w mut [u64]) -> Result<BlockLand<'w>, Refusal> {
        let opened = calls::block_open(base, limit, align, nodes);
        Refusal::check(opened.answer)?;
        Ok(BlockLand { handle: opened.land, nodes })
    }

    /// The land of a handle and node space kept elsewhere. Every handle is allowed: a bad one is refused by the next
    /// call.
    pub fn from_parts(handle: BlockHandle, nodes: &'w mut [u64]) -> BlockLand<'w> {
        BlockLand { handle, nodes }
    }

    /// The handle and node space.
    #[must_use = "the land is in it"]
    pub fn into_parts(self) -> (BlockHandle, &'w mut [u64]) {
        (self.handle, self.nodes)
    }

    /// The handle.
    pub fn handle(&self) -> BlockHandle {
        self.handle
    }

    /// Low water: the least number of free bytes after any accepted call, from the first that left the land non-empty
    /// on; nothing before that one.
    ///
    /// ```
    /// # use limbegoru::{flush, BlockLand, ListLand, Range, Refusal};
    /// # let (mut words, mut nodes) = ([0; 8], [0; 4]);
    /// let mut list = ListLand::open(4096, 4160, 8, &mut words)?;
    /// list.insert(Range::new(4096, 4104))?;
    /// list.insert(Range::new(4120, 4136))?;
    /// let mut block = BlockLand::open(4096, 4160, 8, &mut nodes)?;
    /// flush(&mut list, &mut block)?; // one call, in which both ranges are moved
    /// assert_eq!((list.low_water(), block.low_water()), (Some(0), Some(24)));
    /// # Ok::<(), Refusal>(())
    /// ```
    pub fn low_water(&self) -> Option<u64> {
        self.handle.low_water()
    }

    /// The number of ranges that node space can hold.
    pub fn capacity(&self) -> usize {
        self.nodes.len() / 2
    }

    /// All words of node space.
    pub fn words(&self) -> &[u64] {
        self.nodes
    }

    /// All words of node space. Only an odd last word is the host's. Writing another one may damage the table, which
    /// later calls answer with [`Refusal::Damaged`]; it is never unsafe.
    pub fn words_mut(&mut self) -> &mut [u64] {
        self.nodes
    }

    /// Makes a range free that has no free byte. Returns the isolated range that then contains it.
    ///
    /// ```
    /// # use limbegoru::{BlockLand, Range, Refusal};
    /// let mut nodes = [0; 2]; // room for one range
    /// let mut land = BlockLand::open(4096, 4160, 8, &mut nodes)?;
    /// land.insert(Range::new(4096, 4104))?;
    /// assert_eq!(land.insert(Range::new(4112, 4120)), Err(Refusal::Full));
    /// assert_eq!(land.insert(Range::new(4104, 4112)), Ok(Range::new(4096, 4112)));
    /// # Ok::<(), Refusal>(())
    /// ```
    #[inline]
    pub fn insert(&mut self, range: Range) -> Result<Range, Refusal> {
        let changed = calls::block_insert(self.handle, self.nodes, range);
        self.handle = changed.land;
        Refusal::check(changed.answer).map(|()| changed.range)
    }

    /// Takes out a range that is all free. Returns the isolated range that contained it.
    ///
    /// ```
    /// # use limbegoru::{BlockLand, Range, Refusal};
    /// let mut nodes = [0; 2]; // room for one range
    /// let mut land = BlockLand::open(4096, 4160, 8, &mut nodes)?;
    /// land.insert(Range::new(4096, 4120))?;
    /// assert_eq!(land.delete(Range::new(4104, 4112)), Err(Refusal::Full));
    /// assert_eq!(land.delete(Range::new(4096, 4104)), Ok(Range::new(4096, 4120)));
    /// # Ok::<(), Refusal>(())
    /// ```
    #[inline]
    pub fn delete(&mut self, range: Range) -> Result<Range, Refusal> {
        let changed = calls::block_delete(self.handle, self.nodes, range);
        self.handle = changed.land;
        Refusal::check(changed.answer).map(|()| changed.range)
    }

    /// Finds the isolated range of at least the size with the lowest base. The size is a multiple of the alignment, and
    /// not 0. No find needs room in node space: it leaves no more ranges than it met.
    ///
    /// ```
    /// # use limbegoru::{BlockLand, Mode, Range, Refusal};
    /// let mut nodes = [0; 2]; // room for one range
    /// let mut land = BlockLand::open(4096, 4160, 8, &mut nodes)?;
    /// land.insert(Range::new(4096, 4120))?;
    /// assert_eq!(land.find_first(8, Mode::Low)?.range, Range::new(4096, 4104));
    /// assert_eq!(land.find_first(8, Mode::High)?.range, Range::new(4112, 4120));
    /// assert_eq!(land.walk(0), Ok(Range::new(4104, 4112)));
    /// # Ok::<(), Refusal>(())
    /// ```
    #[inline]
    pub fn find_first(&mut self, size: u64, mode: Mode) -> Result<Found, Refusal> {
        let found = calls::block_find_first(self.handle, self.nodes, size, mode.number());
        self.handle = found.land;
        Refusal::check(found.answer).map(|()| Found { range: found.range, old: found.old })
    }

    /// Finds the isolated range of at least the size with the highest base. The size is a multiple of the alignment,
    /// and not 0.
    #[inline]
    pub fn find_last(&mut self, size: u64, mode: Mode) -> Result<Found, Refusal> {
        let found = calls::block_find_last(self.handle, self.nodes, size, mode.number());
        self.handle = found.land;
        Refusal::check(found.answer).map(|()| Found { range: found.range, old: found.old })
    }

    /// Finds the longest isolated range, the lowest base among equals, if it reaches the size. The size is a multiple
    /// of the alignment; 0 takes any. Low and high take all.
    ///
    /// ```
    /// # use limbegoru::{BlockLand, Found, Mode, Range, Refusal};
    /// let mut nodes = [0; 4];
    /// let mut land = BlockLand::open(4096, 4160, 8, &mut nodes)?;
    /// land.insert(Range::new(4096, 4112))?;
    /// land.insert(Range::new(4128, 4144))?;
    /// let lower = Range::new(4096, 4112);
    /// assert_eq!(land.find_largest(0, Mode::Entire), Ok(Found { range: lower, old: lower }));
    /// # Ok::<(), Refusal>(())
    /// ```
    #[inline]
    pub fn find_largest(&mut self, size: u64, mode: Mode) -> Result<Found, Refusal> {
        let found = calls::block_find_largest(self.handle, self.nodes, size, mode.number());
        self.handle = found.land;
        Refusal::check(found.answer).map(|()| Found { range: found.range, old: found.old })
    }

    /// The isolated range of lowest base at or above a number.
    #[inline]
    pub fn walk(&self, from: u64) -> Result<Range, Refusal> {
        let changed = calls::block_walk(self.handle, self.nodes, from);
        Refusal::check(changed.answer).map(|()| changed.range)
    }

    /// All ranges in address order, each met by a walk from the limit of the one before. A refusal other than
    /// [`Refusal::NoneFound`] is the last item.
    pub fn ranges(&self) -> Ranges<'_> {
        Ranges::new(Land::Block(self))
    }

    /// Goes on with the next handle.
    pub(crate) fn follow(&mut self, next: BlockHandle) {
        self.handle = next;
    }
}

impl fmt::Debug for BlockLand<'_> {
    fn fmt(&self, f: &mut fmt::Formatter<'_>) -> fmt::Result {
        f.debug_struct("BlockLand").field("handle", &self.handle).finish_non_exhaustive()
    }
}
