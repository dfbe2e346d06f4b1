//! What a query answers.

/// What a ball or a box lists: see [`SampleSet::ball`](crate::SampleSet::ball) and [`lent::ball`](crate::lent::ball).
///
/// ```
/// let mut set = hubeltxa::SampleSet::for_samples(100, 16)?;
/// set.add(7, [1, 2, 3])?;
/// let mut listing = vec![];
/// let black = set.ball([0.0; 3], 0.001, &mut listing)?;
/// assert_eq!(black.tags, [7]);
/// assert_eq!((black.entered, black.measured), (1, 1)); // the root, and the sample in it
/// # Ok::<(), hubeltxa::Refusal>(())
/// ```
#[derive(Clone, Copy, Debug, PartialEq, Eq)]
pub struct Listed<'a> {
    /// The tags, in the order of the samples: the part of the listing that the query wrote, from its first word on.
    pub tags: &'a [u32],
    /// How many octants were gone into.
    pub entered: u32,
    /// How many samples were looked at one by one; those of an octant inside the region are not.
    pub measured: u32,
}

/// The sample that is nearest to a centre: see [`SampleSet::nearest`](crate::SampleSet::nearest) and
/// [`lent::nearest`](crate::lent::nearest).
///
/// ```
/// let mut set = hubeltxa::SampleSet::for_samples(100, 16)?;
/// set.add(7, [3, 4, 0])?;
/// let found = set.nearest([0.0; 3], 0.001)?.unwrap();
/// assert_eq!(found, hubeltxa::Nearest { tag: 7, distance: 25 });
/// # Ok::<(), hubeltxa::Refusal>(())
/// ```
#[derive(Clone, Copy, Debug, PartialEq, Eq)]
pub struct Nearest {
    /// Its tag.
    pub tag: u32,
    /// Its d²: the sum of the three squared differences between its codes and the centre's.
    pub distance: u64,
}
