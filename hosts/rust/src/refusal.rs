use std::fmt;

/// Why the library refused a call: the numbers of its specification.
///
/// The checks run in the order 11, 12, 13 and then 1 to 10; the first that fails gives the number. Where an image
/// is written they are 1, 2 and 13, in this order, and where weights become amounts, and back, 2, 15 and 16.
/// Calls from a start vertex end with 17, after 5 or, where there is a measure, after 6. An image sequence is
/// refused by 14, or by 2 after that; its images have numbers of their own.
#[derive(Clone, Copy, Debug, PartialEq, Eq, Hash)]
#[non_exhaustive]
pub enum Refusal {
    /// 1: the number of vertices is 0 or above 64.
    VertexCount,
    /// 2: more than 512 edges, edge lists of unequal length, a measure or given parents that are not one for
    /// each vertex, or an answer table or a buffer for a record, an image or a page that is too short.
    TableSize,
    /// 3: an edge has an end that is no vertex, has its ends in falling order, or is not after its forerunner.
    EdgeOrder,
    /// 4: the length of an edge is above 65,535. No image gives this: it has two bytes for a length.
    EdgeLength,
    /// 5: some vertex cannot be reached from vertex 0.
    NotConnected,
    /// 6: the total of a measure is above 16,777,216.
    TotalTooLarge,
    /// 7: the totals of the two measures differ.
    TotalsDiffer,
    /// 8: the root or a parent is no vertex, the root has another parent, or a second vertex is its own parent.
    TreeParents,
    /// 9: a vertex and its parent share no edge.
    TreeEdge,
    /// 10: a chain of parents misses the root.
    TreeCycle,
    /// 11: the image has under 36 or over 65,536 bytes.
    ImageSize,
    /// 12: a section of the image overlaps what is before it, or ends past the image.
    SectionPlace,
    /// 13: byte 1 of the image is not 0, or a section's length does not fit the counts. Of what is to be written
    /// as an image: an end, root or parent is above 255, a length above 65,535 or an amount above 4,294,967,295.
    SectionLength,
    /// 14: the reel ends before its count or directory does, or an image in it starts inside the directory or before
    /// its forerunner's end, or ends past the reel.
    SequenceDirectory,
    /// 15: a weight is below 0, above 1 or no number, or an amount that is to be a weight is above 16,777,216.
    WeightRange,
    /// 16: a weight is no whole number of grains: 16,777,216 times it is not whole.
    WeightGrains,
    /// 17: the start is no vertex.
    StartVertex,
    /// A number that this crate does not know.
    Other(u32),
}

impl Refusal {
    /// The refusal with a number, none for 0.
    pub fn from_number(number: u32) -> Option<Refusal> {
        Some(match number {
            0 => return None,
            1 => Refusal::VertexCount,
            2 => Refusal::TableSize,
            3 => Refusal::EdgeOrder,
            4 => Refusal::EdgeLength,
            5 => Refusal::NotConnected,
            6 => Refusal::TotalTooLarge,
            7 => Refusal::TotalsDiffer,
            8 => Refusal::TreeParents,
            9 => Refusal::TreeEdge,
            10 => Refusal::TreeCycle,
            11 => Refusal::ImageSize,
            12 => Refusal::SectionPlace,
            13 => Refusal::SectionLength,
            14 => Refusal::SequenceDirectory,
            15 => Refusal::WeightRange,
            16 => Refusal::WeightGrains,
            17 => Refusal::StartVertex,
            other => Refusal::Other(other),
        })
    }

    /// What a call that returned this number did: nothing wrong, or a refusal.
    ///
    /// ```
    /// use weight_mover::Refusal;
    ///
    /// assert_eq!(Refusal::check(0), Ok(()));
    /// assert_eq!(Refusal::check(7), Err(Refusal::TotalsDiffer));
    /// ```
    pub fn check(number: u32) -> Result<(), Refusal> {
        Refusal::from_number(number).map_or(Ok(()), Err)
    }

    /// The refusal's number.
    pub fn number(self) -> u32 {
        match self {
            Refusal::VertexCount => 1,
            Refusal::TableSize => 2,
            Refusal::EdgeOrder => 3,
            Refusal::EdgeLength => 4,
            Refusal::NotConnected => 5,
            Refusal::TotalTooLarge => 6,
            Refusal::TotalsDiffer => 7,
            Refusal::TreeParents => 8,
            Refusal::TreeEdge => 9,
            Refusal::TreeCycle => 10,
            Refusal::ImageSize => 11,
            Refusal::SectionPlace => 12,
            Refusal::SectionLength => 13,
            Refusal::SequenceDirectory => 14,
            Refusal::WeightRange => 15,
            Refusal::WeightGrains => 16,
            Refusal::StartVertex => 17,
            Refusal::Other(number) => number,
        }
    }

    /// What it means, in words; its text is `refused`, the number and these.
    ///
    /// ```
    /// use weight_mover::Refusal;
    ///
    /// assert_eq!(Refusal::TotalsDiffer.meaning(), "the two totals differ");
    /// assert_eq!(Refusal::TotalsDiffer.to_string(), "refused 7: the two totals differ");
    /// ```
    pub fn meaning(self) -> &'static str {
        match self {
            Refusal::VertexCount => "the number of vertices is 0 or above 64",
            Refusal::TableSize => "more than 512 edges, or a table or buffer of the wrong length",
            Refusal::EdgeOrder => "an edge's ends are wrong, or an edge comes twice or out of order",
            Refusal::EdgeLength => "an edge's length is above 65,535",
            Refusal::NotConnected => "some vertex cannot be reached from vertex 0",
            Refusal::TotalTooLarge => "a total is above 16,777,216",
            Refusal::TotalsDiffer => "the two totals differ",
            Refusal::TreeParents => "the tree's root or a parent is wrong, or there is a second root",
            Refusal::TreeEdge => "a vertex of the tree and its parent share no edge",
            Refusal::TreeCycle => "a chain of the tree's parents misses the root",
            Refusal::ImageSize => "the image has under 36 or over 65,536 bytes",
            Refusal::SectionPlace => "a section of the image is out of place",
            Refusal::SectionLength => {
                "byte 1 of the image is not 0, a section has the wrong length, or a number is too large for \
                 an image"
            }
            Refusal::SequenceDirectory => {
                "the reel is shorter than its directory, or an image in it is out of order or out of bounds"
            }
            Refusal::WeightRange => {
                "a weight is below 0, above 1 or no number, or an amount is above 16,777,216"
            }
            Refusal::WeightGrains => "a weight is no whole number of grains",
            Refusal::StartVertex => "the start is no vertex",
            Refusal::Other(_) => "for a reason unknown to this crate",
        }
    }
}

impl fmt::Display for Refusal {
    fn fmt(&self, f: &mut fmt::Formatter) -> fmt::Result {
        write!(f, "refused {}: {}", self.number(), self.meaning())
    }
}

impl std::error::Error for Refusal {}

#[cfg(test)]
mod tests {
    use super::Refusal;

    #[test]
    fn numbers_and_refusals_agree() {
        assert_eq!(Refusal::from_number(0), None);
        assert_eq!(Refusal::check(0), Ok(()));
        for number in (1..=30).chain([u32::MAX]) {
            let refusal = Refusal::from_number(number).expect("a refusal");
            assert_eq!(refusal.number(), number);
            assert_eq!(Refusal::check(number), Err(refusal));
            assert_eq!(matches!(refusal, Refusal::Other(_)), number > 17);
            assert!(refusal.to_string().starts_with(&format!("refused {number}: ")));
        }
        assert_eq!(
            Refusal::SectionLength.to_string(),
            "refused 13: byte 1 of the image is not 0, a section has the wrong length, or a number is too large for an image"
        );
        assert_eq!(
            Refusal::SequenceDirectory.to_string(),
            "refused 14: the reel is shorter than its directory, or an image in it is out of order or out of bounds"
        );
        assert_eq!(
            Refusal::StartVertex.to_string(),
            "refused 17: the start is no vertex"
        );
    }
}
