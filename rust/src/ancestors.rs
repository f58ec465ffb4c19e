//! Every row that a row rests on. Of the safety of the call the same holds as of those that read a file.
use crate::refusal::unless_refused;
use crate::{ffi, Refusal};

/// What [`ancestors`] answers beside the rows.
#[derive(Clone, Copy, Debug, PartialEq, Eq, Hash)]
pub struct Ancestry {
    /// Rows written at the start of the list.
    pub count: usize,
    /// Dependencies, of the row and of those listed, that name no row.
    pub missing: usize,
}

/// Writes every row that is reached from the row by dependencies, in one or more steps, each once, in rising order and without
/// the row itself, into the list; [`ANCESTORS_ROOM`](crate::ANCESTORS_ROOM) entries are always enough. Rows before a fault count.
/// [`Refusal::RowsOver64`] where the file has more than 64 rows, [`Refusal::Circle`] where a chain of dependencies from the row
/// comes back to a row on it.
///
/// ```
/// use ads::{Ancestry, Refusal};
///
/// let file = std::fs::read("../samples/ancestors.ads")?;
/// let mut rows = [0; ads::ANCESTORS_ROOM];
/// let Ancestry { count, missing } = ads::ancestors(&file, 5, &mut rows)?;
/// assert_eq!((&rows[..count], missing), (&[0, 2, 3, 4][..], 2));
///
/// let circle = std::fs::read("../samples/circle.ads")?;
/// assert_eq!(ads::ancestors(&circle, 3, &mut rows), Err(Refusal::Circle));
/// # Ok::<(), Box<dyn std::error::Error>>(())
/// ```
pub fn ancestors(file: &[u8], row: usize, rows: &mut [usize]) -> Result<Ancestry, Refusal> {
    let ffi::Ancestry { count, missing, number } =
        unsafe { ffi::ads_ancestors(file.as_ptr(), file.len(), row, rows.as_mut_ptr(), rows.len()) };
    unless_refused(number, Ancestry { count, missing })
}
