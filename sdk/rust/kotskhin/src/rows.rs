//! Rows of gateways' answers.
use crate::attributes::{OwnedValue, read_pairs};
use crate::error::{Error, check};
use crate::export::copy_text;
use crate::handle::Handle;
use kotskhin_sys::{
    self as sys, kit_rows_attributes, kit_rows_buckets, kit_rows_len, kit_rows_read, kit_rows_table,
};

/// What the points of a row come to.
#[derive(Clone, Debug, PartialEq, Eq)]
#[non_exhaustive]
pub enum Total {
    Sum(i128),
    /// The time and the value of the newest point; none where the row has conflicts alone.
    Gauge(Option<(u64, i64)>),
    Histogram {
        count: u128,
        sum: i128,
        /// How many values each bucket has: one more than bounds.
        buckets: Vec<u128>,
        /// The least and the greatest value; none where there is no value.
        range: Option<(i64, i64)>,
    },
}

/// A row as data.
#[derive(Clone, Debug, PartialEq, Eq)]
pub struct Row {
    /// The set that it is of, in the order of keys.
    pub attributes: Vec<(String, OwnedValue)>,
    /// How many points its total is of.
    pub points: u64,
    /// How many conflicts its total leaves out.
    pub conflicts: u64,
    pub total: Total,
}

impl Row {
    /// What its values come to, where it is of a sum or of a histogram.
    pub fn sum(&self) -> Option<i128> {
        match self.total {
            Total::Sum(sum) | Total::Histogram { sum, .. } => Some(sum),
            Total::Gauge(_) => None,
        }
    }
}

/// Shapes of rows, as the library tells them.
const GAUGE: u8 = 2;
const HISTOGRAM: u8 = 3;

/// The rows that answer an ask, numbered from 0 in the order of their attribute sets.
#[derive(Debug)]
pub struct Rows(pub(crate) Handle<sys::Rows>);

impl Rows {
    /// How many there are.
    pub fn count(&self) -> Result<usize, Error> {
        let mut count = 0;
        // SAFETY: the rows are lent.
        check(unsafe { kit_rows_len(self.0.read().at(), &mut count) })?;
        Ok(count)
    }

    /// All of them, as data. Refused: `NoMemory`.
    pub fn all(&self) -> Result<Vec<Row>, Error> {
        (0..self.count()?).map(|number| self.row(number)).collect()
    }

    /// A row as data. Refused: `NoRow`, `NoMemory`.
    pub fn row(&self, number: usize) -> Result<Row, Error> {
        let mut row = sys::Row::default();
        // SAFETY: the rows are lent.
        check(unsafe { kit_rows_read(self.0.read().at(), number, &mut row) })?;
        let sum = join_sum(row.sum_high, row.sum_low);
        Ok(Row {
            attributes: self.read_attributes(number)?,
            points: row.points,
            conflicts: row.conflicts,
            total: match row.shape {
                GAUGE => Total::Gauge(row.has_value.then_some((row.time, row.value))),
                HISTOGRAM => Total::Histogram {
                    count: join_count(row.count_high, row.count_low),
                    sum,
                    buckets: self.read_buckets(number, row.buckets)?,
                    range: row.has_range.then_some((row.least, row.greatest)),
                },
                _ => Total::Sum(sum),
            },
        })
    }

    fn read_attributes(&self, number: usize) -> Result<Vec<(String, OwnedValue)>, Error> {
        let mut set = Handle::empty();
        // SAFETY: the rows are lent, and the set is ours alone.
        check(unsafe { kit_rows_attributes(self.0.read().at(), number, set.change()) })?;
        read_pairs(&set)
    }

    fn read_buckets(&self, number: usize, many: usize) -> Result<Vec<u128>, Error> {
        let (mut counts, mut len) = (vec![sys::Count::default(); many], 0);
        let (mut lent, into) = (self.0.read(), counts.as_mut_ptr());
        // SAFETY: the rows are lent, and the room is the vector's.
        check(unsafe { kit_rows_buckets(lent.at(), number, into, many, &mut len) })?;
        let counts = counts.into_iter();
        Ok(counts
            .map(|count| join_count(count.high, count.low))
            .collect())
    }

    /// The table of the rows: a line for each below a header. Refused: `NoMemory`.
    pub fn table(&self) -> Result<String, Error> {
        let mut table = Handle::empty();
        // SAFETY: the table is ours alone, and the rows are lent; they are two.
        check(unsafe { kit_rows_table(self.0.read().at(), table.change()) })?;
        copy_text(&table)
    }
}

/// A number of two halves.
fn join_sum(high: i64, low: u64) -> i128 {
    i128::from(high) << 64 | i128::from(low)
}

fn join_count(high: u64, low: u64) -> u128 {
    u128::from(high) << 64 | u128::from(low)
}
