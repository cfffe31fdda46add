//! The case lines FLIST and ULIST: questions that lend a list of error records. README.md has the
//! forms. All that reads, writes and answers them stands here.
use crate::entries::{components, Place, Refusal, Set};
use crate::format::{put_float, put_floats, put_int, put_place, Words, COUNT_DIGITS};
use crate::models::WmmErrorModel;
use crate::records::{field_listed, uncertainty_listed};
use crate::replay::put_field;

/// The longest list that a line can say.
pub const MAX_RECORDS: usize = 20;

/// What is asked for beside the list.
#[derive(Copy, Clone, Debug, PartialEq)]
pub enum Asked {
    /// FLIST: Field, with the set in force.
    Field(Place),
    /// ULIST: the uncertainty of these components, X, Y and Z, by the figures of a year.
    Uncertainty { xyz: [f32; 3], epoch_year: i32 },
}

#[derive(Clone, Debug, PartialEq)]
pub struct Listed {
    pub asked: Asked,
    pub records: Vec<WmmErrorModel>,
}

/// A count, then nine words a record: its year and its eight figures.
fn read_records(words: &mut Words) -> Option<Vec<WmmErrorModel>> {
    let count = words.count(COUNT_DIGITS, MAX_RECORDS)?;
    let mut records = Vec::with_capacity(count);
    for _ in 0..count {
        let epoch_year = words.int()?;
        let mut figures = [0.0; 8];
        for figure in &mut figures {
            *figure = words.float()?;
        }
        records.push(WmmErrorModel::of(epoch_year, figures));
    }
    Some(records)
}

impl Listed {
    /// Reads what follows the word FLIST.
    pub fn field(words: &mut Words) -> Option<Listed> {
        Some(Listed {
            asked: Asked::Field(words.place()?),
            records: read_records(words)?,
        })
    }

    /// Reads what follows the word ULIST.
    pub fn uncertainty(words: &mut Words) -> Option<Listed> {
        Some(Listed {
            asked: Asked::Uncertainty {
                xyz: [words.float()?, words.float()?, words.float()?],
                epoch_year: words.int()?,
            },
            records: read_records(words)?,
        })
    }

    /// Writes the question, with no mark.
    pub fn put(&self, out: &mut Vec<u8>) {
        match self.asked {
            Asked::Field(place) => put_place(out, b"FLIST", &place),
            Asked::Uncertainty { xyz, epoch_year } => {
                out.extend_from_slice(b"ULIST");
                put_floats(out, &xyz);
                put_int(out, epoch_year);
            }
        }
        put_int(out, self.records.len() as i32);
        for record in &self.records {
            put_int(out, record.epoch_year);
            put_floats(out, &record.figures());
        }
    }

    /// Writes the floats of the answer.
    pub fn put_result(&self, out: &mut Vec<u8>, set: &Set) -> Result<(), Refusal> {
        match self.asked {
            Asked::Field(place) => put_field(out, &field_listed(&place, set, &self.records)?),
            Asked::Uncertainty { xyz, epoch_year } => {
                let field = components(xyz);
                put_float(out, uncertainty_listed(&field, epoch_year, &self.records)?);
            }
        }
        Ok(())
    }
}
