//! Conversion of lines, batch by batch.

use crate::batch::{Batch, Lines};
use crate::instants::read_instants;
use crate::line_ends::find_line_ends;
use crate::lookup::{LastName, find_types, find_zones};
use crate::plain::PlainLines;
use crate::rows::write_rows;
use crate::tables::Tables;
use crate::text::Text;

/// Converts lines, and keeps its buffers.
pub struct Converter<'a> {
    tables: &'a Tables,
    batch: Box<Batch>,
    plain: PlainLines,
    last_name: LastName,
}

impl<'a> Converter<'a> {
    pub fn new(tables: &'a Tables) -> Converter<'a> {
        Converter {
            tables,
            batch: Batch::new(),
            plain: PlainLines::default(),
            last_name: LastName::new(tables),
        }
    }

    /// Appends the rows of lines to a text. If many instants of a batch are unusual, its lines
    /// are made plain first.
    pub fn convert(&mut self, lines: Lines<'_>, text: &mut Text) {
        let Converter { tables, batch, plain, last_name } = self;
        let (mut at, mut searched) = (0, 0);
        while at < lines.end {
            searched = find_line_ends(lines, searched, batch);
            let end = batch.end();
            let (mut batch_lines, mut start) = (lines, at);
            if read_instants(lines, at, batch) > batch.len() / 8 {
                (batch_lines, start) = (plain.write(lines, at, batch), 0);
                read_instants(batch_lines, start, batch);
            }
            find_zones(tables, batch_lines, start, batch, last_name);
            find_types(tables, batch);
            write_rows(tables, batch_lines, start, batch, text);
            at = end;
        }
    }
}
