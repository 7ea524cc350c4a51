//! Tables, in as many blocks side by side as they need.

use crate::chips::Chip;
use crate::svg::{Anchor, NAME, Point, SMALL, Svg};

/// The height of a row, and of what stands above the first: the title and the heads.
const ROW: i32 = 20;
const TITLE: i32 = 26;
const HEADS: i32 = 22;
/// The space between columns, and between blocks.
const BETWEEN: i32 = 16;
const BETWEEN_BLOCKS: i32 = 40;

/// A column of a table: its head, and whether it has numbers, which stand at its right edge.
pub struct Column {
    /// Its head.
    pub head: &'static str,
    /// Whether it has numbers.
    pub has_numbers: bool,
}

/// A row: a chip, if the table has such, and a text for each column.
pub struct Row {
    /// The chip.
    pub chip: Option<Chip>,
    /// The texts.
    pub texts: Vec<String>,
}

/// A table.
pub struct Table {
    /// Its title.
    pub title: &'static str,
    /// Its columns.
    pub columns: Vec<Column>,
    /// Its rows.
    pub rows: Vec<Row>,
}

impl Table {
    /// The height of a block with so many rows.
    pub fn height(rows: usize) -> i32 {
        TITLE + HEADS + ROW * rows as i32
    }

    /// How many rows a block has at most that is no higher than this.
    pub fn rows_within(height: i32) -> usize {
        let rows = usize::try_from((height - TITLE - HEADS) / ROW);
        rows.unwrap_or(1).max(1)
    }

    /// The room for the chips.
    fn chip_width(&self) -> i32 {
        let chips = self.rows.iter().filter_map(|row| row.chip);
        chips
            .map(|chip| chip.width() + BETWEEN / 2)
            .max()
            .unwrap_or(0)
    }

    /// The widths of the columns.
    fn widths(&self) -> Vec<i32> {
        let head_width = |column: &Column| SMALL.width(column.head);
        let mut widths: Vec<i32> = self.columns.iter().map(head_width).collect();
        for row in &self.rows {
            for (width, text) in widths.iter_mut().zip(&row.texts) {
                *width = NAME.width(text).max(*width);
            }
        }
        widths
    }

    /// The width of a block.
    fn block_width(&self) -> i32 {
        let widths = self.widths();
        let between = BETWEEN * (widths.len() as i32 - 1);
        (self.chip_width() + widths.iter().sum::<i32>() + between).max(SMALL.width(self.title))
    }

    /// The width of the table in blocks of so many rows.
    pub fn width(&self, rows: usize) -> i32 {
        let blocks = self.rows.len().div_ceil(rows).max(1) as i32;
        blocks * self.block_width() + (blocks - 1) * BETWEEN_BLOCKS
    }

    /// Draws the table in blocks of so many rows, given its left upper corner.
    pub fn draw(&self, svg: &mut Svg, [left, top]: Point, rows: usize) {
        let title = [left, top + 14];
        svg.text("strong", NAME, Anchor::Start, title, self.title);
        let mut left = left;
        for block in self.rows.chunks(rows) {
            self.draw_block(svg, [left, top + TITLE], block);
            left += self.block_width() + BETWEEN_BLOCKS;
        }
    }

    fn draw_block(&self, svg: &mut Svg, [left, top]: Point, rows: &[Row]) {
        let right = left + self.block_width();
        let line = top + HEADS - 6;
        svg.path("rule", 10, &format!("M{left} {line}L{right} {line}"));
        let heads = self.columns.iter().map(|column| column.head);
        self.draw_texts(svg, "muted", [left, top + 10], heads);
        for (row, number) in rows.iter().zip(0..) {
            let middle = top + HEADS + ROW * number + ROW / 2;
            if let Some(chip) = row.chip {
                chip.draw(svg, [left, middle]);
            }
            let texts = row.texts.iter().map(String::as_str);
            self.draw_texts(svg, "", [left, middle + 4], texts);
        }
    }

    /// Draws a text in each column: heads small and muted, other rows as names.
    fn draw_texts<'text>(
        &self,
        svg: &mut Svg,
        class: &str,
        [left, y]: Point,
        texts: impl Iterator<Item = &'text str>,
    ) {
        let font = if class == "muted" { SMALL } else { NAME };
        let mut x = left + self.chip_width();
        for ((column, width), text) in self.columns.iter().zip(self.widths()).zip(texts) {
            if column.has_numbers {
                svg.text(class, font, Anchor::End, [x + width, y], text);
            } else {
                svg.text(class, font, Anchor::Start, [x, y], text);
            }
            x += width + BETWEEN;
        }
    }
}
