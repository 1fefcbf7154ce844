//! A short text form of jobs.
//!
//! ```text
//! # the example of docs/RULES.md, "The listing"
//! loop 0 CLP rows 0
//!   row! 0 CLP 1=c0
//! loop 1 SVC in 0 rows 1
//!   row 1 SVC 1="HC" 2=c0
//! table 0
//!   : key text
//!   | 7 A1
//!   | 7 B2
//! table 1 parent 0
//!   : ref0 text
//!   | 7 100
//!   | 9 200
//!   | 7 -
//! ```
//!
//! A line that starts with `+` continues the one before; `#` starts a comment. Bytes are written
//! bare (`A1`) or quoted (`"A 1"`, with `\"`, `\\`, `\n` and `\xNN`). What is left out takes the
//! value in brackets:
//!
//! - `envelope`, before any loop or table, then `sender Q ID` [ZZ SENDER] `receiver Q ID` [ZZ RECEIVER]
//!   `application S R` [- -, which is absent] `date D` [1970-01-01] `time T` [00:00:00] `usage P`
//!   [P] `control N` [1] `separators "*:~^"` [`"*:~"`] `breaks`. A date or time that can't be
//!   written so is its number behind `@`.
//! - `version SEGMENT ELEMENT VALUE`.
//! - `segment ID 1=ID/2-2(00,03) 2=AN/-35{1=AN 2=N0/1-}`: elements with kind (`AN`, `ID`, `N0`,
//!   `R2`, `DT`, `TM`), min and max, codes, components.
//! - `loop N TRIGGER` then `in PARENT`, `absent` [or] `envelope`, `rows T`, `inside T`,
//!   `groups T`, `implied`, then `required`, `end ID`, `control OPENER CLOSER COUNT segments`
//!   (or `children`); below it
//!   - `row T ID places`, `repeat T ID places`, `envelope ID places`: a planned segment; `!` behind
//!     the first word says that it is forced. A place is `1=c0` (column), `1=g0` (group column),
//!     `1="HC"` (code), `1-2=c0` (component). `ID` alone makes an occurrence for the segment;
//!   - `occurrences ID ID`: the occurrences, where they aren't one a planned segment. A segment
//!     then names the first with its identifier, or any as `@N`;
//!   - `children N N` [the loops whose parent this is], `order 0 >3 1` [the segments, then the
//!     children], `forced 0 1`, `group-columns 0 1` [of a `groups` loop, those its row segments
//!     of that table plan], `depth N` or `depth -` [with control, the loops above that have
//!     one].
//! - `roots N N` [the loops without parent].
//! - `table N` then `on-segment`, `repeat FROM STEP`, `loops N N` [the `rows` loops of the table;
//!   on a segment, the loops that plan it], `parent T`, `ancestors T T` [the parent's, then the
//!   parent], `columns N` [those in data], `capacity N` [1]; below it
//!   - `: key segment ref0 text int.2 dec.2 date time none`: the columns in data, keys and
//!     references of kind `int` unless they say otherwise (`key:text`, `ref0:none`);
//!   - `| cell cell`: a row; `-` is null;
//!   - `rows N`, where no column gives rows;
//!   - `raw KIND ... validity HEX LENGTH`: a column marked `raw` in the line of columns, list by
//!     list (`offsets` and `data`, or `values`).
//! - `past loop N`, `past table N`: entries of plan, layout or data past the spec's last loop or
//!   table; `lists plan=N order=N forced=N groups=N depth=N capacity=N data=N`: the lengths of
//!   those lists, where they aren't the spec's.

mod parse;
mod print;

pub use parse::parse;
pub use print::print;

use crate::*;

/// Whether bytes can stand without quotes.
fn is_bare(bytes: &[u8]) -> bool {
    bytes.first().is_some_and(u8::is_ascii_alphanumeric) && bytes.iter().all(|&byte| bare_byte(byte))
}

fn bare_byte(byte: u8) -> bool {
    byte.is_ascii_alphanumeric() || b"_./&+'$%-".contains(&byte)
}

/// The order of a loop that doesn't say one: its segments, then its children.
fn default_order(segments: usize, children: &[u32]) -> Vec<Item> {
    let segments = (0..segments as u32).map(Item::Segment);
    segments.chain(children.iter().map(|&child| Item::Loop(child))).collect()
}

/// The loops below a loop, or below none.
fn default_children(loops: &[Loop], parent: Option<u32>) -> Vec<u32> {
    let numbers = 0..loops.len() as u32;
    numbers.filter(|&number| loops[number as usize].parent == parent).collect()
}

/// The columns that tell one group from the next: those the loop's row segments plan.
fn default_group_columns(plan: &LoopPlan) -> Vec<u32> {
    let Instances::Groups(table) = plan.instances else {
        return Vec::new();
    };
    let segments = plan.segments.iter().filter(|segment| segment.source == Source::Row(table));
    segments
        .flat_map(|segment| &segment.elements)
        .filter_map(|element| match element.value {
            Value::Column(column) => Some(column),
            _ => None,
        })
        .collect()
}

/// The depth of a loop with control: how many above it have one.
fn default_depth(loops: &[Loop], number: usize) -> Option<u32> {
    loops.get(number)?.control?;
    let mut depth = 0;
    let mut above = loops[number].parent;
    for _ in 0..loops.len() {
        let Some(def) = above.and_then(|at| loops.get(at as usize)) else {
            break;
        };
        depth += u32::from(def.control.is_some());
        above = def.parent;
    }
    Some(depth)
}

/// The loops of a table: those whose rows it gives; on a segment, those that plan it.
fn default_loops(plan: &[LoopPlan], loops: usize, table: usize, on_segment: bool) -> Vec<u32> {
    let gives = |plan: &LoopPlan| {
        if on_segment {
            plan.segments.iter().any(|segment| segment.source == Source::Repeat(table as u32))
        } else {
            plan.instances == Instances::Rows(table as u32)
        }
    };
    let numbers = 0..loops.min(plan.len()) as u32;
    numbers.filter(|&number| gives(&plan[number as usize])).collect()
}

/// The ancestors of a table: its parent and those above, outermost first.
fn default_ancestors(tables: &[Table], table: usize) -> Vec<u32> {
    let mut chain = Vec::new();
    let mut above = tables[table].parent;
    while let Some(at) = above {
        if chain.len() == tables.len() {
            break;
        }
        chain.push(at);
        above = tables.get(at as usize).and_then(|def| def.parent);
    }
    chain.reverse();
    chain
}
