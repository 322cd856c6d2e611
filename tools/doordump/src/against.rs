//! An image beside a good one.
use doordump::dump::{differing, NAMES};
use listing::{tables_of, Tables};
use model::words::counted;

/// The good image.
pub struct Good {
    pub name: String,
    pub image: Vec<u8>,
    /// None where one of questions 1 to 3 refuses it.
    pub tables: Option<Tables>,
    /// The verdict where it is not accepted, so that it is no good image.
    pub refused: Option<String>,
}

impl Good {
    pub fn new(name: String, image: Vec<u8>, refused: Option<String>) -> Good {
        let tables = tables_of(&image).ok();
        Good { name, image, tables, refused }
    }

    /// What differs, in a line or two.
    pub fn notes(&self, image: &[u8], tables: Option<&Tables>) -> Vec<String> {
        let warning = self.refused.as_ref().map(|refused| format!("{} is itself {refused}", self.name));
        warning.into_iter().chain([self.difference(image, tables)]).collect()
    }

    /// Whether an image differs.
    pub fn in_short(&self, image: &[u8]) -> String {
        let same = self.image == image;
        format!("{} {}", if same { "the same bytes as" } else { "differs from" }, self.name)
    }

    /// How an image differs.
    fn difference(&self, image: &[u8], tables: Option<&Tables>) -> String {
        let short = self.in_short(image);
        let Some(first) = first_difference(image, &self.image) else { return short };
        let rows = tables.zip(self.tables.as_ref()).map(|(tables, good)| differing(tables, good));
        let rows = rows.map_or_else(String::new, |rows| format!(" in {}", rows_in_words(rows)));
        let lengths = match (image.len(), self.image.len()) {
            (here, there) if here == there => String::new(),
            (here, there) => format!("; {}, there {there}", counted(here, "byte")),
        };
        let byte = |bytes: &[u8]| bytes.get(first).map_or("none".to_string(), |byte| format!("{byte:02x}"));
        let bytes = format!("{}, there {}", byte(image), byte(&self.image));
        format!("{short}{rows}; first at byte {first} (hexadecimal {first:x}): {bytes}{lengths}")
    }
}

/// The rows of each table, without the tables that have none.
pub fn rows_in_words(rows: [usize; 6]) -> String {
    let rows = rows.iter().zip(NAMES).filter(|(count, _)| **count > 0);
    let words: Vec<String> = rows.map(|(count, name)| counted(*count, &format!("{name} row"))).collect();
    words.join(", ")
}

/// The first byte that is not the same in both, or that one of them has not.
fn first_difference(image: &[u8], good: &[u8]) -> Option<usize> {
    let shorter = image.len().min(good.len());
    let differing = image.iter().zip(good).position(|(here, there)| here != there);
    differing.or((image.len() != good.len()).then_some(shorter))
}
