//! The names that a listing gives the rows of an image.
use crate::against::rows_in_words;
use doordump::dump::{differing, Mark};
use listing::{read_listing, Listing, Names, Tables};

/// A listing whose names are to be shown.
pub struct Source {
    name: String,
    listing: Listing,
}

impl Source {
    /// The listing in a file's bytes, or its mistakes.
    pub fn new(name: String, text: &[u8]) -> Result<Source, String> {
        let listing = read_listing(text).map_err(|wrong| {
            let lines: Vec<String> = wrong.iter().map(|wrong| format!("{name}:{wrong}")).collect();
            lines.join("\n")
        })?;
        Ok(Source { name, listing })
    }

    /// The names for these tables, and what is said of them. A wrong name is worse than none, so that the listing has
    /// to give these tables, or those of the good image of which this is a damaged copy: then only rows that are the
    /// same have names.
    pub fn names(&self, tables: &Tables, good: Option<&Tables>) -> (Names, String) {
        let rows = differing(tables, &self.listing.tables);
        match rows.iter().sum::<usize>() {
            0 => (self.listing.names.clone(), format!("names from {}", self.name)),
            _ if good == Some(&self.listing.tables) => {
                (self.names_of_same(tables), format!("names from {}, but for {}", self.name, rows_in_words(rows)))
            }
            _ => (
                Names::default(),
                format!("no names: {} gives another image, which differs in {}", self.name, rows_in_words(rows)),
            ),
        }
    }

    /// The names of the rows that are the listing's.
    fn names_of_same(&self, tables: &Tables) -> Names {
        let mut names = Names::default();
        for (table, rows) in self.listing.tables.iter().enumerate() {
            for (row, there) in rows.iter().enumerate() {
                let name = self.listing.names.of(table, row);
                if let Some(name) = name.filter(|_| Mark { table, row }.row_in(tables) == Some(*there)) {
                    names.give(table, row, name);
                }
            }
        }
        names
    }
}
