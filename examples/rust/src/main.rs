//! A pager's life: it is given a page, passes it on, asks which pages were used, and gives its page up.
//!
//! These are the calls of examples/first-six-records.csv, and what is printed are the lines of its answer.

use l4map::{Access, Counts, Database, Error, Fpage, Item, Limits, Mapping, Page, Rights, Space};

const SIGMA0: Space = Space(0); // which holds all memory at the start
const PAGER: Space = Space(1);
const CLIENT: Space = Space(2);

/// Prints the lines of the calls, by their numbers.
struct Pager {
    database: Database,
    calls: u32,
}

impl Pager {
    /// Maps page 0 of a space, with some of its rights, to a page of another space.
    fn map(&mut self, from: Space, to: Space, page: Page, rights: Rights) -> Result<(), Error> {
        let item = Item::map(Fpage::page(Page(0), rights), page);
        let window = Fpage::complete(Rights::NONE);
        let Counts {
            absent,
            norights,
            origin,
            lost,
            extended,
            linked,
        } = self.database.send(from, to, window, &[item])?;
        self.tell(format_args!(
            "send absent={absent} norights={norights} origin={origin} lost={lost} extended={extended} linked={linked}"
        ));
        Ok(())
    }

    fn access(&mut self, space: Space, address: u32, access: Access) -> Result<(), Error> {
        let made = self.database.access(space, address, access)?;
        self.tell(format_args!("access {}", if made { "ok" } else { "fault" }));
        Ok(())
    }

    /// Takes rights from all who have page 0 through a space.
    fn unmap(&mut self, space: Space, rights: Rights) -> Result<(), Error> {
        let mut fpages = [Fpage::page(Page(0), rights)];
        self.database.unmap(space, &mut fpages)?;
        self.tell(format_args!("unmap {:08x}", fpages[0].word()));
        Ok(())
    }

    /// Takes rights from a space too.
    fn flush(&mut self, space: Space, rights: Rights) -> Result<(), Error> {
        let mut fpages = [Fpage::page(Page(0), rights)];
        self.database.flush(space, &mut fpages)?;
        self.tell(format_args!("unmap {:08x}", fpages[0].word()));
        Ok(())
    }

    fn tell(&mut self, reply: std::fmt::Arguments<'_>) {
        self.calls += 1;
        println!("{} {reply}", self.calls);
    }

    /// Prints who holds what.
    fn audit(&self) -> Result<(), Error> {
        for mapping in self.database.mappings()? {
            let Mapping {
                place,
                frame,
                rights,
                status,
                origin,
            } = mapping;
            let status = status.to_string().to_uppercase();
            let origin = origin.map_or("-".to_string(), |place| place.to_string());
            println!(
                "{},{},{frame},{rights},{status},{origin}",
                place.space.0, place.page
            );
        }
        println!("end {} 0", self.calls);
        Ok(())
    }
}

fn main() -> Result<(), Error> {
    let limits = Limits {
        spaces: 3,
        bits: 18, // so a space has 2^18 bytes
        frames: 2,
    };
    let mut pager = Pager {
        database: Database::new(limits)?,
        calls: 0,
    };
    pager.map(SIGMA0, PAGER, Page(0), Rights::ALL)?; // the pager is given page 0
    pager.map(PAGER, CLIENT, Page(4), Rights::READ | Rights::EXECUTE)?; // its client gets it as page 4, not to write
    pager.access(CLIENT, 0x4abc, Access::Read)?; // the client may read
    pager.access(CLIENT, 0x4abc, Access::Write)?; // and not write: a fault
    pager.unmap(SIGMA0, Rights::EXECUTE)?; // none of them may execute it: the page was read
    pager.flush(PAGER, Rights::ALL)?; // the pager gives it up, and so the client loses it
    pager.audit()
}
