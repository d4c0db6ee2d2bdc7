//! priors.bin: tables and priors with the number that refuses them, and look-ups of nodes and
//! children in priors that are taken.

use crate::limits::{within, TABLE_ENTRIES};
use crate::words::{Case, Reader};
use cases::calls::Tables;
use cases::lookups::PriorsCase;
use cases::sample;
use recount::{check_priors, check_tables, Address, ChildLookup, Priors};

const TABLES: u32 = 1;
const PRIORS: u32 = 2;

pub fn record() -> Vec<Case> {
    let tables = sample::table_cases().into_iter().map(|tables| table_case(&tables));
    tables.chain(sample::priors_cases().into_iter().map(|case| priors_case(&case))).collect()
}

fn table_case(tables: &Tables) -> Case {
    let mut case = Case::default();
    case.word(TABLES);
    case.figures(&tables.g);
    case.figures(&tables.d);
    table_answer(&mut case, tables);
    case
}

fn table_answer(case: &mut Case, tables: &Tables) {
    case.word(check_tables(tables.lent()).err().map_or(0, |refusal| refusal.number));
}

fn priors_case(recorded: &PriorsCase) -> Case {
    let mut case = Case::default();
    case.word(PRIORS);
    case.priors(&recorded.priors);
    let checked = check_priors(recorded.priors.lent());
    case.word(checked.as_ref().err().map_or(0, |refusal| refusal.number));
    let asked = if checked.is_ok() { &recorded.asked[..] } else { &[] };
    case.word(asked.len() as u32);
    if let Ok(priors) = checked {
        for (node, child) in asked {
            case.address(*node);
            case.address(*child);
            looked_up(&mut case, &priors, *node, *child);
        }
    }
    case
}

/// Whether the node is there, its singleton count and number of children; whether the child
/// is there under it, its count, and how many child records its look-up reads.
fn looked_up(case: &mut Case, priors: &Priors, node: Address, child: Address) {
    let prior = priors.node(node);
    case.word(u32::from(prior.is_some()));
    case.word(prior.map_or(0, |prior| prior.singleton));
    case.word(prior.map_or(0, |prior| prior.children.len() as u32));
    let ChildLookup { count, read } = priors.child(node, child);
    case.word(u32::from(count.is_some()));
    case.word(count.unwrap_or(0));
    case.word(read);
}

pub fn replay(reader: &mut Reader) -> Result<(), String> {
    let mut now = Case::default();
    match reader.word()? {
        TABLES => {
            let tables = Tables { g: reader.figures()?, d: reader.figures()? };
            within("table", tables.g.len().max(tables.d.len()), TABLE_ENTRIES)?;
            table_answer(&mut now, &tables);
            reader.expect(&now.0)
        }
        PRIORS => replay_priors(reader),
        kind => Err(format!("kind {} is not known", kind)),
    }
}

fn replay_priors(reader: &mut Reader) -> Result<(), String> {
    let lent = reader.priors()?;
    let checked = check_priors(lent.lent());
    reader.expect(&[checked.as_ref().err().map_or(0, |refusal| refusal.number)])?;
    for _ in 0..reader.word()? {
        let (node, child) = (reader.address()?, reader.address()?);
        let priors = checked.as_ref().map_err(|_| "a look-up in refused priors")?;
        let mut now = Case::default();
        looked_up(&mut now, priors, node, child);
        reader.expect(&now.0)?;
    }
    Ok(())
}
