//! Every theorem, definition, function, file and must-fail edit that these
//! documents name is there, so that a rename cannot leave a dead name.

use names::documents::check;
use names::repository::Repository;
use names::rules::Rules;
use std::path::Path;

fn repository() -> Repository {
    Repository::open(&Path::new(env!("CARGO_MANIFEST_DIR")).join("../.."))
}

fn demand(document: &str, least: usize) {
    let repository = repository();
    let (count, wrong) = check(&repository, &repository.read(document));
    assert!(wrong.is_empty(), "{document}:\n{}", wrong.join("\n"));
    assert!(count >= least, "{count} names in {document}");
}

#[test]
fn the_proofs() {
    demand("docs/PROOFS.md", 500);
}

#[test]
fn the_architecture() {
    demand("docs/ARCHITECTURE.md", 150);
}

#[test]
fn the_rules() {
    demand("docs/RULES.md", 800);
}

#[test]
fn the_glossary() {
    demand("docs/GLOSSARY.md", 120);
}

#[test]
fn how_to_contribute() {
    demand("CONTRIBUTING.md", 350);
}

#[test]
fn the_decisions() {
    demand("docs/DECISIONS.md", 200);
}

/// Every citation of a rule, in comments too, is of one that is there.
#[test]
fn cited_rules() {
    let repository = repository();
    let rules = Rules::of(&repository.read("docs/RULES.md"));
    let mut all = 0;
    for (path, text) in repository.texts() {
        let (count, wrong) = rules.check(&text);
        assert!(wrong.is_empty(), "{}: {wrong:?}", path.display());
        all += count;
    }
    assert!(all >= 90, "{all} citations");
    assert_eq!(
        rules
            .check("(RULES, Rounds 4; RULES, Keys 1 and 2)")
            .1
            .len(),
        0
    );
    assert_eq!(rules.check("(RULES, Elections, Rounds 99)").1.len(), 1);
    assert_eq!(rules.check("(RULES, Circles 1)").1.len(), 1);
}

/// A dead name of each kind is noticed, and so is one in another file than the
/// row says; what is there is found.
#[test]
fn dead_names() {
    let found = [
        "`parse`",
        "`Leader.begin_call`",
        "`machine::entry::step`",
        "`model/specs/Run.antt`",
        "`Theorem.antt`",
        "`model/must-fail/half_majority`",
        "`.._up_to`",
        "`.._means`",
        "`max_..`",
        "`closes`, `fails` in `model/specs/Leader.antt`",
        "| claim | theorem | file |\n|---|---|---|\n| a | `reads_back` | `table/proofs/Reading.antt` |\n| b | `one_form` | same |",
        "| claim | theorem | file in `quiet/proofs` |\n|---|---|---|\n| a | `least` | `Least.antt` |",
        "| wrong | must-fail edit in `quiet` |\n|---|---|\n| a | `seven_for_eight` |",
    ];
    let dead = [
        "`parsed_anyhow`",
        "`Leader.begins_call`",
        "`machine::entry::stepped`",
        "`model/specs/Runs.antt`",
        "`Theorems.antt`",
        "`model/must-fail/half_a_majority`",
        "`.._down_to`",
        "`.._meant_anyhow`",
        "`least_of..`",
        "`closes`, `majority` in `model/specs/Leader.antt`",
        "| claim | theorem | file |\n|---|---|---|\n| a | `reads_back` | `table/proofs/Offsets.antt` |",
        "| claim | theorem | file |\n|---|---|---|\n| a | `least` | `quiet/proofs/Theorem.antt` |\n| b | `quiet_call` | same |",
        "| wrong | must-fail edit in `quiet` |\n|---|---|\n| a | `six_for_eight` |",
    ];
    let repository = repository();
    for text in found {
        assert_eq!(check(&repository, text).1, Vec::<String>::new(), "{text}");
    }
    for text in dead {
        assert_eq!(check(&repository, text).1.len(), 1, "{text}");
    }
}
