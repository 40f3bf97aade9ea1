//! The lists of shipped models, by their words and a digest. In these models no update
//! reads a counter that is set earlier in its list and no clock is copied: the lists
//! depend neither on the order of updates nor on copies. Nor do they depend on labels,
//! which some of the models have.

use std::path::Path;

use reference::list::{digest, totals};
use reference::model::Model;
use reference::subject::{shipped, Subject};

/// Model, bound, words of the list and their digest.
const LISTS: [(&str, usize, u32, u64); 28] = [
    ("a", 0, 10, 0xd907_b123_c313_959c),
    ("a", 1, 51, 0x2177_2d63_53a1_35f7),
    ("a", 8, 338, 0xb3c0_1cfd_db64_d4c4),
    ("a", 64, 2634, 0xd593_235d_192f_e9a8),
    ("boot_logger_kicked", 0, 465, 0x29ff_b67f_b4e4_1929),
    ("boot_logger_kicked", 1, 3540, 0x813a_61c9_3782_e30c),
    ("boot_logger_kicked", 8, 25_065, 0x472f_8f22_1209_1329),
    ("boot_logger_kicked", 64, 197_265, 0x5cdf_1623_eab6_389a),
    ("boot_logger_lossy", 0, 465, 0x29ff_b67f_b4e4_1929),
    ("boot_logger_lossy", 1, 3577, 0x666b_d743_38c3_6d80),
    ("boot_logger_lossy", 8, 25_361, 0xc4e4_70a7_e296_9dca),
    ("boot_logger_lossy", 9, 28_473, 0x862d_a098_438f_ec3f),
    ("boot_logger_lossy", 64, 199_633, 0x04cd_8b66_bfc4_4144),
    ("light", 0, 55, 0xe6e3_2a6d_1a56_f123),
    ("light", 1, 484, 0x331f_03c1_f1bc_4779),
    ("light", 2, 913, 0x0d51_b1da_17b4_ef93),
    ("light", 8, 3487, 0xccf0_73ad_4386_f723),
    ("light", 64, 27_511, 0xae90_cfed_840f_61d2),
    ("logger_b", 0, 76, 0x053d_dd34_aba7_6d28),
    ("logger_b", 1, 556, 0x5a61_c108_c2df_6abf),
    ("logger_b", 3, 1516, 0xd19c_3d55_17f3_485c),
    ("logger_b", 8, 3916, 0xe517_376e_c1e7_4268),
    ("logger_b", 64, 30_796, 0xec87_f0bf_ac12_badc),
    ("retry", 0, 194, 0xc658_6273_4d55_5b73),
    ("retry", 1, 1854, 0x7417_0abf_9d90_a93e),
    ("retry", 8, 13_474, 0x4a32_1a59_2f10_c9cf),
    ("retry", 11, 18_454, 0x9a0c_b03c_a363_88ec),
    ("retry", 64, 106_434, 0xf8f4_72e4_0008_7eef),
];

fn models() -> Vec<Subject> {
    shipped(Path::new(concat!(env!("CARGO_MANIFEST_DIR"), "/../models"))).unwrap()
}

fn reads_a_counter_set_earlier(model: &Model) -> bool {
    model.used_edges().iter().any(|edge| edge.later_readers().next().is_some())
}

fn copies_a_clock(model: &Model) -> bool {
    model.used_edges().iter().any(|edge| edge.copies().next().is_some())
}

/// The names of the shipped models with a property.
fn with(property: fn(&Model) -> bool) -> Vec<String> {
    models().into_iter().filter(|subject| property(&subject.model)).map(|subject| subject.name).collect()
}

#[test]
fn lists_are_the_stored_ones() {
    let models = models();
    for (name, bound, words, stored) in LISTS {
        let model = &models.iter().find(|subject| subject.name == format!("{name}.txt")).unwrap().model;
        assert!(!reads_a_counter_set_earlier(model) && !copies_a_clock(model), "{name}");
        assert_eq!(totals(model, bound).unwrap().words, words, "{name} at {bound}");
        assert_eq!(digest(model, bound), Ok(stored), "{name} at {bound}");
    }
}

#[test]
fn one_model_alone_reads_a_counter_set_earlier() {
    assert_eq!(with(reads_a_counter_set_earlier), ["boot_logger_checkpoint.txt"]);
}

#[test]
fn four_models_have_labels() {
    let labelled = with(|model| model.used_edges().iter().any(|edge| edge.label != 0));
    assert_eq!(labelled, ["boot_logger_kicked.txt", "logger.txt", "watchdog.txt", "watchdog_patient.txt"]);
    assert!(LISTS.iter().any(|(name, ..)| format!("{name}.txt") == labelled[0]));
}

#[test]
fn one_model_alone_copies_a_clock() {
    assert_eq!(with(copies_a_clock), ["retry_saved.txt"]);
}
