// A stand-in for the crate clarabel 0.11.1 around three of its files, which are taken as they are:
// socone.rs, nonnegativecone.rs and symmetric_common.rs, from the folder that CLARABEL_SRC names.
//
// What those files lean on is not at hand. Here it is by document 01's rules ("Numbers"); the
// traits have the shape that the files themselves ask for. So a comparison with this crate speaks
// for the three files and not for the vector helpers.
#![allow(confusable_idents, mixed_script_confusables, non_snake_case, uncommon_codepoints)]

pub mod algebra;
pub mod cones;
