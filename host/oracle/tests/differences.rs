//! The smallest inputs of docs/DIFFERENCES.md, run on goko itself, under the headings there.
#![cfg(not(no_goko))]

use oracle::{layer, lend_tables, stats, train, train_with_length, Goko, NodeAddress, Panic, Prior};

const NODE: NodeAddress = (0, 0);
const CHILD: NodeAddress = (-1, 0);

/// The floor that no scale is below.
const NO_FLOOR: i32 = i32::MIN;

fn prior(address: NodeAddress, singleton_count: u32, children: &[(NodeAddress, u32)]) -> Prior {
    Prior { address, singleton_count, children: children.to_vec() }
}

/// A tracker with one prior, tables of zeros up to `last`, and one path.
fn after(prior: Prior, last: usize, path: &[NodeAddress]) -> Goko {
    lend_tables(&vec![0.0; last + 1], &vec![0.0; last + 1]);
    let mut goko = Goko::open(0);
    goko.lend_priors(&[prior], NO_FLOOR);
    goko.add_path(path).unwrap();
    goko
}

#[test]
fn a_missing_child_of_one_node_is_none() {
    let goko = after(prior(NODE, 1, &[]), 9, &[NODE, NODE]);
    assert_eq!(goko.posterior_kl_divergence(NODE), Ok(Some(None)));
    assert_eq!(goko.all_node_kl(), Err(Panic::UnwrapNone));
    assert_eq!(goko.kl_div_stats().unwrap_err(), Panic::UnwrapNone);
}

#[test]
fn a_missing_child_goes_unseen_where_the_table_ends_before_it() {
    let path = [NODE, NODE];
    let goko = after(prior(NODE, 1, &[]), 1, &path);
    assert_eq!(goko.posterior_kl_divergence(NODE), Err(Panic::PastTableEnd));
    assert_eq!(goko.all_node_kl(), Err(Panic::PastTableEnd));
    let goko = after(prior(NODE, 1, &[]), 2, &path);
    assert_eq!(goko.all_node_kl(), Err(Panic::UnwrapNone));
}

#[test]
fn a_missing_child_counts_as_zero_in_a_prior() {
    let bare = after(prior(NODE, 1, &[]), 9, &[NODE]);
    assert_eq!(bare.ln_pdf(NODE, CHILD), Ok(Some(f64::NEG_INFINITY)));
    assert_eq!(bare.ln_pdf(CHILD, CHILD), Ok(None), "a node without a prior");
    let goko = after(prior(NODE, 1, &[(CHILD, 3)]), 9, &[NODE]);
    assert_eq!(goko.ln_pdf(NODE, CHILD), Ok(Some(3.0_f64.ln() - 4.0_f64.ln())));
}

#[test]
fn zeros_below_the_first_knot_and_without_knots() {
    let bits = |told: Result<[f64; 10], Panic>| told.map(|figures| figures.map(f64::to_bits));
    assert_eq!(bits(stats(1, &[2], &[-0.0; 10], 1)), Ok([0; 10]));
    assert_eq!(bits(stats(1, &[], &[], 1)), Ok([0; 10]));
}

#[test]
fn panics_where_document_01_refuses() {
    assert_eq!(Goko::open(0).add_path(&[]), Err(Panic::UnwrapNone), "10: an empty path");
    let sequence = [vec![vec![NODE]]];
    lend_tables(&[0.0; 4], &[0.0; 4]);
    let priors = [prior(NODE, 1, &[])];
    assert!(matches!(train(&priors, NO_FLOOR, &sequence, 0), Err(Panic::Other(_))), "16: rate 0");
    assert!(matches!(train(&priors, NO_FLOOR, &[], 1), Err(Panic::Other(_))), "16: no sequences");
    assert!(
        matches!(stats(1, &[1], &[1.0; 10], 2), Err(Panic::Other(_))),
        "18: one knot and a length past it"
    );
}

#[test]
fn no_limit_where_document_01_has_one() {
    assert_eq!(Goko::open(1_025).sequence_len(), 0, "8");
    let mut goko = Goko::open(0);
    assert_eq!(goko.add_path(&[NODE; 65]), Ok(()), "10: 65 steps");
    assert_eq!(goko.evidence()[0].children, [(NODE, 64.0)]);
    assert_eq!(train(&[], NO_FLOOR, &[vec![]], 0), Ok((vec![], vec![])), "16: rate 0 without paths");
    let many = vec![vec![vec![NODE]; 1_025]];
    assert_eq!(train(&[], NO_FLOOR, &many, 1).map(|(knots, _)| knots.len()), Ok(1_025), "16: knots");
    assert_eq!(
        train(&[], NO_FLOOR, &vec![vec![vec![NODE]]; 65], 1).map(|(knots, _)| knots.len()),
        Ok(1),
        "16: sequences"
    );
    assert!(stats(0, &[1], &[1.0; 10], 1).unwrap()[1].is_nan(), "17: s is 0");
}

#[test]
fn a_sequence_length_of_zero_takes_all_points() {
    lend_tables(&[0.0; 4], &[0.0; 4]);
    let points = [vec![NODE], vec![NODE]];
    let (knots, _) = train_with_length(&[prior(NODE, 1, &[])], NO_FLOOR, &points, (1, 0), 1).unwrap();
    assert_eq!(knots, [1, 2]);
}

#[test]
fn each_sequence_of_a_training_has_its_own_paths() {
    lend_tables(&[0.0, 1.0, 4.0, 9.0, 16.0], &[0.0, 4.0, 8.0, 12.0, 16.0]);
    let priors = [prior(NODE, 1, &[(CHILD, 2)])];
    let (_, values) = train(&priors, NO_FLOOR, &[vec![vec![NODE]], vec![vec![NODE, CHILD]]], 1).unwrap();
    // T = 3, U = 4. The ending alone gives 9 - 1 - 16 + 4 + (12 - 4) = 4, the transition
    // 9 - (1 + 4) - 16 + (1 + 9) + (12 - 8) = 2.
    assert_eq!((values[0], values[1]), (4.0 + 2.0, 16.0 + 4.0));
}

#[test]
fn a_prior_without_singletons_drops_the_endings_term() {
    lend_tables(&[0.0, 4.0, 1.0], &[0.0; 3]);
    let mut goko = Goko::open(0);
    goko.lend_priors(&[prior(NODE, 0, &[(CHILD, 1)])], NO_FLOOR);
    goko.add_path(&[NODE]).unwrap();
    // T = 1, U = 2, and no sum gains a term: G(1) - G(2).
    assert_eq!(goko.posterior_kl_divergence(NODE), Ok(Some(Some(3.0))));
}

#[test]
fn no_divergence_is_minus_zero() {
    let told = |singleton_count: u32, g: &[f64]| {
        lend_tables(g, &vec![0.0; g.len()]);
        let mut goko = Goko::open(0);
        goko.lend_priors(&[prior(NODE, singleton_count, &[(CHILD, 1)])], NO_FLOOR);
        goko.add_path(&[NODE]).unwrap();
        goko.posterior_kl_divergence(NODE).unwrap().unwrap().unwrap().to_bits()
    };
    // G(1) - 0 - G(2) + 0 + 0: without the empty sums it would be minus zero.
    assert_eq!(told(0, &[0.0, -0.0, 0.0]), 0);
    // G(2) - G(1) - G(3) + G(2) - 0: with the last two begun by their first term it would be, too.
    assert_eq!(told(1, &[0.0, 0.0, -0.0, 0.0]), 0);
}

#[test]
fn prior_children_outside_the_evidence_enter_no_sum() {
    lend_tables(&[0.0, 0.1, 0.2, 0.7], &[0.0; 4]);
    let mut goko = Goko::open(0);
    goko.lend_priors(&[prior(NODE, 1, &[(CHILD, 1)])], NO_FLOOR);
    goko.add_path(&[NODE]).unwrap();
    let result = goko.posterior_kl_divergence(NODE).unwrap().unwrap().unwrap();
    assert_eq!(result.to_bits(), 0, "below 0 it becomes 0");
    let (g1, g2, g3): (f64, f64, f64) = (-0.7, 0.1, -0.3);
    lend_tables(&[0.0, g1, g2, g3], &[0.0; 4]);
    let result = goko.posterior_kl_divergence(NODE).unwrap().unwrap().unwrap();
    let textbook = ((g2 - (g1 + g1)) - g3) + (g2 + g1);
    assert_eq!(result, ((g2 - g1) - g3) + g2);
    assert_ne!(result, textbook, "the terms that cancel leave a rounding of their own");
}

#[test]
fn an_empty_record_makes_squares_infinite() {
    lend_tables(&[0.0; 4], &[0.0; 4]);
    let (_, values) = train(&[prior(NODE, 1, &[])], NO_FLOOR, &[vec![vec![NODE]]], 1).unwrap();
    assert_eq!(values[..4], [f64::MIN, f64::INFINITY, f64::MAX, f64::INFINITY]);
    assert!(values[4..].iter().all(|value| value.to_bits() == 0));
}

#[test]
fn skipped_nodes_are_counted_by_the_printed_lines() {
    let goko = after(prior(NODE, 1, &[(CHILD, 1)]), 4, &[NODE, CHILD]);
    let (list, skipped) = goko.all_node_kl().unwrap();
    assert_eq!((list.len(), skipped), (1, 1));
    let (stats, skipped) = goko.kl_div_stats().unwrap();
    assert_eq!((stats.sequence_len, skipped), (1, 1));
}

#[test]
fn scales_below_the_floor_share_a_layer() {
    let layers = [i32::MIN, -2, -1, 0, 1].map(|scale| layer(0, scale));
    assert_eq!(layers, [0, 0, 0, 1, 2]);
}

#[test]
fn below_the_floor_the_point_alone_finds_the_prior() {
    lend_tables(&[0.0, 1.0, 4.0, 9.0, 16.0], &[0.0, 4.0, 8.0, 12.0, 16.0]);
    let (record, low, high): (NodeAddress, NodeAddress, NodeAddress) = ((-3, 7), (-2, 7), (-1, 7));
    let mut goko = Goko::open(0);
    let priors = [prior(record, 1, &[(high, 1)])];
    goko.lend_priors(&priors, 0);
    goko.add_path(&[low, high]).unwrap();
    // T = 2, U = 3. The transition alone gives 4 - (1 + 1) - 9 + (1 + 4) + (8 - 4), the ending
    // 4 - 1 - 9 + 4 + (8 - 4).
    assert_eq!(goko.all_node_kl(), Ok((vec![(2.0, low), (2.0, high)], 0)), "two nodes with one prior");
    assert_eq!(goko.ln_pdf(low, high), Ok(Some(1.0_f64.ln() - 2.0_f64.ln())));
    assert_eq!(goko.ln_pdf(low, low), Ok(Some(f64::NEG_INFINITY)), "a child by its exact address");
    goko.lend_priors(&priors, -2);
    assert_eq!(goko.all_node_kl(), Ok((vec![], 2)), "the floor's own scale is not below it");
}

#[test]
fn a_layers_index_past_32_bits_wraps() {
    // 2,147,483,647 - 0 + 1 wraps to -2,147,483,648: no tree has a layer of that index.
    assert_eq!(layer(0, i32::MAX), i32::MIN as usize);
    assert_eq!(layer(1, i32::MAX), i32::MAX as usize);
    // From the least floor on, the greatest scale comes back to the layer below the floor.
    assert_eq!(layer(i32::MIN, i32::MAX), 0);
}
