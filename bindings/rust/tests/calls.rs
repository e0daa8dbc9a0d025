//! The small examples of the rules, every refusal, and a cone of a list beside the same cone by itself.
use akmuzrel::{block_numbers, fresh_state, list, nn, numbers, row, soc, Cone, Kind, Mark, Refusal, Scaled, Standing, State};
use Kind::{Nonnegative, SecondOrder};

const CONES: [(Kind, usize); 4] = [(Nonnegative, 3), (SecondOrder, 2), (SecondOrder, 5), (Nonnegative, 0)];

/// Points inside every cone of the row, and a direction.
fn point() -> Vec<f64> {
    vec![1.0, 2.0, 3.0, 5.0, 3.0, 9.0, 1.0, 2.0, 3.0, 4.0]
}

fn direction() -> Vec<f64> {
    vec![-1.0, 1.0, -0.5, -1.0, 2.0, 0.5, -4.0, 1.0, 0.25, 7.0]
}

/// The cone's own range of a buffer with a number for each entry.
fn own(list: &[Cone], k: usize) -> std::ops::Range<usize> {
    list[k].start..list[k].start + list[k].dimension
}

#[test]
fn small_examples() {
    assert_eq!(numbers::sqrt(2.0).to_bits(), 0x3ff6_a09e_667f_3bcd);
    assert_eq!(soc::residual(&[5.0, 3.0]), Ok(16.0));
    assert_eq!(soc::standing(&[-2.0, 0.0]), Ok(Standing::Mirrored));
    assert_eq!(nn::standing(&[1.0, 0.0]), Ok(Standing::Edge));
    assert_eq!(nn::step(&[4.0, 1.0, 9.0], &[-1.0, 2.0, -3.0], 10.0), Ok(3.0));
    assert_eq!(nn::step(&[f64::NAN], &[-1.0], 1.0), Ok(1.0));
    assert_eq!(soc::step(&[5.0, 0.0], &[0.0, 1.0], 10.0), Ok(5.0));
    assert_eq!(soc::step(&[1.0, 0.0], &[-1.0, 1.0], 1.0), Ok(0.5));
    assert_eq!(soc::step(&[1.0, 1.0], &[0.0, -1.0], 1.0), Ok(0.0));
}

#[test]
fn fresh_states() {
    let bits = |x: &[f64]| x.iter().map(|x| x.to_bits()).collect::<Vec<_>>();
    let state = State::fresh(10, 4);
    for zeros in [&state.w, &state.lambda, &state.u, &state.v] {
        assert_eq!(bits(zeros), [0; 10]);
    }
    assert_eq!((bits(&state.eta), state.d, state.marks), (vec![0; 4], vec![1.0; 4], vec![0; 4]));

    // whatever they held, and of lengths that do not agree
    let (mut w, mut lambda, mut u, mut v) = ([f64::NAN; 3], [-0.0; 2], [7.0; 1], []);
    let (mut eta, mut d) = ([f64::INFINITY; 1], [f64::NAN; 2]);
    fresh_state(&mut w, &mut lambda, &mut u, &mut v, &mut eta, &mut d);
    assert_eq!((bits(&w), bits(&lambda), bits(&u), bits(&eta), d), (vec![0; 3], vec![0; 2], vec![0; 1], vec![0; 1], [1.0; 2]));
}

#[test]
fn scaling() {
    let State { mut w, mut lambda, mut u, mut v, mut eta, mut d, .. } = State::fresh(2, 1);
    let (eta, d) = (&mut eta[0], &mut d[0]);
    let told = soc::update_scaling(&[5.0, 3.0], &[5.0, -3.0], &mut w, &mut lambda, &mut u, &mut v, eta, d);
    assert_eq!((told, *eta, &w[..], &lambda[..]), (Ok(true), 1.0, &[1.25, 0.75][..], &[4.0, 0.0][..]));
    // no root scale, first of s, then of the new w: nothing is written
    for s in [[3.0, 3.0], [2.0, 0.0]] {
        let told = soc::update_scaling(&s, &[-2.0, 0.0], &mut w, &mut lambda, &mut u, &mut v, eta, d);
        assert_eq!((told, *eta, &w[..], &lambda[..]), (Ok(false), 1.0, &[1.25, 0.75][..], &[4.0, 0.0][..]));
    }
}

#[test]
fn refusals_of_one_cone() {
    assert_eq!(soc::residual(&[1.0]), Err(Refusal::Dimension));
    assert_eq!(nn::margins(&[1.0; 4097]), Err(Refusal::Dimension));
    let mut y = [7.0; 2];
    assert_eq!(nn::mul_hs(&mut y, &[1.0], &[1.0; 2]), Err(Refusal::Length));
    assert_eq!(y, [7.0; 2]);
    assert_eq!(nn::step(&[1.0], &[1.0], -1.0), Err(Refusal::Limit));
    assert_eq!(nn::step(&[1.0], &[1.0], f64::NAN), Err(Refusal::Limit));
    assert_eq!(nn::step(&[1.0], &[1.0], -0.0), Ok(0.0));
    assert_eq!(soc::square_hs(&[1.0; 5], 1.0), Err(Refusal::NotDense));
    let square = soc::square_hs(&[1.0, 0.0], 2.0).unwrap();
    assert_eq!(square[1], [0.0, 4.0, 0.0, 0.0]);
    assert_eq!(square[2..], [[0.0; 4]; 2]);
}

#[test]
fn refusals_of_a_list() {
    let margins = |list: &[Cone], k, n| list::margins(list, k, &vec![1.0; n]);
    assert_eq!(margins(&row(&[(Nonnegative, 1); 256]), 255, 256), Ok((1.0, 1.0)));
    assert_eq!(margins(&row(&[(Nonnegative, 1); 257]), 0, 257), Err(Refusal::Size));
    assert_eq!(margins(&row(&[(Nonnegative, 4096); 16]), 15, 65536), Ok((1.0, 4096.0)));
    assert_eq!(margins(&row(&[(Nonnegative, 4096); 17]), 0, 69632), Err(Refusal::Size));
    assert_eq!(margins(&row(&[(SecondOrder, 1)]), 0, 1), Err(Refusal::Dimension));
    let mut list = row(&CONES);
    list[2].start += 1;
    assert_eq!(margins(&list, 0, 10), Err(Refusal::Start));
    let list = row(&CONES);
    assert_eq!(margins(&list, 4, 10), Err(Refusal::Cone));
    assert_eq!(margins(&list, 0, 9), Err(Refusal::Length));
    assert_eq!(margins(&list, 0, 11), Err(Refusal::Length));
    let square = |k, marks: &[u8]| list::square_hs(&list, k, &point(), &[1.0; 4], marks).map(|_| ());
    assert_eq!(square(0, &[2; 4]), Err(Refusal::NotDense));
    assert_eq!(square(2, &[2; 4]), Err(Refusal::NotDense));
    assert_eq!(square(1, &[2; 4]), Ok(()));
    // an unfit mark comes behind all others
    assert_eq!(square(4, &[0; 4]), Err(Refusal::Cone));
    assert_eq!(square(2, &[0; 3]), Err(Refusal::NotDense));
    assert_eq!(square(1, &[0; 3]), Err(Refusal::Length));
    assert_eq!(square(1, &[2; 5]), Err(Refusal::Length));
    assert_eq!(square(1, &[2, 0, 2, 2]), Err(Refusal::Mark));
    assert_eq!(square(1, &[2, 3, 2, 2]), Err(Refusal::Mark));
    assert_eq!(square(1, &[0, 1, 0, 0]), Ok(()));
}

/// Whether w can be read of cone k, whether lambda, and whether its offset can be had.
fn open(list: &[Cone], k: usize, state: &State) -> [bool; 3] {
    let State { w, lambda, eta, marks, .. } = state;
    let (mut y, x) = (vec![7.0; 10], point());
    let told = [
        list::mul_hs(list, k, &mut y, &x, w, eta, marks),
        list::affine_ds(list, k, &mut y, lambda, marks),
        list::ds_from_dz_offset(list, k, &mut y, &x, &x, w, lambda, eta, marks),
    ];
    assert!(told.iter().all(|told| matches!(told, Ok(()) | Err(Refusal::Mark))));
    assert!(told.contains(&Ok(())) || y == [7.0; 10]);
    told.map(|told| told.is_ok())
}

#[test]
fn marks_say_what_is_set() {
    let list = row(&CONES);
    let mut state = State::fresh(10, 4);
    let opened = |state: &State| [0, 1, 2].map(|k| open(&list, k, state));
    let (shut, offset) = ([false; 3], [false, false, true]);
    assert_eq!(opened(&state), [offset, shut, shut]);

    // identity scaling does not set lambda
    let State { w, u, v, eta, d, marks, .. } = &mut state;
    for k in [0, 1] {
        list::set_identity_scaling(&list, k, w, u, v, eta, d, marks).unwrap();
    }
    assert_eq!(state.marks, [1, 1, 0, 0]);
    assert_eq!(opened(&state), [[true, false, true], [true, false, false], shut]);

    // a true sets the mark, a false keeps it and all else: s lies outside cone 2
    let (mut s, z) = (point(), point());
    s[5] = 1.0;
    let mut before = state.clone();
    for (k, truth) in [(0, true), (1, true), (2, false)] {
        let State { w, lambda, u, v, eta, d, marks } = &mut state;
        assert_eq!(list::update_scaling(&list, k, &s, &z, w, lambda, u, v, eta, d, marks), Ok(truth));
    }
    assert_eq!(state.marks, [2, 2, 0, 0]);
    assert_eq!(opened(&state), [[true; 3], [true; 3], shut]);
    assert_eq!(scale(&list, &s, &z, &mut before), Ok(Scaled::FalseAt(2)));
    assert_eq!(before, state);

    // any other byte counts as Fresh, and is kept by a false too
    state.marks = vec![3, 255, 4, 0];
    assert_eq!(opened(&state), [offset, shut, shut]);
    assert_eq!(scale(&list, &s, &z, &mut state), Ok(Scaled::FalseAt(2)));
    assert_eq!(state.marks, [2, 2, 4, 0]);
    assert_eq!([0, 1, 2, 3, 255].map(Mark::from), [Mark::Fresh, Mark::Identity, Mark::Scaled, Mark::Fresh, Mark::Fresh]);
}

#[test]
fn a_cone_of_a_list_is_the_cone_by_itself() {
    let list = row(&CONES);
    let (z, dz) = (point(), direction());
    let (w, eta) = (point(), [2.0, 3.0, 0.5, 1.0]);
    for k in 0..list.len() {
        let at = own(&list, k);
        let mut all = vec![7.0; 10];
        list::mul_w(&list, k, &mut all, &z, 2.0, -1.0, &w, &eta, &[2; 4]).unwrap();
        let mut one = vec![7.0; at.len()];
        match list[k].kind {
            Nonnegative => nn::mul_w(&mut one, &z[at.clone()], 2.0, -1.0, &w[at.clone()]),
            SecondOrder => soc::mul_w(&mut one, &z[at.clone()], 2.0, -1.0, &w[at.clone()], eta[k]),
        }
        .unwrap();
        assert_eq!(all[at.clone()], one[..]);
        assert!(all.iter().enumerate().all(|(i, &x)| at.contains(&i) || x == 7.0));

        let step = match list[k].kind {
            Nonnegative => nn::step_length(&dz[at.clone()], &z[at.clone()], &z[at.clone()], &w[at.clone()], 9.0),
            SecondOrder => soc::step_length(&dz[at.clone()], &z[at.clone()], &z[at.clone()], &w[at.clone()], 9.0),
        };
        assert_eq!(list::step_length(&list, k, &dz, &z, &z, &w, 9.0), step);
    }
}

#[test]
fn blocks_lie_one_behind_the_other() {
    let list = row(&CONES);
    let sizes: Vec<usize> = CONES.iter().map(|&(kind, n)| block_numbers(kind, n)).collect();
    assert_eq!(sizes, [3, 3, 5, 0]);
    let mut hs = vec![7.0; 11];
    list::get_hs(&list, 1, &mut hs, &point(), &[2.0; 4], &[0.5; 4], &[1; 4]).unwrap();
    let mut own = [0.0; 3];
    soc::get_hs(&mut own, &point()[3..5], 2.0, 0.5).unwrap();
    assert_eq!(hs[3..6], own);
    assert!(hs[..3].iter().chain(&hs[6..]).all(|&x| x == 7.0));
}

#[test]
fn the_whole_step_is_the_least() {
    let list = row(&CONES);
    let (z, dz) = (point(), direction());
    let each = (0..list.len()).map(|k| list::step_length(&list, k, &dz, &dz, &z, &z, 9.0).unwrap());
    let least = each.fold((9.0, 9.0), |(a, b): (f64, f64), (c, d)| (a.min(c), b.min(d)));
    assert_eq!(list::whole_step_length(&list, &dz, &dz, &z, &z, 9.0), Ok(least));
    assert_eq!(list::whole_step_length(&[], &[], &[], &[], &[], 2.0), Ok((2.0, 2.0)));
    assert_eq!(list::whole_step_length(&list, &dz, &dz, &z, &z[1..], 9.0), Err(Refusal::Length));
}

/// A state whose every number is 7, so that what is not written shows.
fn sevens(entries: usize, cones: usize) -> State {
    let marks = vec![7; cones];
    let (entries, cones) = (vec![7.0; entries], vec![7.0; cones]);
    let [w, lambda, u, v] = [(); 4].map(|()| entries.clone());
    State { w, lambda, u, v, eta: cones.clone(), d: cones, marks }
}

fn scale(list: &[Cone], s: &[f64], z: &[f64], state: &mut State) -> Result<Scaled, Refusal> {
    let State { w, lambda, u, v, eta, d, marks } = state;
    list::whole_update_scaling(list, s, z, w, lambda, u, v, eta, d, marks)
}

/// The calls on the first so many cones, one by one, and the last one's answer.
fn scale_each(list: &[Cone], cones: usize, s: &[f64], z: &[f64], state: &mut State) -> Option<bool> {
    let State { w, lambda, u, v, eta, d, marks } = state;
    (0..cones).map(|k| list::update_scaling(list, k, s, z, w, lambda, u, v, eta, d, marks).unwrap()).last()
}

#[test]
fn the_whole_scaling_is_that_of_each_cone_up_to_a_false() {
    let list = row(&CONES);
    let (mut all, mut each) = (sevens(10, 4), sevens(10, 4));
    assert_eq!(scale(&list, &point(), &point(), &mut all), Ok(Scaled::AllTrue));
    assert_eq!(scale_each(&list, 4, &point(), &point(), &mut each), Some(true));
    assert_eq!((&all, &all.marks[..]), (&each, &[2; 4][..]));
    assert_eq!(scale(&[], &[], &[], &mut sevens(0, 0)), Ok(Scaled::AllTrue));

    // cone 1 has a point on the edge; then one whose new w has no root scale: it is as it was
    for (point_s, point_z) in [([3.0, 3.0], [5.0, 3.0]), ([2.0, 0.0], [-2.0, 0.0])] {
        let (mut s, mut z) = (point(), point());
        s[3..5].copy_from_slice(&point_s);
        z[3..5].copy_from_slice(&point_z);
        let (mut all, mut each) = (sevens(10, 4), sevens(10, 4));
        assert_eq!(scale(&list, &s, &z, &mut all), Ok(Scaled::FalseAt(1)));
        assert_eq!(scale_each(&list, 2, &s, &z, &mut each), Some(false));
        assert_eq!(all, each);
        assert_eq!((&all.w[..3], &all.lambda[..3]), (&[1.0; 3][..], &[1.0, 2.0, 3.0][..]));
        assert_eq!(all.marks, [2, 7, 7, 7]);
        for from_it in [&all.w, &all.lambda, &all.u, &all.v].map(|x| &x[3..]).iter().chain(&[&all.eta[1..], &all.d[1..]]) {
            assert!(from_it.iter().all(|&x| x == 7.0));
        }
    }

    // the first cone: all is as it was
    let list = row(&[(SecondOrder, 2), (Nonnegative, 3), (SecondOrder, 5)]);
    let mut all = sevens(10, 3);
    assert_eq!(scale(&list, &[1.0; 10], &point(), &mut all), Ok(Scaled::FalseAt(0)));
    assert_eq!(all, sevens(10, 3));
}

#[test]
fn refusals_of_the_whole_scaling() {
    let refused_on = |list: &[Cone], n, all: State| {
        let mut after = all.clone();
        let told = scale(list, &vec![1.0; n], &vec![1.0; n], &mut after);
        assert_eq!(after, all);
        told
    };
    let refused = |list: &[Cone], n, cones| refused_on(list, n, sevens(n, cones));
    assert_eq!(refused(&row(&[(SecondOrder, 1)]), 1, 1), Err(Refusal::Dimension));
    assert_eq!(refused(&row(&[(Nonnegative, 1); 257]), 257, 257), Err(Refusal::Size));
    assert_eq!(refused(&row(&[(Nonnegative, 4096); 17]), 69632, 17), Err(Refusal::Size));
    let mut list = row(&CONES);
    list[2].start += 1;
    assert_eq!(refused(&list, 10, 4), Err(Refusal::Start));
    let list = row(&CONES);
    assert_eq!(refused(&list, 9, 4), Err(Refusal::Length));
    assert_eq!(refused(&list, 10, 5), Err(Refusal::Length));
    assert_eq!(refused(&[], 0, 1), Err(Refusal::Length));
    assert_eq!(refused_on(&list, 10, State { marks: vec![7; 5], ..sevens(10, 4) }), Err(Refusal::Length));
}
