// A stand-in for the crate itertools: `izip!`, of which the cones' files take three and four.
#[macro_export]
macro_rules! izip {
    ($a:expr, $b:expr, $c:expr) => {
        std::iter::zip($a, std::iter::zip($b, $c)).map(|(a, (b, c))| (a, b, c))
    };
    ($a:expr, $b:expr, $c:expr, $d:expr) => {
        std::iter::zip($a, std::iter::zip($b, std::iter::zip($c, $d)))
            .map(|(a, (b, (c, d)))| (a, b, c, d))
    };
}
