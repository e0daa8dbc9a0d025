//! How a call crosses to the library, said once. `calls!` takes a line a call: its name here, the export, its
//! parameters, each with a word for how it is lent, and the shape of its answer.
//!
//! A slice crosses as a pointer and its length; Rust's borrows give what the library asks of its caller: no
//! pointer is null, each has its length behind it, and what is written overlaps nothing else.

macro_rules! calls {
    ($($(#[$doc:meta])* $name:ident: $export:ident($($mode:ident $param:ident),*) -> $answer:ident;)*) => {
        $(call! { [$(#[$doc])*] $name $export $answer [] [] [] $($mode $param,)* })*
    };
}

/// Parameter by parameter: the export's own, the safe function's, and what is handed over. Then the function.
macro_rules! call {
    ($doc:tt $n:ident $e:ident $a:ident [$($x:tt)*] [$($s:tt)*] [$($h:tt)*] reads $p:ident, $($rest:tt)*) => {
        call! { $doc $n $e $a [$($x)* _: *const f64, _: usize,] [$($s)* $p: &[f64],] [$($h)* $p.as_ptr(), $p.len(),] $($rest)* }
    };
    ($doc:tt $n:ident $e:ident $a:ident [$($x:tt)*] [$($s:tt)*] [$($h:tt)*] writes $p:ident, $($rest:tt)*) => {
        call! { $doc $n $e $a [$($x)* _: *mut f64, _: usize,] [$($s)* $p: &mut [f64],] [$($h)* $p.as_mut_ptr(), $p.len(),] $($rest)* }
    };
    ($doc:tt $n:ident $e:ident $a:ident [$($x:tt)*] [$($s:tt)*] [$($h:tt)*] heeds $p:ident, $($rest:tt)*) => {
        call! { $doc $n $e $a [$($x)* _: *const u8, _: usize,] [$($s)* $p: &[u8],] [$($h)* $p.as_ptr(), $p.len(),] $($rest)* }
    };
    ($doc:tt $n:ident $e:ident $a:ident [$($x:tt)*] [$($s:tt)*] [$($h:tt)*] sets $p:ident, $($rest:tt)*) => {
        call! { $doc $n $e $a [$($x)* _: *mut u8, _: usize,] [$($s)* $p: &mut [u8],] [$($h)* $p.as_mut_ptr(), $p.len(),] $($rest)* }
    };
    ($doc:tt $n:ident $e:ident $a:ident [$($x:tt)*] [$($s:tt)*] [$($h:tt)*] number $p:ident, $($rest:tt)*) => {
        call! { $doc $n $e $a [$($x)* _: f64,] [$($s)* $p: f64,] [$($h)* $p,] $($rest)* }
    };
    ($doc:tt $n:ident $e:ident $a:ident [$($x:tt)*] [$($s:tt)*] [$($h:tt)*] lent $p:ident, $($rest:tt)*) => {
        call! { $doc $n $e $a [$($x)* _: &f64,] [$($s)* $p: f64,] [$($h)* &$p,] $($rest)* }
    };
    ($doc:tt $n:ident $e:ident $a:ident [$($x:tt)*] [$($s:tt)*] [$($h:tt)*] stores $p:ident, $($rest:tt)*) => {
        call! { $doc $n $e $a [$($x)* _: &mut f64,] [$($s)* $p: &mut f64,] [$($h)* $p,] $($rest)* }
    };
    ($doc:tt $n:ident $e:ident $a:ident [$($x:tt)*] [$($s:tt)*] [$($h:tt)*] row $p:ident, $($rest:tt)*) => {
        call! { $doc $n $e $a [$($x)* _: *const crate::Cone, _: usize,] [$($s)* $p: &[crate::Cone],] [$($h)* $p.as_ptr(), $p.len(),] $($rest)* }
    };
    ($doc:tt $n:ident $e:ident $a:ident [$($x:tt)*] [$($s:tt)*] [$($h:tt)*] index $p:ident, $($rest:tt)*) => {
        call! { $doc $n $e $a [$($x)* _: usize,] [$($s)* $p: usize,] [$($h)* $p,] $($rest)* }
    };
    ([$($doc:tt)*] $n:ident $e:ident done [$($x:tt)*] [$($s:tt)*] [$($h:tt)*]) => {
        $($doc)*
        #[allow(clippy::too_many_arguments)]
        pub fn $n($($s)*) -> Result<(), crate::Refusal> {
            extern "C" {
                fn $e($($x)*) -> u8;
            }
            crate::Refusal::of(unsafe { $e($($h)*) })
        }
    };
    ([$($doc:tt)*] $n:ident $e:ident nothing [$($x:tt)*] [$($s:tt)*] [$($h:tt)*]) => {
        $($doc)*
        pub fn $n($($s)*) {
            extern "C" {
                fn $e($($x)*);
            }
            unsafe { $e($($h)*) }
        }
    };
    ([$($doc:tt)*] $n:ident $e:ident number [$($x:tt)*] [$($s:tt)*] [$($h:tt)*]) => {
        $($doc)*
        pub fn $n($($s)*) -> Result<f64, crate::Refusal> {
            extern "C" {
                fn $e($($x)* _: &mut f64) -> u8;
            }
            let mut value = 0.0;
            crate::Refusal::of(unsafe { $e($($h)* &mut value) }).map(|()| value)
        }
    };
    ([$($doc:tt)*] $n:ident $e:ident pair [$($x:tt)*] [$($s:tt)*] [$($h:tt)*]) => {
        $($doc)*
        #[allow(clippy::too_many_arguments)]
        pub fn $n($($s)*) -> Result<(f64, f64), crate::Refusal> {
            extern "C" {
                fn $e($($x)* _: &mut f64, _: &mut f64) -> u8;
            }
            let (mut first, mut second) = (0.0, 0.0);
            crate::Refusal::of(unsafe { $e($($h)* &mut first, &mut second) }).map(|()| (first, second))
        }
    };
    ([$($doc:tt)*] $n:ident $e:ident truth [$($x:tt)*] [$($s:tt)*] [$($h:tt)*]) => {
        $($doc)*
        #[allow(clippy::too_many_arguments)]
        pub fn $n($($s)*) -> Result<bool, crate::Refusal> {
            extern "C" {
                fn $e($($x)* _: &mut u8) -> u8;
            }
            let mut truth = 0;
            crate::Refusal::of(unsafe { $e($($h)* &mut truth) }).map(|()| truth == 1)
        }
    };
    ([$($doc:tt)*] $n:ident $e:ident scalings [$($x:tt)*] [$($s:tt)*] [$($h:tt)*]) => {
        $($doc)*
        #[allow(clippy::too_many_arguments)]
        pub fn $n($($s)*) -> Result<crate::Scaled, crate::Refusal> {
            extern "C" {
                fn $e($($x)* _: &mut u8, _: &mut usize) -> u8;
            }
            let (mut truth, mut cone) = (0, 0);
            crate::Refusal::of(unsafe { $e($($h)* &mut truth, &mut cone) }).map(|()| crate::Scaled::of(truth, cone))
        }
    };
    ([$($doc:tt)*] $n:ident $e:ident standing [$($x:tt)*] [$($s:tt)*] [$($h:tt)*]) => {
        $($doc)*
        pub fn $n($($s)*) -> Result<crate::Standing, crate::Refusal> {
            extern "C" {
                fn $e($($x)* _: &mut u8) -> u8;
            }
            let mut stands = 0;
            crate::Refusal::of(unsafe { $e($($h)* &mut stands) }).map(|()| crate::Standing::of(stands))
        }
    };
    ([$($doc:tt)*] $n:ident $e:ident square [$($x:tt)*] [$($s:tt)*] [$($h:tt)*]) => {
        $($doc)*
        pub fn $n($($s)*) -> Result<crate::Square, crate::Refusal> {
            extern "C" {
                fn $e(_: &mut crate::SquareAnswer, $($x)*);
            }
            let mut square = crate::SquareAnswer { number: 0, rows: [[0.0; 4]; 4] };
            unsafe { $e(&mut square, $($h)*) };
            crate::Refusal::of(square.number).map(|()| square.rows)
        }
    };
}
