#!/usr/bin/env bash
# Builds the proved pixel code as a static library, links compare.c against it and runs it: compare.sh [speed].
# Everything is written to a temporary folder. The crate that exports the functions to C is written here too.
set -eu
here=$(cd "$(dirname "$0")" && pwd)
root=$(cd "$here/../.." && pwd)
work=$(mktemp -d)
trap 'rm -rf "$work"' EXIT
mkdir -p "$work/crates/pixel_export/src"
# what pixel_run needs, by crates.txt, each crate behind those that it needs
needed=
need() {
    for crate in $(sed -n "s/^$1://p" "$root/crates.txt"); do need "$crate"; done
    case " $needed " in *" $1 "*) ;; *) needed="$needed $1" ;; esac
}
need pixel_run
for crate in $needed; do
    mkdir "$work/crates/$crate"
    for part in src specs proofs; do
        [ ! -d "$root/crates/$crate/$part" ] || cp -R "$root/crates/$crate/$part" "$work/crates/$crate/"
    done
    grep "^$crate:" "$root/crates.txt" >>"$work/crates.txt"
done
echo 'pixel_export staticlib: pixel_run' >>"$work/crates.txt"
cat >"$work/crates/pixel_export/src/lib.rt" <<'END'
#![tactic(auto)]

// What a C program calls to compare.
use pixel_run::Prepared;

// The rows that are handed over beside a prepared node which is no Matrix.
fn no_rows() -> [[f64; 4]; 3] {
    [
        [0.0, 0.0, 0.0, 0.0],
        [0.0, 0.0, 0.0, 0.0],
        [0.0, 0.0, 0.0, 0.0],
    ]
}

#[unsafe(no_mangle)]
pub extern "C" fn rt_range(
    pixels: &mut [f64],
    min_in: f64,
    max_in: f64,
    min_out: f64,
    max_out: f64,
    clamp: bool,
) {
    let step = Prepared::Range {
        min_in,
        max_in,
        min_out,
        max_out,
        clamp,
    };
    let c = [0i64; 1];
    let p = [0i8; 1];
    pixel_run::run_node(pixels, step, no_rows(), 1023.0, 1023.0, &c, &p);
}

// Nothing happens where m has not the twelve numbers.
#[unsafe(no_mangle)]
pub extern "C" fn rt_matrix(pixels: &mut [f64], m: &[f64], wide: bool) {
    if m.len() < 12 {
        return;
    }
    let rows = [
        [m[0], m[1], m[2], m[3]],
        [m[4], m[5], m[6], m[7]],
        [m[8], m[9], m[10], m[11]],
    ];
    let c = [0i64; 1];
    let p = [0i8; 1];
    pixel_run::run_node(
        pixels,
        Prepared::Matrix { at: 0, wide },
        rows,
        1023.0,
        1023.0,
        &c,
        &p,
    );
}

// Nothing happens where m has not the ten numbers.
#[unsafe(no_mangle)]
pub extern "C" fn rt_cdl(
    pixels: &mut [f64],
    m: &[f64],
    clamp: bool,
    in_scale: f64,
    out_scale: f64,
) {
    if m.len() < 10 {
        return;
    }
    let step = Prepared::Cdl {
        slope_r: m[0],
        slope_g: m[1],
        slope_b: m[2],
        offset_r: m[3],
        offset_g: m[4],
        offset_b: m[5],
        power_r: m[6],
        power_g: m[7],
        power_b: m[8],
        saturation: m[9],
        clamp,
    };
    let c = [0i64; 1];
    let p = [0i8; 1];
    pixel_run::run_node(pixels, step, no_rows(), in_scale, out_scale, &c, &p);
}

#[unsafe(no_mangle)]
pub extern "C" fn rt_lut1d(
    pixels: &mut [f64],
    coefficients: &[i64],
    powers: &[i8],
    at: usize,
    entries: usize,
    columns: usize,
    in_scale: f64,
) {
    let step = Prepared::Lut1d {
        at,
        entries,
        columns,
    };
    pixel_run::run_node(pixels, step, no_rows(), in_scale, 1.0, coefficients, powers);
}

#[unsafe(no_mangle)]
pub extern "C" fn rt_first_not_finite(pixels: &[f64]) -> usize {
    pixel_run::first_not_finite(pixels)
}
END
(cd "$work/crates/pixel_export" && rt lib >"$work/log" 2>&1) || { tail -n 20 "$work/log"; exit 1; }
cc -O2 -ffp-contract=off -Wall "$here/compare.c" "$work/crates/pixel_export/out/libpixel_export.a" -lm -o "$work/compare"
"$work/compare" "$@"
