#!/usr/bin/env bash
# Makes files like those of bench/samples, of which the benchmark's inputs are made, in a folder: samples.sh OUT. Needs clang-22 and
# llvm-22 (packages of Debian) and rustc. Those of bench/samples were made by Clang 22.1, llvm-remarkutil 22.1 and rustc 1.95.
#   c.bc       C with debug information         cxx.bc      C++ with debug information, optimized
#   rust.bc    Rust with debug information      small.bc    many small functions without debug information
#   remarks.bc optimization remarks             header.pch  a precompiled header
#   hello.bc   a small module, as README's hello.c gives it
set -eu
here=$(cd "$(dirname "$0")" && pwd)
mkdir -p "$1" && cd "$1"
python3 "$here/make_module.py" 36 >module.c
python3 - 60 >small.c <<'PY'
import sys
print("typedef float f4 __attribute__((vector_size(16))); typedef int i4 __attribute__((vector_size(16)));")
for i in range(int(sys.argv[1])):
    t = ["float", "double", "int", "long", "f4", "i4"][i % 6]
    print(f"{t} pick{i}({t} a, {t} b) {{ return a * b + a{'' if i % 3 else ' - b'}; }}")
    print(f"{t} last{i}({t} *p, int n) {{ {t} s = p[0]; for (int k = 1; k < n; k++) s += pick{i}(p[k], s); return s; }}")
PY
python3 - 16 >loops.c <<'PY'
import sys
print("#include <math.h>")
for i in range(int(sys.argv[1])):
    print(f"static double g{i}(const double *a, int n) {{ double s = 0; for (int k = 0; k < n; k++) s += a[k] * {i}.5; return s; }}")
    print(f"double f{i}(double *a, const double *b, int n) {{ for (int k = 1; k < n; k++) a[k] = a[k - 1] * b[k] + sin(b[k]); return g{i}(a, n) + g{i}(b, n); }}")
PY
cat >shapes.cc <<'CC'
// Shapes by name, sorted by area.
#include <algorithm>
#include <string>
#include <vector>
struct Shape { virtual ~Shape() = default; virtual double area() const = 0; std::string name; };
struct Square : Shape { double side; double area() const override { return side * side; } };
struct Circle : Shape { double radius; double area() const override { return 3.141592653589793 * radius * radius; } };
std::vector<double> areas(const std::vector<Shape *> &all) {
  std::vector<double> found;
  for (auto it : all) found.push_back(it->area());
  std::sort(found.begin(), found.end(), [](double a, double b) { return a > b; });
  return found;
}
CC
cat >crate.rs <<'RS'
#![allow(dead_code)]
#[derive(Debug, Clone, PartialEq, PartialOrd, Default)]
pub struct Part { pub place: u64, pub name: String, pub sizes: Vec<[f64; 3]>, pub inner: Option<Box<Part>> }
pub fn build(n: usize) -> Vec<Part> {
    let mut parts = Vec::new();
    for k in 0..n {
        parts.push(Part { place: k as u64, name: format!("part {k} of {n}"), sizes: vec![[k as f64; 3]; 3], inner: None });
    }
    parts
}
RS
printf '#include <stddef.h>\n#include <stdint.h>\n#include <limits.h>\n' >header.h
printf 'int puts(const char *);\nint main(void) { return puts("hello"); }\n' >hello.c
clang-22 -O2 -c -emit-llvm small.c -o small.bc
clang-22 -c -emit-llvm hello.c -o hello.bc
clang-22 -O1 -g -w -c -emit-llvm module.c -o c.bc
clang++-22 -O2 -g -std=c++17 -c -emit-llvm shapes.cc -o cxx.bc
rustc --edition 2021 --crate-type lib -C debuginfo=2 -C codegen-units=1 --emit=llvm-bc crate.rs -o rust.bc
clang-22 -O2 -g -fsave-optimization-record -foptimization-record-file=loops.yaml -c loops.c -o loops.o
llvm-remarkutil-22 yaml2bitstream loops.yaml -o remarks.bc
clang-22 -x c-header header.h -o header.pch
