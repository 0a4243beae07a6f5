#!/usr/bin/env python3
"""Writes C for a large module of bitcode, `make_module.py FUNCTIONS`: functions, types and texts as programs have them.

10,000 functions make about 32 MB of bitcode: `clang -g -O1 -w -c -emit-llvm`.
"""
import random
import sys


def function(rng, k):
    print(f"struct s{k} {{ int a; long b[{rng.randrange(2, 9)}]; double c; const char *name; struct s{max(k - 1, 0)} *next; }};")
    print(f'static const char *text{k} = "message number {k}: value out of range {rng.randrange(1 << 30)}";')
    print(f"long f{k}(struct s{k} *p, int n, double x) {{")
    print("  long total = 0;")
    print("  for (int i = 0; i < n; i++) {")
    for _ in range(rng.randrange(3, 9)):
        op = rng.choice(["+", "-", "*", "^", "|", "&"])
        print(f"    if ((p->a {op} i) > {rng.randrange(1 << 16)}) total {op}= p->b[i & 1] + {rng.randrange(1 << 20)};")
        print(f"    else {{ p->c = x * {rng.random():.6f} + p->c; p->name = text{k}; }}")
    print("  }")
    print("  return total + (long)p->next;\n}\n")


def main():
    rng = random.Random(7)
    for k in range(int(sys.argv[1])):
        function(rng, k)


main()
