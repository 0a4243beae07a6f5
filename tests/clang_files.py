"""Files in the bitstream container that the clang of this machine makes, in a folder that the caller removes."""
import glob
import os
import re
import shutil
import subprocess

SOURCES = {
    "list.c": """
#include <stdio.h>
#include <string.h>
struct node { int value; double weight; const char *name; struct node *next; };
double total(struct node *first, int limit) {
  double sum = 0.5;
  for (struct node *at = first; at; at = at->next) {
    if (at->name && strcmp(at->name, "skip") == 0) continue;
    sum += at->weight * at->value;
    if (limit-- == 0) break;
  }
  printf("%s %f\\n", "the sum", sum);
  return sum;
}
int pick(int n) { switch (n) { case 1: return 3; case 7: return -1; case 1000: return n / 3; default: return n + 1; } }
int main(int argc, char **argv) { struct node n = {argc, 1.5, argv[0], 0}; return (int)total(&n, pick(argc)); }
""",
    "point.h": """
struct point { int x, y; };
static inline int norm(struct point p) { return p.x * p.x + p.y * p.y; }
""",
    "boxes.cc": """
namespace shapes { template <class T> struct box { T side; T area() const { return side * side; } }; }
int use() { shapes::box<int> b{3}; return b.area(); }
""",
    "answer.cppm": """
export module answer;
export int answer() { return 42; }
""",
    "warned.c": """
int f(int a) { int b; if (a = 1) return b; }
int g(void) { return "x"; }
""",
    "plain.c": "int f(int a) { return a + 1; }\n",
}

# The arguments of clang, with the file that it makes.
ASKED = {
    "a module at -O0": ("O0.bc", "-O0 -c -emit-llvm list.c -o O0.bc"),
    "a module at -O2": ("O2.bc", "-O2 -c -emit-llvm list.c -o O2.bc"),
    "a module with -g": ("g.bc", "-g -O1 -c -emit-llvm list.c -o g.bc"),
    "a module for link time": ("full.bc", "-O2 -flto -c list.c -o full.bc"),
    "a module with a summary": ("thin.bc", "-O2 -flto=thin -c list.c -o thin.bc"),
    "a module of C++": ("boxes.bc", "-O1 -c -emit-llvm boxes.cc -o boxes.bc"),
    "a module in Darwin's wrapper": ("darwin.bc", "-target x86_64-apple-darwin -c -emit-llvm plain.c -o darwin.bc"),
    "a precompiled header": ("point.pch", "-x c-header point.h -o point.pch"),
    "a precompiled header of C++": ("boxes.pch", "-x c++-header boxes.cc -o boxes.pch"),
    "a C++ module's interface": ("answer.pcm", "-std=c++20 --precompile -x c++-module answer.cppm -o answer.pcm"),
    "serialized diagnostics": ("warned.dia", "-Wall -c warned.c -o warned.o --serialize-diagnostics warned.dia"),
    "optimisation remarks": ("list.remarks", "-O2 -c -emit-llvm list.c -o remarks.bc -fsave-optimization-record=bitstream "
                             "-foptimization-record-file=list.remarks"),
}


# Those of these files that contain a syntax tree.
TREES = ("a precompiled header", "a precompiled header of C++", "a C++ module's interface")


def find_all(name):
    """The paths of a tool of LLVM by its main version, 0 if that is not known: first the one with the plain name, and then
    those with a version in their names, the newest first."""
    plain = shutil.which(name)
    numbered = sorted(glob.glob(f"/usr/bin/{name}-[0-9]*") + glob.glob(f"/usr/lib/llvm-*/bin/{name}"), reverse=True)
    found = {}
    for path in [plain, *numbered] if plain else numbered:
        found.setdefault(version(path), path)
    return found


def find_tool(name):
    """The path of a tool of LLVM, also of one with a version in its name; None if there is none."""
    return next(iter(find_all(name).values()), None)


def version(tool):
    """The main version of a tool, 0 if it is not known."""
    told = re.search(r"version (\d+)", subprocess.run([tool, "--version"], capture_output=True, text=True).stdout)
    return int(told[1]) if told else 0


def make(clang, folder, names=tuple(ASKED)):
    """The bytes of each file with one of these names that clang makes in the folder; None for one that it doesn't make."""
    for name, text in SOURCES.items():
        with open(f"{folder}/{name}", "w") as file:
            file.write(text)
    made = {}
    for name in names:
        file, words = ASKED[name]
        subprocess.run([clang, *words.split()], cwd=folder, env={**os.environ, "TMPDIR": folder}, capture_output=True)
        made[name] = None
        if os.path.isfile(f"{folder}/{file}") and os.path.getsize(f"{folder}/{file}"):
            with open(f"{folder}/{file}", "rb") as it:
                made[name] = it.read()
    return made


def wrapped(module):
    """A module in a wrapper, padded to 16 bytes as Darwin's tools pad it."""
    header = [0x0B17C0DE, 0, 20, len(module), 0x01000007]
    whole = b"".join(number.to_bytes(4, "little") for number in header) + module
    return whole + bytes(-len(whole) % 16)


def ends_of_blocks(stream):
    """The bytes at which the blocks at top level end, by their lengths."""
    ends, at = [], 4
    while at + 8 <= len(stream):
        at += 8 + 4 * int.from_bytes(stream[at + 4 : at + 8], "little")
        ends.append(at)
    return ends
