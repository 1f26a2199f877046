#!/usr/bin/env python3
"""Writes wide_code.c: a guest whose hot code is 2,500 functions, which are called in turn, 1,000 times over. With --result it
prints what the guest has to give, which is worked out here by itself."""
import random
import sys

FUNCTIONS = 2500
ROUNDS = 1000
MASK = (1 << 64) - 1


def plan():
    """For each function its steps, an operation and a constant each."""
    source = random.Random(20261128)
    return [[(source.choice("+^*-r"), source.randrange(3, 2000) | 1) for _ in range(7)] for _ in range(FUNCTIONS)]


def done(steps, x, i):
    for op, k in steps:
        if op == "+":
            x = x + k & MASK
        elif op == "-":
            x = x - k * i & MASK
        elif op == "^":
            x = x ^ x >> 7 ^ k
        elif op == "*":
            x = x * k & MASK
        else:
            n = k % 63 + 1
            x = (x << n | x >> (64 - n)) & MASK
    return x


def result():
    x = 1
    steps = plan()
    for i in range(ROUNDS):
        for each in steps:
            x = done(each, x, i)
    return x


def text():
    lines = ["// Written by wide_code.py.", "typedef unsigned long u64;", ""]
    for number, steps in enumerate(plan()):
        lines.append(f"static __attribute__((noinline)) u64 f{number}(u64 x, u64 i)")
        lines.append("{")
        for op, k in steps:
            n = k % 63 + 1
            lines.append({
                "+": f"    x = x + {k};",
                "-": f"    x = x - {k} * i;",
                "^": f"    x = x ^ x >> 7 ^ {k};",
                "*": f"    x = x * {k};",
                "r": f"    x = x << {n} | x >> {64 - n};",
            }[op])
        lines += ["    return x;", "}", ""]
    lines.append(f"static u64 (*const functions[{FUNCTIONS}])(u64, u64) = {{")
    lines += [f"    f{number}," for number in range(FUNCTIONS)]
    lines += ["};", "", "u64 run(void)", "{", "    u64 x = 1;", f"    for (u64 i = 0; i < {ROUNDS}; i++)",
              f"        for (u64 n = 0; n < {FUNCTIONS}; n++)", "            x = functions[n](x, i);", "    return x;", "}", ""]
    return "\n".join(lines)


if __name__ == "__main__":
    if "--result" in sys.argv:
        print(result())
    else:
        sys.stdout.write(text())
