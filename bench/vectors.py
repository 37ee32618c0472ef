#!/usr/bin/env python3
"""Checks the table of four-state cases against Icarus Verilog.

usage: bench/vectors.py [TABLE]

TABLE is crates/b4_core_tests/src/table.rt unless it is given. A case is a line of five words:
operator, sign of the operation (u or s; two letters for **), operands a and b (most significant bit first, - where there
is none), and the result. Each case is run as an expression of its own on variables, and every line whose result differs
from the simulator's is printed, but for those of DEPARTS, where the simulator gives what is listed there. The exit status
is 1 if there is one.
"""
import pathlib
import re
import subprocess
import sys
import tempfile

HERE = pathlib.Path(__file__).resolve().parent
BINARY = {"&", "|", "^", "~^", "+", "-", "*", "/", "%"}
SHIFTS = {"<<", ">>", ">>>"}
ORDERS = {"<", "<=", ">", ">="}
EQUALITIES = {"==", "===", "==?"}
# Where Icarus Verilog 11 departs from IEEE 1800-2017: z of both arms under an unknown condition (table 11-20 gives x), and
# an unsigned base under a signed exponent, which it reads as signed.
DEPARTS = {
    "?: u 00001111xxxxzzzz 01xz01xz01xz01xz": "0xxxx1xxxxxxxxxz",
    "?: u 1x0z 1x0z": "1x0z",
    "** us 1111 1101": "1111",
}
REDUCTIONS = {"r&": "&", "r|": "|", "r^": "^", "r~&": "~&", "r~|": "~|", "r~^": "~^"}


def cases(path):
    """The cases of a table, as lists of five words."""
    for line in pathlib.Path(path).read_text().splitlines():
        words = line.strip().split()
        if len(words) == 5 and re.fullmatch(r"[01xz]+|[A-Z]", words[4]):
            yield words


def block(number, op, sign, a, b, want):
    """A named block of Verilog that prints the value of one case."""
    signs = {"u": "", "s": "signed"}
    lines = [f"begin : c{number}"]
    first, second = (sign[0], sign[1]) if len(sign) == 2 else (sign, sign)
    lines.append(f"reg {signs[first]} [{len(a) - 1}:0] a;")
    width = len(want)
    if b != "-" and op not in ("ext", "edge"):
        lines.append(f"reg {signs[second]} [{len(b) - 1}:0] b;")
    kind = "bit" if op == "two" else "reg"
    lines.append(f"{kind} [{max(width - 1, 0)}:0] y;")
    lines.append(f"a = {len(a)}'b{a};")
    if b != "-" and op not in ("ext", "edge"):
        lines.append(f"b = {len(b)}'b{b};")
    if op in BINARY or op in SHIFTS or op in ORDERS or op in EQUALITIES or op == "**":
        expression = f"a {op} b"
    elif op in REDUCTIONS:
        expression = f"{REDUCTIONS[op]}a"
    elif op == "~":
        expression = "~a"
    elif op == "neg":
        expression = "-a"
    elif op in ("ext", "two"):
        expression = "a"
    elif op == "truth":
        expression = "a || 1'b0"
    elif op in ("&&", "||"):
        expression = f"a {op} b"
    elif op == "!":
        expression = "!a"
    elif op == "?:":
        expression = "1'bx ? a : b"
    else:
        raise SystemExit(f"unknown operator {op}")
    lines.append(f"y = {expression};")
    lines.append(f'$display("{number} %b", y);')
    lines.append("end")
    return "\n".join(lines)


def edge_block(number, old, new):
    """Two processes that wait for an edge, and a change of one bit."""
    return f"""
reg e{number}; reg p{number}; reg n{number};
initial begin p{number} = 0; n{number} = 0; e{number} = 1'b{old}; #1;
  fork
    begin : wp{number} @(posedge e{number}) p{number} = 1; end
    begin : wn{number} @(negedge e{number}) n{number} = 1; end
    begin #1 e{number} = 1'b{new}; #1 disable wp{number}; disable wn{number}; end
  join
  $display("{number} %s", p{number} ? "P" : n{number} ? "N" : "-");
end"""


def main():
    table = sys.argv[1] if len(sys.argv) > 1 else HERE.parent / "crates/b4_core_tests/src/table.rt"
    listed = list(cases(table))
    plain = [block(n, *c) for n, c in enumerate(listed) if c[0] != "edge"]
    edges = [edge_block(n, c[2], c[3]) for n, c in enumerate(listed) if c[0] == "edge"]
    text = "module t;\ninitial begin\n" + "\n".join(plain) + "\nend\n" + "\n".join(edges) + "\nendmodule\n"
    with tempfile.TemporaryDirectory() as folder:
        source = pathlib.Path(folder) / "t.sv"
        source.write_text(text)
        program = pathlib.Path(folder) / "t"
        subprocess.run(["iverilog", "-g2012", "-o", program, source], check=True)
        out = subprocess.run(["vvp", program], check=True, capture_output=True, text=True).stdout
    found = dict(line.split() for line in out.splitlines() if re.match(r"\d+ ", line))
    wrong = 0
    for n, c in enumerate(listed):
        got = found.get(str(n), "nothing").replace("-", "E")
        if got != DEPARTS.get(" ".join(c[:4]), c[4]):
            wrong += 1
            print(" ".join(c), "- simulator:", got)
    print(f"{len(listed)} cases, {wrong} differ")
    return 1 if wrong else 0


if __name__ == "__main__":
    sys.exit(main())
