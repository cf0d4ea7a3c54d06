#!/usr/bin/env python3
"""verilog.py EXAMPLES: reads lines of the program `examples`, writes each module as Verilog with a testbench, runs it with
Icarus Verilog, and compares the rows. Prints `skipped` where iverilog or vvp is missing; exits with 1 at a difference."""
import shutil
import subprocess
import sys
import tempfile
from pathlib import Path

FIXED = {0x10: 1, 0x11: 1, 0x12: 2, 0x13: 2, 0x21: 1, 0x22: 2, 0x23: 1}
SIGNS = {0x25: "&", 0x26: "|", 0x27: "^", 0x28: "+", 0x29: "=="}


def fields(data):
    """The fields of a list, as (tag, payload)."""
    while data:
        end = 3 + int.from_bytes(data[1:3], "big")
        yield data[0], data[3:end]
        data = data[end:]


def constant(payload):
    return f"{payload[0]}'d{int.from_bytes(payload[1:5], 'big')}"


def expression(tag, payload):
    if tag == 0x20:
        return constant(payload)
    fixed = FIXED.get(tag, 0)
    inner = [expression(*field) for field in fields(payload[fixed:])]
    if tag == 0x21:
        return f"v{payload[0]}"
    if tag == 0x22:
        return f"v{payload[0]}[{payload[1]}]"
    if tag == 0x23:
        return f"v{payload[0]}[{inner[0]}]"
    if tag in (0x24, 0x2A):
        return f"({'~' if tag == 0x24 else '^'}{inner[0]})"
    return f"({inner[0]} {SIGNS[tag]} {inner[1]})"


def block(payload):
    return "begin\n" + "".join(statement(*field) for field in fields(payload)) + "end\n"


def statement(tag, payload):
    inner = list(fields(payload[FIXED.get(tag, 0):]))
    first = expression(*inner[0])
    if tag == 0x14:
        return f"if ({first}) {block(inner[1][1])}else {block(inner[2][1])}"
    if tag == 0x15:
        items = [list(fields(item)) for _, item in inner[1:-1]]
        arms = "".join(f"{constant(value)}: {block(body)}" for (_, value), (_, body) in items)
        return f"case ({first})\n{arms}default: {block(inner[-1][1])}endcase\n"
    bit = f"[{payload[1]}]" if tag >= 0x12 else ""
    return f"v{payload[0]}{bit} {'<=' if tag & 1 else '='} {first};\n"


def numbers(row):
    return [int.from_bytes(row[i:i + 4], "big") for i in range(0, len(row), 4)]


def verilog(module, rows):
    """The module's variables and processes, and a testbench that sets a row, gives one clock edge and prints the row."""
    parts = list(fields(module[3:]))
    widths = [payload[0] for tag, payload in parts if tag in (2, 3)]
    text = "module top;\nreg clk;\n"
    text += "".join(f"reg [{width - 1}:0] v{i};\n" for i, width in enumerate(widths))
    text += "".join(f"always @(posedge clk) {block(payload)}" for tag, payload in parts if tag == 4)
    text += "initial begin\nclk = 0;\n"
    names = ", ".join(f"v{i}" for i in range(len(widths)))
    shape = " ".join(["%0d"] * len(widths))
    for row in rows:
        text += "".join(f"v{i} = {widths[i]}'d{value};\n" for i, value in enumerate(numbers(row)))
        text += f'#1 clk = 1;\n#1 $display("{shape}", {names});\n#1 clk = 0;\n#1;\n'
    return text + "$finish;\nend\nendmodule\n"


def run(text, folder):
    source, program = folder / "top.v", folder / "top.vvp"
    source.write_text(text)
    subprocess.run(["iverilog", "-g2012", "-o", program, source], check=True)
    printed = subprocess.run(["vvp", "-n", program], check=True, capture_output=True, text=True).stdout
    return [[int(word) for word in line.split()] for line in printed.splitlines() if line[:1].isdigit()]


def main():
    if not shutil.which("iverilog") or not shutil.which("vvp"):
        print("skipped: no iverilog or vvp")
        return 0
    lines = Path(sys.argv[1]).read_text().splitlines()
    compared = 0
    with tempfile.TemporaryDirectory() as folder:
        for line in lines:
            module, *rows = [bytes.fromhex(word) for word in line.split()]
            text = verilog(module, rows[0::2])
            if run(text, Path(folder)) != [numbers(row) for row in rows[1::2]]:
                print(f"DIFFERENCE between Icarus Verilog and the reference\n{line}\n{text}")
                return 1
            compared += len(rows) // 2
    print(f"Icarus Verilog and the reference: {len(lines)} modules, {compared} cycles: no difference")
    return 0


if __name__ == "__main__":
    sys.exit(main())
