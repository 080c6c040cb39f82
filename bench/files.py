#!/usr/bin/env python3
"""files.py FOLDER: writes the files that the bench reads, NAME-SIZE.ibs, heavy in rows, in pins and in models, each just under its size."""
import sys
from pathlib import Path

SIZES = (1, 4, 16, 64)


def header(name):
    return ["[IBIS Ver] 5.0", f"[File Name] {name}.ibs", "[File Rev] 1.0"]


def component(heading, rows):
    return ["[Component] C1", "[Manufacturer] House", "[Package]", "R_pkg 250m 225m 275m", "L_pkg 15.0nH 12.0nH 18.0nH",
            "C_pkg 18.0pF 15.0pF 20.0pF", f"[Pin] signal_name model_name{heading}", *rows]


def model(name, more=()):
    return [f"[Model] {name}", "Model_type I/O", "Vinl = 0.8V", "Vinh = 2.0V", "C_comp 5.0pF 4.0pF 6.0pF",
            "[Voltage Range] 3.3V 3.0V 3.6V", "[Ramp]", "dV/dt_r 1.9/0.5n 1.7/0.6n 2.1/0.4n", "dV/dt_f 1.9/0.5n NA NA", *more]


def size_of(lines):
    return sum(len(line) + 1 for line in lines)


def table_row(i):
    return f"{i * 5}p {i * 3}.25m {i * 2}.125m NA" if i % 8 == 7 else f"{i * 5}p {i * 3}.25m {i * 2}.125m {i * 4}.5m"


def rows(limit):
    """One model, whose waveforms have as many rows as there is room for."""
    head = header("rows") + component("", ["1 DATA io1"]) + model("io1")
    room = limit - size_of(head + ["[End]"])
    body, count = [], 0
    while True:
        if count % 1000 == 0:
            opening = ["[Rising Waveform]", "R_fixture = 50", "V_fixture = 3.3"]
            if size_of(body + opening) + 100 > room:
                break
            body += opening
            used = size_of(body)
        row = table_row(count % 1000)
        if used + len(row) + 1 > room:
            break
        body.append(row)
        used += len(row) + 1
        count += 1
    return head + body + ["[End]"]


def pins(limit):
    """As many pins as there is room for, up to 512, their names and numbers the longer the more room there is."""
    def file(count, width):
        signal = min(40, 4 + max(0, width - 32) // 2)
        name = "io".ljust(min(40, 4 + max(0, width - 32 - 2 * (signal - 4))), "x")
        zeros = "0" * max(0, (width - 92) // 3)
        made = [f"P{i} {f'S{i}'.ljust(signal, '_')} {name} 200.{zeros}m NA 2.5{zeros}pF" for i in range(count)]
        return header("pins") + component(" R_pin L_pin C_pin", made) + model(name) + ["[End]"]
    count = min(512, (limit - size_of(file(0, 30))) // 31)
    width = 30
    while max(map(len, file(count, width + 1))) <= 120 and size_of(file(count, width + 1)) <= limit:
        width += 1
    return file(count, width)


def models(limit):
    """As many models as there is room for, up to 64, with tables where there is more room."""
    def file(count, rows_each):
        clamp = ["[GND Clamp]", *(f"{i}.0 {i * 7}.5mA {i * 6}.5mA {i * 8}.5mA" for i in range(-rows_each, 0))] if rows_each else []
        return (header("models") + component("", [f"{i} S{i} io{i}" for i in range(count)])
                + [line for i in range(count) for line in model(f"io{i}", clamp)] + ["[End]"])
    count = 1
    while count < 64 and size_of(file(count + 1, 0)) <= limit:
        count += 1
    each = 1
    while each < 100 and size_of(file(count, each + 1)) <= limit:
        each += 1
    return file(count, each if each > 1 else 0)


folder = Path(sys.argv[1])
folder.mkdir(parents=True, exist_ok=True)
for made in (rows, pins, models):
    for kib in SIZES:
        lines = made(kib * 1024)
        (folder / f"{made.__name__}-{kib:02}.ibs").write_text("".join(line + "\n" for line in lines))
