"""The page of a folder with a network as hardware."""
from argparse import Namespace
from pathlib import Path

from rtl_bench import Run
from rtl_tables import Network

TEXT = """# A network as hardware

Made by `./design rtl` of `{chip}`, `{app}` and `{plan}`, with {kind}. In this folder

```sh
iverilog -g2012 -DAETH_WAVE -f bench.f -s aeth_bench -o network.vvp    # compiles the network and its bench
vvp -n network.vvp                                                     # runs use case `{use}` for {cycles:,} cycles
gtkwave network.vcd                                                    # looks at it
```

or with Verilator: `verilator --binary --assert -f bench.f --top-module aeth_bench` and `obj_dir/Vaeth_bench`. The run leaves
`log.csv`, a row for each flit that enters a link, which `aeth audit` judges once it is sorted, and `landings.csv`, a row for
each word that lands.

| File | What it is |
|---|---|
| `aeth_network.sv` | the network: its links, routers and interfaces, by the names of the chip |
| `rtl/` | the modules that it is made of; each one's head has its timing |
| `network.f` | the files of the network, for a simulator or a synthesizer |
| `bench.f`, `aeth_harness.sv`, `aeth_run.sv` | what a simulation needs beside them |
| `tables/{use}.hex` | the writes that load a use case into empty tables, one in a cycle |
| `tables/OLD.NEW.hex` | the writes of a switch from one use case to another |
| `run/` | the words, receivers and switches of the run, and the rows of routers' tables |

How many cells it takes, as Yosys counts them:

```sh
yosys -p "read_verilog -sv -Irtl -DSYNTHESIS $(grep 'sv$' network.f | tr '\\n' ' '); synth -top aeth_network; stat"
```

A core's side of a channel are four ports of `aeth_network`, which rtl/aeth_types.svh explains: `offer_.._i` and `ready_.._o`
where it hands words over, `arrival_.._o` and `taking_.._i` where they land. `landings.csv` calls channels by number:

{channels}
"""


def readme_text(network: Network, run: Run, given: Namespace) -> str:
    channels = "\n".join(f"{number}. {name} {side}" for number, (name, side) in enumerate(network.channels))
    return TEXT.format(
        chip=Path(given.chip).name, app=Path(given.app).name, plan=Path(given.plan).name,
        kind="routers that look slot tables up" if network.has_tables else "routers that read headers",
        use=run.switches[0].use, cycles=run.stimuli.cycles, channels=channels,
    )
