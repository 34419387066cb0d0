//! What each command says of itself.

macro_rules! circuits {
    () => {
        "\
CIRCUIT is a file with a circuit, as text or as the bytes of a shot book, or - for standard input.
A file NAME.book, and any input with control characters, is read as bytes.
"
    };
}

macro_rules! statuses {
    () => {
        "
Exit status: 0 done; 1 what was handed in is refused; 2 the command line is wrong, or something
cannot be read or written. Standard error says why.
"
    };
}

pub const ALL: &str = concat!(
    "\
cagvost: noisy Clifford circuits on qudits of odd prime dimension

usage: cagvost COMMAND ..

  run CIRCUIT       runs a circuit with its errors: results, shifts and verdict
  draw CIRCUIT      draws a circuit, one line per qudit
  text CIRCUIT      writes a circuit as text
  book CIRCUIT      writes a circuit as the bytes of a shot book
  mirror CIRCUIT    writes the circuit that undoes a circuit
  share CIRCUIT     the share of shots that drawn errors leave unharmed, with its interval
  sum PART..        adds the parts of a share that were counted separately
  help COMMAND      says more of one of them

",
    circuits!(),
    "
    # two qutrits are entangled and measured; `cagvost help text` has all lines
    qudits 2 dimension 3
    fourier 0
    sum 0 1
    error 1 x
    measure 0 choose 2
    measure 1
",
    statuses!()
);

pub const RUN: &str = concat!(
    "\
usage: cagvost run CIRCUIT [--direct] [--state] [--halt K] [--look Q]

Runs the circuit from the zero tableau, where every qudit is at level 0, with the errors that it
names, and prints: dimension, qudits, operations and errors; for each measurement its number, qudit,
kind and result; the shift of each row's phase; the verdict. The errors are carried as one frame
(the frame run), and the choices are those of the run without errors. The verdict is clean if the
errors have not changed the final state.

  --direct    apply the errors to the rows where they strike, with the choices as they are; then
              there are no shifts and no verdict
  --state     print the stabilizers of the final state too, as in 'stabilizer 0 ω^2 X0 Z1^2'
  --halt K    halt a direct run after K operations, and print what was measured until then and
              where it stands. Operations are counted from 0: number K comes next. Errors before it
              are not yet applied; a K larger than there are operations finishes the run. --state
              prints the stabilizers there.
  --look Q    print what a measurement of qudit Q would be where a direct run stands, halted or at
              its end: 'look qudit 3 free' or 'look qudit 3 certain 2'. The state is not changed.
              '0,3' names two qudits, 'all' each of them.

",
    circuits!(),
    "A circuit that a run would refuse is listed as 'refused NUMBER at PLACE'.\n",
    statuses!()
);

pub const DRAW: &str = concat!(
    "\
usage: cagvost draw CIRCUIT [--width COLUMNS]

Draws the circuit with one line per qudit, from left to right.

",
    include_str!("../../legend.txt"),
    "
  --width COLUMNS    go on below after so many columns (100); 0 for no limit

",
    circuits!(),
    statuses!()
);

pub const TEXT: &str = concat!(
    "\
usage: cagvost text CIRCUIT [-o FILE]

Writes the circuit as text, to FILE or to standard output. The lines of a text are, with C, T and Q
for the numbers of qudits, which are counted from 0:

",
    include_str!("../../lines.txt"),
    "
Words may be in small or large letters.

",
    circuits!(),
    statuses!()
);

pub const BOOK: &str = concat!(
    "\
usage: cagvost book CIRCUIT [-o FILE]

Writes the circuit as the bytes of a shot book, to FILE or to standard output.

",
    circuits!(),
    statuses!()
);

pub const MIRROR: &str = concat!(
    "\
usage: cagvost mirror CIRCUIT [-o FILE]

Writes the mirror of the circuit as text, to FILE or to standard output: its operations in reversed
order, each turned into its inverse, without errors. A circuit with a measurement, a reset or a
correction has none.

",
    circuits!(),
    statuses!()
);

pub const SHARE: &str = concat!(
    "\
usage: cagvost share CIRCUIT (--error P | --model FILE) [OPTIONS]

Draws errors for many shots of the circuit, runs each from the zero tableau, and prints how many are
unharmed (they end in the state of the run without errors), the share of these with its 95 % Wilson
interval, and the same for the shots in which every result is that of the run without errors. A free
measurement takes the circuit's choice, raised by the X power that the errors have brought to its
qudit: so an X error before it counts as harm, although every outcome was as likely. A correction
takes the result that the shot has.

  --error P       each operation has an error on each of its qudits with probability P: one of the
                  d² − 1 Weyl errors X^p Z^s, each equally likely. It strikes before a measurement
                  and after every other operation.
  --model FILE    such a probability for each kind of operation, one line each: 'sum 0.01' as above,
                  'cz x 0.004 z 0.01' for a power of X and, independently, one of Z. Kinds are
                  named as in a circuit: 'reset x 0.005'. 'others 0.001' stands for the kinds that
                  are not named.
  --shots N       how many shots (100000)
  --seed N        what the drawing starts from (1). Shot i depends on the seed and i alone, so that
                  the same seed gives the same figure on any number of threads.
  --threads N     how many threads (as many as there are processors)
  --shard I/N     count part I of N of these shots, and print it for `cagvost sum`
  --sweep RATES   a table over error rates: a list, '0.001,0.002,0.005', or so many rates in equal
                  ratios, '0.0001:0.1:10', rounded to three digits between the first and the last.
                  With --model the rates are factors that multiply it.
  --svg FILE      draw the table of --sweep as a curve

",
    circuits!(),
    "Errors that the circuit names are left out.\n",
    statuses!()
);

pub const SUM: &str = concat!(
    "\
usage: cagvost sum PART..

Adds the parts that `cagvost share --shard I/N` printed, one file each, and prints what `share`
would have printed for all shots. The parts must be of one circuit, model, seed and number of shots,
and each of the N parts must be there once.
",
    statuses!()
);
