//! The help page.

pub const VERSION: &str = concat!("threshold ", env!("CARGO_PKG_VERSION"), "\n");

pub const TEXT: &str = "\
threshold - whether one threshold gate can carry a Boolean function

  threshold TABLE..              the verdict on each table, in words
  threshold on FILE              carries the open jobs of a saved file on, and
                                 saves what they come to there
  threshold check CERTIFICATE..  checks gates and witnesses, whoever made them
  threshold many [FILE]          a verdict for each line, on all cores
  threshold pack [FILE]          lines of text to records, which ./report reads
  threshold list [FILE]          records to lines of text
Without a FILE, or where it is -, many, pack and list read standard input. Try
  threshold e8 0x8000 -e 'x1 x2 + !x3'

A verdict is a gate, which can be tried on every row cared for; or a witness,
after which no weights of any size exist; or 'given up so far', which can be
carried on. In row r of a table, input xi is true when bit i - 1 of r is 1. A
gate is true in a row when the weights of the row's true inputs add up to T or
more. A row that never occurs need not be cared for: the verdict is then on the
others.

TABLE, of up to 8 inputs
  e8  0x8000     hex digits, the highest rows first, as ABC and kitty write:
                 8000 is the AND of four inputs. 1, 2, 4, 8, 16, 32 or 64 digits
                 are 2, 3, 4, 5, 6, 7 or 8 inputs
  2/1            hex digits and the number of inputs, for tables of 0 or 1 input
  0b11101000     a binary digit for each row, the highest first. 0b10 has the
                 length of hex digits too, and is read so; 0b10/1 is binary
  0b1110-000     the same with a - for each row that is not cared for
  e0@f7          the values, and the rows cared for, each as above
  -e EXPRESSION  of as many inputs as the highest that it names

EXPRESSION, what binds tightest first
  x1 .. x8   0   1   (a)   maj(a, b, c)     maj: more than half of an odd number
  a'   !a   ~a                              not
  a b   a & b   a * b                       and
  a ^ b                                     xor
  a + b   a | b                             or

CERTIFICATE
  'e8: 2 3 3 >= 4'     a gate: a weight for each input, and T; or as a sum,
                       'e8: 2 x1 + 3 x2 + 3 x3 >= 4'
  'f888: 3 12 = 5 10'  a witness: true rows = false rows; 2*3 is row 3 twice
Without one, certificates are read from standard input, one a line: those of a
file by `threshold check <FILE`.

OPTIONS for tables
  -n N           the number of inputs of every table of the call, 0 to 8
  --cares E      of every table of the call, care only for the rows where the
                 EXPRESSION E is true
  --rows         each row with its value and its sum; for `on` too
  --save FILE    writes the verdicts to FILE as records, for `on` and `list`. No
                 record carries a gate or a witness where rows are not cared
                 for: FILE then has the table, or after `on` the job as it was
  --budget N     at most N corrections, 1 to 1000000; without it 100000. With
                 `on`, N more. For `many` too
OPTIONS for many
  --jobs N       threads; without it as many as there are cores
  --json         a JSON object a line, where otherwise a line is a certificate
Each line is a table in digits; blank lines and those with # first are left out.
The answers keep the order; wrong lines and a summary go to standard error.

STATUS
  0  every table has a gate, every certificate holds, or all lines were answered
  1  a table has no gate, or a certificate does not hold
  2  a wrong call
  3  a table is given up so far
  4  something could not be read or written, or a line was wrong
";
