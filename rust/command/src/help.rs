//! What `--help` prints.

const ALL: &str = "\
cantaribol: designs of guarded rules, clock by clock

  cantaribol check FILE...                       one that passes never gets stuck
  cantaribol convert FILE -o OUT [--to FORM]     as assembly, hex or binary
  cantaribol list FILE [--clocks N]              each clock's fates and displays
  cantaribol run FILE --clocks N                 only how the run ends
  cantaribol show FILE                           the design in readable form
  cantaribol trace FILE --vcd OUT [--clocks N]   a value-change dump for viewers
  cantaribol help COMMAND                        more about one of them
  cantaribol --version                           which one this is

FILE is a design file, or the same as text: hex, which is pairs of hex digits
and whitespace, or assembly, which is what show prints. Comments go from # to
the end of the line. - is standard input.

The value of an option that begins with -- may follow it after =, as in
--clocks=5. Clock counts up to 4,294,967,295 are accepted. After -- there are
no options, so that a file's name may begin with -. COMMAND --help and -h are
help COMMAND, -V is --version.

An interrupt ends list, run and trace; the first two then print INTERRUPTED and
what they have, and trace leaves OUT as it was. A second one ends all.

Exit status: 0 done; 1 the design is refused, fails the check or gets stuck;
2 the command line or a file is at fault; 130 interrupted. Words go to standard
error.
";

const CHECK: &str = "\
cantaribol check FILE...

Says whether the design passes the check. Prints one line:

  PASSED, and what the design holds    no rule gets stuck, from any state
  FAILED number place                  the first failure, and its record's offset
  REFUSED number place                 the file is no design

Of more than one file a line each, with its name in front; a file that cannot
be read has none, and the others are checked all the same.

Exit status: 0 passed, 1 failed or refused, 2 usage or file at fault; of more
than one file the worst.
";

const CONVERT: &str = "\
cantaribol convert FILE -o OUT [--to FORM]

Writes the design as OUT, in another form or the same. FORM is

  asm    assembly: what show prints
  hex    pairs of hex digits, each record in a line of its own or more
  bin    the design file

Without it OUT's ending decides: .asm or .txt, .hex, .bin. Comments do not come
along. - is standard output and needs --to.

OUT is written beside its place and then gets its name, so that it is never
there by half. If it is FILE itself, nothing is written. A file that is no
design prints REFUSED number place, and nothing is written.

Exit status: 0 written, 1 refused, 2 usage or file at fault.
";

const LIST: &str = "\
cantaribol list FILE [--clocks N]

Sets the start values and runs up to N clocks (20 if not given; 4,294,967,295
at most). Prints a line for each clock: its number, a letter for each schedule
entry, the displays.

  F fired          A conflict inside the rule                 S stuck
  U unavailable    E conflict with an earlier fired rule      - not reached
  . no schedule    H hardware conflict

The last line is LIMIT, QUIET or STUCK, the clocks in which a rule fired (for
STUCK also the rule and the number why), and each register's value, - for a
user module. A file that is no design prints REFUSED number place.

An interrupt ends the list: the last line is INTERRUPTED, the clocks in which a
rule fired so far, and the registers as they stand. A second one ends all.

Exit status: 0 limit or quiet, 1 stuck or refused, 2 usage or file at fault,
130 interrupted.
";

const RUN: &str = "\
cantaribol run FILE --clocks N

As list, but prints the last line only; for many clocks. Clock counts up to
4,294,967,295 are accepted. Where standard error is a terminal, it shows how
far the run is.

An interrupt ends the run: the last line is INTERRUPTED, the clocks in which a
rule fired so far, and the registers as they stand. A second one ends all.

Exit status: 0 limit or quiet, 1 stuck or refused, 2 usage or file at fault,
130 interrupted.
";

const SHOW: &str = "\
cantaribol show FILE

Prints the design part by part, each with its offset in the design file:
instances, methods and rules with their expressions, and the schedule. All
commands read it again; what belongs to a line stands below it and further to
the right, all of it at one column and after spaces, not tabs. The offsets may
be left out.

Exit status: 0 shown, 1 refused, 2 usage or file at fault.
";

const TRACE: &str = "\
cantaribol trace FILE --vcd OUT [--clocks N]

Runs as list does, up to 4,294,967,295 clocks, and writes OUT as a value-change
dump (VCD), which waveform viewers open; - is standard output. A clock takes
10 ns and begins with the rising edge of clk. In it stand:

  clock           its number
  instance_I      each register as it stood when the clock began
  entry_E_rule_R_letter
                  what became of schedule entry E, which is rule R, as the
                  letter that list prints; set its data format to ASCII
  rule_R_fate     the same as a number: 0 fired, 1 unavailable,
                  2 conflict inside, 3 with an earlier fired rule,
                  4 hardware conflict, 5 stuck, 6 not reached
  rule_R_fired    1 where that is 0
  displays        how many values were displayed
  display_D       each of them, up to the 64th

After the last clock stand the final registers, and clk stays low. A design
with displays is run twice, since a dump begins with the names of its signals.

OUT is never FILE itself. It becomes the dump when that is whole: a trace that
fails or is interrupted leaves it as it was. A pipe is written to directly.

Exit status: 0 limit or quiet, 1 stuck or refused, 2 usage or file at fault,
130 interrupted.
";

/// About one command, or about all.
pub fn help(about: Option<&str>) -> &'static str {
    match about {
        Some("check") => CHECK,
        Some("convert") => CONVERT,
        Some("list") => LIST,
        Some("run") => RUN,
        Some("show") => SHOW,
        Some("trace") => TRACE,
        _ => ALL,
    }
}
