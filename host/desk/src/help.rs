//! What --help prints.

pub const OVERVIEW: &str = "\
bursztok: signs and checks cargo sheets with BLISS-B, sets 1 to 8

  bursztok demo        the main job end to end, with a test key
  bursztok key-test    test a key
  bursztok commit      commit to masks, with the rests after rounding on request
  bursztok sign        answer a list and write the record
  bursztok check       check a record against a sheet
  bursztok rebuild     read a record and rebuild the commitment, with no verdict on a sheet
  bursztok write       write a record from z1, z2 dagger and a list
  bursztok read        read a record into z1, z2 dagger and its list
  bursztok pack        turn a record into a packed one, for a link that is paid by the byte
  bursztok unpack      turn a packed record into a plain one
  bursztok inspect     show records with their key numbers, headers and sections
  bursztok completion  print completion for a shell

Each has --help, also as 'bursztok help SUBCOMMAND'; bursztok --version tells the version. Vectors
are text files: whole numbers between white space, '#' starts a comment. Records are binary files,
plain (letters BLB1) or packed (BLP1): what reads a record takes either, by its letters.
'-' is standard input for a file that is read and standard output for one that is written; what is
said then goes to standard error. Noise and hash are yours: masks, words, thresholds and lists come
from files. For trials bursztok-second makes them, with test keys; they are for tests only.
Sets are 1 to 8; 0 stands for set 4. A record's key number says which key signed it, from 1 to
4294967295, and 0 where none is stated. It is not signed itself: the public key decides. A file is
written whole or not at all: first as FILE.part beside it, then renamed.

Exit status: 0 done; 1 refused, with the file, the cause, number, place and meaning; 2 bad usage or
a bad file. With --json the answer is one line on standard output, an object with status, call,
number, place, meaning, words (those that the draw took), set, key (the record's key number, 0 where
it states none), form (of the record, plain or packed) and cause; number and place are null where no
call answered, key where no record was read or written, form where there is none.";

pub const DEMO: &str = "\
bursztok demo [--set N] [--seed N] [--sheets N] [--packed] [--folder DIR]

Makes a test key, signs a sheet on the ship, hands the record over, checks it on the shore, and
shows damaged records refused. The key, the masks and the hash are the second program's, for tests
only; everything that signs and checks is the library's. The key has number 7.

  --set N       the parameter set, 1 to 8, or 0 for set 4 (default 0)
  --seed N      what key and noise are made from (default 1)
  --sheets N    then sign and check so many sheets more, with progress (default 0)
  --packed      hand packed records over
  --folder DIR  keep the sheet, its record and the text files of this run there: all that
                'bursztok sign --folder DIR' takes";

pub const KEY_TEST: &str = "\
bursztok key-test --set N (--folder DIR | --f FILE --g FILE --a FILE) [--json]

Tests a key: ranges; in f and in g the set's counts of 1 or -1 and of 2 or -2, and with them a
squared length of at most K; a times f = 2g + 1 modulo 12289.
Refusals in order: 1, 2, 3, 15, 7, 6; 7 can't occur.

  --set N             the parameter set
  --folder DIR        holds f.txt, g.txt and a.txt
  --f, --g, --a FILE  name a file of its own
  --json              the answer as JSON";

pub const COMMIT: &str = "\
bursztok commit --set N (--folder DIR | --a FILE --y1 FILE --y2 FILE) --out FILE
                [--rests FILE] [--plot FILE] [--json]

Commits to masks and writes the 512 numbers to hash with the sheet.
Refusals in order: 1, 2, 3, 4.

With --rests or --plot it tells how far each sum lies from its rounded step too. The rest is the
sum minus 2^d times its rounded quotient, before the remainder by p, and lies in -2^(d-1) ..
2^(d-1) - 1; d is 10 for sets 1, 2, 5 and 6, 9 for sets 3 and 7, 8 for sets 4 and 8. No file takes
its place before all are written.

  --set N               the parameter set
  --folder DIR          holds a.txt, y1.txt and y2.txt
  --a, --y1, --y2 FILE  name a file of its own
  --out FILE            where the commitment goes
  --rests FILE          where the 512 rests go
  --plot FILE           where the histogram of the rests goes, a picture in SVG
  --json                the answer as JSON";

pub const SIGN: &str = "\
bursztok sign --set N [--key N] (--folder DIR | --f FILE --g FILE ..) --record FILE [--packed]
              [--json]

Answers a list for the masks that it was hashed from, and writes the record.
Refusals in order: 1, 2, 3, 4, 5, 15, 7, 6, then 8 or 9 as the walk ends, then 10, 11; 7 can't
occur.
With 8, 10 or 11 start again with new masks; with 9 lend more words.

  --set N          the parameter set
  --key N          the key number, 0 to 4294967295, by which a desk finds the public key (default
                   0, not stated)
  --folder DIR     holds f, g, a, y1, y2, list, sign, thresholds and words, each with .txt
  --f, --g, --a, --y1, --y2, --list, --thresholds, --words FILE
                   name a file of its own
  --sign BIT       the sign bit, 0 or 1
  --record FILE    where the record goes
  --packed         the packed record
  --json           the answer as JSON";

pub const CHECK: &str = "\
bursztok check --a FILE --record FILE --hash COMMAND --sheet FILE [--json]
bursztok check --a FILE --record FILE --rebuilt FILE --hashed FILE [--json]

Reads a record, plain or packed, rebuilds what its signer committed to, and compares the list in the
record with the one that is hashed from the rebuilt vector and the sheet. Exit status 0 says that they
are the same. It tells the key number that the record states; the verdict is on the public key --a.
Refusals in order: reader 13, 5, 10, 11; rebuild 2, 3; comparison 5, 12.

The hash is yours. With --hash it is run here, by sh: COMMAND gets the rebuilt vector on its
standard input, 512 entries of two bytes, low byte first, then the sheet, and has BURSZTOK_SET in
its environment; it answers with the list as text. With --hashed it has been run elsewhere: the
list was hashed from the sheet and the file --rebuilt, which 'bursztok rebuild' wrote, and a file
that is not what the record rebuilds to is refused. A list that comes from the signer says nothing.

  --a FILE        the public key
  --record FILE   the record
  --hash COMMAND  the command that hashes
  --sheet FILE    the sheet
  --rebuilt FILE  the rebuilt vector, as 'bursztok rebuild' wrote it
  --hashed FILE   the list that you hashed from --rebuilt and the sheet
  --json          the answer as JSON";

pub const REBUILD: &str = "\
bursztok rebuild --a FILE --record FILE --out FILE [--json]

Reads a record, plain or packed, writes the vector that its signer committed to, and tells the record's
key number. That says nothing of a sheet: hash the vector with the sheet, and let 'bursztok check'
compare.
Refusals in order: reader 13, 5, 10, 11; rebuild 2, 3.

  --a FILE       the public key
  --record FILE  the record
  --out FILE     where the rebuilt vector goes
  --json         the answer as JSON";

pub const WRITE: &str = "\
bursztok write --set N [--key N] (--folder DIR | --z1 FILE --z2 FILE --list FILE) --record FILE
               [--packed] [--json]

Writes a record. Refusals in order: 1, 2, 5, 10, 11.

  --set N                  the parameter set; 0 is written as 4
  --key N                  the key number, 0 to 4294967295 (default 0, not stated)
  --folder DIR             holds z1.txt, z2.txt and list.txt
  --z1, --z2, --list FILE  name a file of its own
  --record FILE            where the record goes
  --packed                 the packed record
  --json                   the answer as JSON";

pub const READ: &str = "\
bursztok read --record FILE --folder DIR [--json]

Reads a record, plain or packed, writes z1.txt, z2.txt and list.txt to DIR, and tells its set and its
key number, which says which key signed.
Refusals in order: 13, 5, 10, 11.";

pub const PACK: &str = "\
bursztok pack --record FILE --out FILE [--json]

Turns a record into a packed one, which holds the same signature in 468 to 546 bytes fewer: an entry
of z1 takes 13 bits, one of z2 dagger 4, a place of the list 9. The key number stays.
Refusals in order: 13 (a packed record's letters among them), 5, 10, 11.

  --record FILE  the record
  --out FILE     where the packed record goes
  --json         the answer as JSON";

pub const UNPACK: &str = "\
bursztok unpack --record FILE --out FILE [--json]

Turns a packed record into the plain one that it was packed from, byte for byte, its key number too.
Refusals in order: 13 (a plain record's letters and a spare bit that is set among them), 5, 10, 11.

  --record FILE  the packed record
  --out FILE     where the plain record goes
  --json         the answer as JSON";

pub const INSPECT: &str = "\
bursztok inspect FILE.. [--json]
bursztok inspect --record FILE

Shows the header of a record, plain or packed, field by field, its key number among them; where each
section lies, the bits of its entries and what it holds; the bytes that packing saves; and the reader's
answer. What the reader refused is marked. Several records get a line each, with the key number, and a
total.
Refusals: the reader's, 13, 5, 10, 11. Exit status 1 where any record was refused, 2 where any
could not be opened.";

pub const COMPLETION: &str = "\
bursztok completion bash

Prints completion of subcommands, options and file names for bash:
  source <(bursztok completion bash)";
