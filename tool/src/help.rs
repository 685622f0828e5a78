//! What `help` prints.

const ALL: &str = "usage: ruevault read FILE.. -o SHEET
       ruevault show FILE.. [--json]
       ruevault check FILE.. [--json] [--all]
       ruevault proof FILE -o PAGE.html
       ruevault rests TICKS DIVISIONS [NOTES]
       ruevault help [COMMAND]
       ruevault --version

read writes the sheet of a Humdrum **kern text, show prints a text or a sheet
in words, check prints messages only, proof writes a page to look a text
through, and rests prints the hidden rests of a hole. FILE is a text of at most
64 MiB, - is standard input, and behind -- every word is a FILE.
Exit status: 0, 1 for a text or a hole that is refused, 2 for a wrong call or a
file that can't be read or written.";

const READ: &str = "usage: ruevault read FILE -o SHEET
       ruevault read FILE.. -o FOLDER

Writes the sheet of a text (docs/SHEET.md). The long forms of -o are --output
SHEET and --output=SHEET; with -o - the sheet goes to standard output. Into a
folder each FILE.krn goes as FILE.sheet. A sheet is written beside and then
renamed, so that a refused text or a full disk leaves an older one as it was; a
SHEET that is one of the FILEs is refused. Tokens that give no note are counted
on standard error.";

const SHOW: &str = "usage: ruevault show FILE.. [--json]

Prints a text, or a sheet without its text, in words: parts, then bar by bar
the notes of each voice, with the source's barline and lines behind the bar's
number. Voices and tokens count from 1. A token that gave no note stands in its
voice as NOT READ. Under a bar in which spines split, join, exchange, are added
or end stand those lines of the text, and [12] before a note of such a bar is
its line. At the end: what was lost, ignored, and what is harmless.
--json prints one object a file, each on a line of its own (docs/JSON.md).";

const CHECK: &str = "usage: ruevault check FILE.. [--json] [--all]

Prints messages only, on standard error: FILE:LINE:COLUMN: error[N] for a
refused text, warning[N] for what was lost, ignored or is harmless, and a
summary of each text. N is the refusal's or the notice's number, 0 for a lost
token whose notice was not kept; columns are characters, from 1. Of tokens that
were lost for one reason ten are printed and the others counted; --all prints
all.
--json prints one object a file on standard output, each on a line of its own
(docs/JSON.md). The exit status is 1 if any text is refused.";

const PROOF: &str = "usage: ruevault proof FILE -o PAGE.html

Writes a page that needs nothing else: title, parts, then bar by bar each
part's voices as lanes over exact onsets, in whole notes. Under a bar in which
spines split, join, exchange, are added or end stand those lines of the text,
with an arrow from each branch's token to its lane. Tokens that gave no note,
notices and bars that are shorter or longer than their meter are marked where
they stand. With -o - the page goes to standard output.";

const RESTS: &str = "usage: ruevault rests TICKS DIVISIONS [NOTES]

Prints the hidden rests that fill a hole of TICKS, at DIVISIONS to the quarter,
in a voice that has NOTES notes (0).";

const HELP: &str = "usage: ruevault help [COMMAND]

Prints what a command does.";

pub fn of(command: &str) -> &'static str {
    match command {
        "read" => READ,
        "show" => SHOW,
        "check" => CHECK,
        "proof" => PROOF,
        "rests" => RESTS,
        "help" => HELP,
        _ => ALL,
    }
}
