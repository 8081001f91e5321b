/* The texts of help and usage, and nothing else. */
#ifndef HELP_H
#define HELP_H

#define NO_BYTES_TO_A_TERMINAL "Bytes are not written to a terminal, unless with --force.\n"

static const char OVERVIEW[] =
    "usage: voltamar check SHEET..                             judge sheets\n"
    "       voltamar section [-o FILE] [--force] SHEET N       the records of one section\n"
    "       voltamar compile [-o FILE] [--force] SHEET         a sheet's command bytes\n"
    "       voltamar read [-o FILE] [--force] STREAM           the sheet that command bytes set up\n"
    "       voltamar notice [-o FILE] [--report] OLD NEW       every alteration between two sheets\n"
    "       voltamar show SHEET                                a sheet as text\n"
    "       voltamar show --commands STREAM                    command bytes as text\n"
    "       voltamar bench [-o FILE] [--force] SHEET WORDS     the samples that capture takes\n"
    "       voltamar help [VERB]                               this, or more on one verb\n"
    "       voltamar --version\n"
    "A file named - is standard input. Exit status: 0 done, 1 refused, 2 wrong usage or a file's trouble.\n";

static const char ON_OUTPUT[] =
    "-o FILE: the result goes to FILE, which appears, whole, only when all went well; otherwise FILE stays as it was.\n"
    "A file that is replaced keeps its mode. FILE may not be an input, nor a file that may not be written; - is standard output.\n";

static const char USAGE_CHECK[] = "usage: voltamar check SHEET..\n";
static const char MORE_CHECK[] =
    "Judges each sheet and says that it is accepted, or which fault comes first and where. The status is the worst of all.\n";

static const char USAGE_SECTION[] = "usage: voltamar section [-o FILE] [--force] SHEET N\n";
static const char MORE_SECTION[] =
    "Writes the records of one section, without their count: 0 terms, 1 ranges, 2 edges, 3 sums, 4 states.\n"
    "A greater N gives nothing. " NO_BYTES_TO_A_TERMINAL;

static const char USAGE_COMPILE[] = "usage: voltamar compile [-o FILE] [--force] SHEET\n";
static const char MORE_COMPILE[] =
    "Writes the command bytes that fill the recorder's tables, by rising address.\n" NO_BYTES_TO_A_TERMINAL;

static const char USAGE_READ[] = "usage: voltamar read [-o FILE] [--force] STREAM\n";
static const char MORE_READ[] =
    "Writes the sheet that the command bytes set up, with targets cut to their masks. The commands hold no labels: each\n"
    "label is its section's letter (T, R, E, S, Q: terms, ranges, edges, sums, states) and its slot in two digits, as S47.\n"
    NO_BYTES_TO_A_TERMINAL;

static const char USAGE_NOTICE[] = "usage: voltamar notice [-o FILE] [--report [--no-digest]] OLD NEW\n";
static const char MORE_NOTICE[] =
    "Writes a line for each alteration: TERM, RANG, EDGE, SUMS or STAT, the slot, and\n"
    "  NAME  the label differs\n"
    "  ALTR  what is caught differs, and an input in hex that tells the two apart;\n"
    "        of a sum its sixteen sources: from the lowest bit up the terms 0 to 9, the\n"
    "        ranges 0 and 1, the edges 0 and 1 and the two timers, every pattern counts;\n"
    "        of a state its number, else state or flags differ, and no input follows\n"
    "  WORD  the description differs, but no input tells the two apart\n"
    "  NEW   only the new sheet has the slot\n"
    "  GONE  only the old sheet has the slot\n"
    "An empty notice with status 0 says that nothing is altered; a refusal gives no notice and status 1.\n"
    "--report: a page for signing, with both files' names, lengths and SHA-256, and what each line says.\n"
    "--no-digest: the page without SHA-256.\n";

static const char USAGE_SHOW[] = "usage: voltamar show SHEET\n       voltamar show --commands STREAM\n";
static const char MORE_SHOW[] =
    "Shows one record, or with --commands one command, to a line: its offset first, numbers of four bytes in hex.\n"
    "A refused file is shown up to its fault, which is marked ***.\n";

static const char USAGE_BENCH[] = "usage: voltamar bench [-o FILE] [--force] SHEET WORDS\n";
static const char MORE_BENCH[] =
    "Runs the sheet's programme over samples and writes those that capture takes, in their order.\n"
    "WORDS holds the samples in their order: words of 32 bits, four bytes each, least byte first, at most 4096.\n"
    "The result has the same form. The run starts afresh: state 0, count 0, the first sample as its own earlier one.\n"
    "Where it ends, no later sample is looked at. The timers never hit.\n" NO_BYTES_TO_A_TERMINAL;

static const char USAGE_HELP[] = "usage: voltamar help [VERB]\n";
static const char MORE_HELP[] = "Says how the program, or one verb of it, is called.\n";

#endif
