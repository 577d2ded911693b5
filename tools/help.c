/* What sharetext says of itself. The manual page sharetext.1 says the same. */
#include "help.h"

#include <sharing.h>

/* The usage in short. */
void print_usage(FILE *to) {
    fputs("usage: sharetext input FILE [--unify]\n"
          "       sharetext explain [FILE]\n"
          "       sharetext apart FILE GOAL GOAL [--after N]\n"
          "       sharetext pairs FILE [--after N]\n"
          "       sharetext why FILE GOAL GOAL [--after N]\n"
          "       sharetext tables FILE\n"
          "       sharetext show FILE\n"
          "       sharetext form FILE [--after N] [--packed]\n"
          "       sharetext text FORM [--packed]\n"
          "       sharetext audit FILE [TABLE] [--after N] [--packed] [--write OUT] [--text]\n"
          "       sharetext --help\n", to);
#ifdef SHARING_VERSION_MAJOR
    fputs("       sharetext --version\n", to);
#endif
}

static const char *const commands =
    "\n"
    "Reads sharing tables and equations from a readable file and says which goals may run side\n"
    "by side. Every answer is that of the proved library; this program itself is tested, not\n"
    "proved.\n"
    "\n"
    "Commands\n"
    "  input FILE             writes the input of the program sharerun\n"
    "  explain                copies the output of sharerun and adds words to a refusal; with\n"
    "                         FILE it says of each equation of the file what is found in it, or\n"
    "                         that it clashes, has no finite solution or is full\n"
    "  apart FILE GOAL GOAL   may the two goals run side by side?\n"
    "  pairs FILE             the same for each pair of the goals that the file names or, where\n"
    "                         it names none, of the variables of the line vars\n"
    "  why FILE GOAL GOAL     may the two goals run side by side and, if not, why: which equation\n"
    "                         made them share, a group with variables of both that it joined, and\n"
    "                         which entries that came from\n"
    "  tables FILE            the table before the first equation and after each one: its\n"
    "                         entries, with the variables at 1 and perhaps those at *, and\n"
    "                         which variables are known\n"
    "  show FILE              the groups that the entries of each of these tables cover, a row\n"
    "                         each, with x in the column of each variable of the group: those of\n"
    "                         fewer variables first, those of as many in the order of their\n"
    "                         variables. Of a table 64 groups are shown, then how many more there\n"
    "                         are\n"
    "  form FILE              writes the bytes of the form of the table after the last equation,\n"
    "                         or with --after N after the first N\n"
    "  text FORM              reads the bytes of a form and writes a readable file with its\n"
    "                         entries, which the other commands take\n"
    "  audit FILE TABLE       may the table be shipped for the clause that the file is? It is\n"
    "                         told line by line what was asked and found, and at last what to\n"
    "                         do; without TABLE the table that the clause gives is audited, and\n"
    "                         with --write OUT written\n"
    "  help, --help           this text\n"
#ifdef SHARING_VERSION_MAJOR
    "  --version              the version\n"
#endif
    "\n"
    "  FILE, FORM and TABLE may be - for standard input. A GOAL is a list of variables such as\n"
    "  Baptism,Parish, or - for none, or a goal that the file names.\n"
    "\n"
    "Options\n"
    "  --after N   asks after the first N equations: 0 is before the first one. Without it the\n"
    "              question is asked after the last one. The answer's line says which point it\n"
    "              holds at.\n"
    "  --packed    form writes and text reads the packed form, five positions to a byte; audit\n"
    "              reads TABLE so, or writes OUT so.\n"
    "  --unify     input writes both sides of each equation as terms, as the call\n"
    "              sharing_unify_run reads them. Without it a variable must be on one side, since\n"
    "              sharerun reads no other equations.\n"
    "  --write OUT audit writes the table that the clause gives to the file OUT, as a form, if no\n"
    "              line is BAD.\n"
    "  --text      audit writes it as a readable file.\n";

static const char *const file_lines =
    "\n"
    "The file\n"
    "  ASCII or UTF-8, one item a line. % or # outside of quotes starts a comment, to the end of\n"
    "  the line. Blank lines count for nothing, and so do blanks around an item and its parts.\n"
    "\n"
    "  vars 3                        first: the variables, here X1, X2 and X3,\n"
    "  vars Baptism Wedding Parish   or by name; at most 32 in all\n"
    "  01*                           then the entries of a positive table, a position for each\n"
    "                                variable: 1 in the group, 0 not in it, * either\n"
    "  free                          every variable is a group of its own\n"
    "  free Baptism, Parish          these variables are, each one\n"
    "  Baptism = after(Wedding).     then the equations; the full stop may be left out\n"
    "  goal date: Baptism, Parish    a goal, by its name, and its variables\n"
    "  goal log: -                   a goal without variables\n"
    "\n"
    "  A name is a capital letter or an underscore and then letters, digits and underscores; that\n"
    "  of a goal begins with a small letter. Between names a comma may stand. Entries and lines\n"
    "  free stand in any order, before the first equation; goals, at most 64, stand anywhere\n"
    "  after the variables.\n";

static const char *const file_terms =
    "\n"
    "  A term is one of these:\n"
    "    Wedding             a variable of the line vars\n"
    "    _                   a variable of its own each time it stands: one more of the 32, after\n"
    "                        the named ones, and free at the start\n"
    "    ashby, f(a, X)      a symbol, with up to 15 terms as arguments; it begins with a small\n"
    "                        letter\n"
    "    'Ashby St Mary'     a quoted atom, as a symbol; in it '' or \\' is a quote, and \\\\ a\n"
    "                        backslash\n"
    "    1870, -3, 2.5e6     a number, as a constant that is known by its text\n"
    "    [], [a, X | T]      a list\n"
    "  Each side of an equation is a term. f(X) = Y is Y = f(X). Two sides that both begin with a\n"
    "  symbol are walked together, arguments left to right, and the equations that are found are\n"
    "  applied in that order: f(X, g(Y)) = f(Z, W) is X = Z and then W = g(Y). It counts as one.\n"
    "  Operators, as in X is Y + 1 or a:b, are not supported.\n"
    "\n"
    "  There are at most 32 variables, 256 entries (one for each free variable and each _\n"
    "  counted), 64 equations, and 1024 variables and symbols in their terms; a list counts one\n"
    "  for each element and one for its end besides the elements. A variable that is a side by\n"
    "  itself counts only where some equation has a variable on neither side.\n";

static const char *const why_they_share =
    "\n"
    "Why goals share\n"
    "  why tells the last equation before which the goals shared nothing; where its two sides are\n"
    "  walked together, also which of the equations found in it that was. Of the groups with\n"
    "  variables of both goals after it, why tells the one that show has first, and entries of\n"
    "  the table before it that cover groups inside that one: the first with the variable of the\n"
    "  equation, the first with a variable of its term, and then those that add what is missing.\n"
    "  Of goals that share at every point from the start on, why tells a group of both that was\n"
    "  there from the start and that no equation has touched, with the first entry that covers\n"
    "  it. Where there is none, it tells of the groups of both the one that show has first, and\n"
    "  the equation that joined it last. The library's call for the entries is sharing_reason.\n";

static const char *const before_shipping =
    "\n"
    "The audit\n"
    "  FILE is a clause, and TABLE the positive table that is to be shipped with it: a readable\n"
    "  file without equations, a form, or a packed form. A file without a zero byte is readable;\n"
    "  which form it is shows in its length. The two lengths are the same for 16 variables: there\n"
    "  a form that reads as both is taken as not packed unless --packed is given, and line 2 says\n"
    "  so. The recomputed table is the one that the library gives for the clause. Each line is ok\n"
    "  or BAD:\n"
    "\n"
    "  1 variables    those of the table are those of the clause: the same names in the same\n"
    "                 order or, where one of the two has no names, as many, each _ counted or not\n"
    "  2 reading      the table reads; else its refusal in words, with the place\n"
    "  3 groups       the table has the groups of the recomputed one; else each missing group,\n"
    "                 with the equation and the entries that it was joined from, and each one too\n"
    "                 many\n"
    "  4 ground       for each variable that the table calls ground the equation after which it\n"
    "                 first is; BAD where no equation made it so\n"
    "  5 other side   the table turned into its negative and back has the same groups, or the\n"
    "                 change of side is full, which is no fault\n"
    "  6 goals        each pair of goals by the table and by the recomputed one; BAD where the\n"
    "                 table allows what the other forbids. Where the file names no goals, each\n"
    "                 variable is one, and only pairs in which the tables differ are told\n"
    "\n"
    "  Groups are listed in the order of show, 20 of each kind, then how many more there are.\n"
    "  Where two tables differ in very many parts, not all parts are looked at: then there are at\n"
    "  least so many, and those listed need not be the first. What is missing or too many is\n"
    "  never passed over: line 3 is ok exactly where the library says that the groups are equal.\n"
    "  Lines 3 to 6 are BAD, and not asked, where line 1 or line 2 is.\n"
    "\n"
    "  Without TABLE lines 4 to 6 are asked of the recomputed table. It is written with the\n"
    "  variables of the line vars, and without those of _.\n";

static const char *const free_and_full =
    "\n"
    "What is in no group\n"
    "  A variable that is in no entry and in no line free counts as known: no run-time variable\n"
    "  is left in it. Where an entry was forgotten, an answer that goals may run side by side can\n"
    "  then be wrong, also for goals on other variables. So each command that reads a file says\n"
    "  it on standard error, and each answer says it in its line.\n"
    "\n"
    "Clashes\n"
    "  Where two symbols stand across from each other in the two sides of an equation, or one\n"
    "  symbol with two numbers of arguments, the equation clashes: it fails, no bindings go on\n"
    "  from it, and the table is empty after it. A command that asks after it says so on standard\n"
    "  error, with the place and with what stands across, such as f/2 against g/1, and each answer\n"
    "  says it in its line. A clash comes before all else in its equation, which is never full.\n"
    "\n"
    "A variable in its own term\n"
    "  X = X says nothing: it is harmless, and the table stays as it is. X = f(X), where X stands\n"
    "  deeper in its own term, has no finite solution (the occurs check): a clause with it never\n"
    "  succeeds. It fails as a clash does and is told in the same ways, and the table is empty\n"
    "  after it. Both may be found in two sides that are walked together, where an equation found\n"
    "  before may be full.\n"
    "\n"
    "Full equations\n"
    "  An equation that needs a table of more than 256 entries is full. Then no answer is given\n"
    "  for a point after it; the all-star table, where every variable may share with every other,\n"
    "  is what is safe to go on with there. The message has the table before it; points before it\n"
    "  are answered as usual. An audit then says not to ship the table, and names the equation\n"
    "  and its line.\n"
    "\n"
    "Forms\n"
    "  A form is what the calls of the library read and write; a packed form is a shorter one, for\n"
    "  storing tables. Both are in sharing.h. They have a position for each variable of the line\n"
    "  vars and then one for each _, but no names, no equations and no side: the other commands\n"
    "  take the entries that text writes as those of a positive table. One that is refused is told\n"
    "  with the number and the words of the refusal, and gives no output.\n"
    "\n"
    "Mistakes\n"
    "  FILE:LINE:COLUMN: and what is wrong, then the line with the place marked, and what is\n"
    "  expected there. Columns are bytes, from 1. A file with a mistake gives no answer and no\n"
    "  output.\n"
    "\n"
    "Exit status\n"
    "  0  done; for apart and why: the goals may run side by side; for audit: all is well\n"
    "  1  for apart and why: they may not; for explain: there was a refusal, a clash, an equation\n"
    "     without a finite solution or a full one; for audit: a line is BAD\n"
    "  2  a mistake in a file or in the arguments, a form that is refused (by audit it is told in\n"
    "     line 2), or no answer because an equation is full\n";

static const char *const example =
    "\n"
    "Example\n"
    "  A file parish.txt:\n"
    "\n"
    "    vars Baptism Wedding Parish\n"
    "    free Baptism             % an unknown in the baptism is in nothing else\n"
    "    01*                      % one in the wedding may be in the parish too\n"
    "    0*1\n"
    "    Baptism = after(Wedding).\n"
    "    Parish = 'Ashby St Mary'.\n"
    "\n"
    "  $ sharetext apart parish.txt Baptism Wedding --after 0\n"
    "  Baptism and Wedding: may run side by side before the first equation\n"
    "  $ sharetext apart parish.txt Baptism Parish --after 1\n"
    "  Baptism and Parish: may not run side by side after equation 1, Baptism = after(Wedding) "
    "(they may share a variable)\n"
    "  $ sharetext apart parish.txt Baptism,Wedding Parish\n"
    "  Baptism,Wedding and Parish: may run side by side after equation 2, "
    "Parish = 'Ashby St Mary'\n";

/* All of it. */
void print_help(void) {
    print_usage(stdout);
    fputs(commands, stdout);
    fputs(file_lines, stdout);
    fputs(file_terms, stdout);
    fputs(why_they_share, stdout);
    fputs(before_shipping, stdout);
    fputs(free_and_full, stdout);
    fputs(example, stdout);
}

/* The version, where the header has one. */
bool print_version(void) {
#ifdef SHARING_VERSION_MAJOR
    printf("sharetext %d.%d.%d\n", SHARING_VERSION_MAJOR, SHARING_VERSION_MINOR,
           SHARING_VERSION_PATCH);
    return true;
#else
    return false;
#endif
}
