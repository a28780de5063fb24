// SPDX-License-Identifier: Apache-2.0
// Made by tools/page_words.py from clients/mserve_client: change it there, and run `python3 tools/page_words.py --write`.

/** The codes that end a line: what each means, the section that has the rule, and what to do. */
export const CODES = {
  M1: {
    words: "naked indicator undefined",
    section: "Variables",
    advice: "Name the global: ^X(2) for ^(2)."
  },
  M2: {
    words: "format of $FNUMBER in conflict",
    section: "Languages",
    advice: "P has brackets in the place of a sign: leave out +, - and T beside it."
  },
  M4: {
    words: "no true condition in $SELECT",
    section: "Functions",
    advice: "End the list with 1:value."
  },
  M6: {
    words: "undefined local variable",
    section: "Variables",
    advice: "SET it before, or read it by $GET(A). A session that ended took its variables along."
  },
  M7: {
    words: "undefined global variable",
    section: "Variables",
    advice: "SET it before, or read it by $GET(^X(1)). $DATA(^X(1)) says whether there is a value."
  },
  M9: {
    words: "divide by zero",
    section: "Numbers",
    advice: "Look at the divisor of / \\ or # first."
  },
  M10: {
    words: "pattern range n.m with n above m",
    section: "Expressions",
    advice: "Write the lesser count first: 1.3N."
  },
  M11: {
    words: "line with parameters reached, but not by DO or as a function",
    section: "Languages",
    advice: "End the lines above it by QUIT, and enter it by DO."
  },
  M13: {
    words: "line not found",
    section: "Routines, and texts that are run",
    advice: "`.routines` lists what is there. A label alone is sought in the running routine only."
  },
  M15: {
    words: "undefined index of FOR",
    section: "Commands",
    advice: "The body of the loop killed its index."
  },
  M16: {
    words: "QUIT with a value that nothing wants",
    section: "Languages",
    advice: "Call it as a function, S X=$$F(1); in a FOR, a block or an XECUTE set a variable, and QUIT with it after that."
  },
  M17: {
    words: "function that ends without a value",
    section: "Languages",
    advice: "Each way through it ends by a QUIT with a value."
  },
  M19: {
    words: "MERGE of a node with one above or below it",
    section: "Languages",
    advice: "Copy by way of another variable: M X=A(1) K A M A=X."
  },
  M20: {
    words: "actuals, but no formal list",
    section: "Languages",
    advice: "The label needs its list: F(A,B), right after the name and without a space."
  },
  M28: {
    words: "exponent with a fraction",
    section: "Languages",
    advice: "The exponent of ** is a whole number: X**(N\\1)."
  },
  M58: {
    words: "more actuals than formal parameters",
    section: "Languages",
    advice: "Look at the list after the label."
  },
  M90: {
    words: "a text that is no name of a node",
    section: "Languages",
    advice: "A name is as A(1,\"x\") or ^|\"LAB\"|P(1): strings and canonical numbers alone."
  },
  M94: {
    words: "zero to the power zero",
    section: "Languages",
    advice: "Look at both operands of ** first."
  },
  ZARG: {
    words: "argument out of its range",
    section: "Functions",
    advice: "$ORDER wants a subscript and the direction 1 or -1; SET $PIECE a delimiter and a place of 1 to 500; WRITE ?n a column of at most 4,095."
  },
  ZCHAR: {
    words: "character over 127",
    section: "Values",
    advice: "Values and lines are ASCII: write another character."
  },
  ZDEPTH: {
    words: "too many levels",
    section: "Routines, and texts that are run",
    advice: "At most 256 levels of DO, XECUTE and indirection, 32 of them indirections. A DO of itself without end?"
  },
  ZGRANT: {
    words: "not granted",
    section: "Variables",
    advice: "The settings have to grant the global (ROUTINE for routines); SET, KILL and LOCK need a grant to write."
  },
  ZLEVEL: {
    words: "line of another level of dots",
    section: "Routines, and texts that are run",
    advice: "GOTO a line with as many dots as the level, and DO a line without dots."
  },
  ZLINE: {
    words: "line too long",
    section: "Codes",
    advice: "A line has at most 255 characters: cut it in two, or put it into a routine."
  },
  ZLOCKED: {
    words: "locked by another terminal",
    section: "LOCK",
    advice: "Give a timeout, as LOCK +^X:0, and look at $TEST."
  },
  ZLONG: {
    words: "text too long",
    section: "Functions",
    advice: "A text has at most 4,095 characters."
  },
  ZMEM: {
    words: "out of memory: the session is gone",
    section: "Codes",
    advice: "Locals and locks of the terminal are gone; some of the line's writes may stand."
  },
  ZOVER: {
    words: "number too large",
    section: "Numbers",
    advice: "Numbers are below 10^18 in size."
  },
  ZSTEPS: {
    words: "steps used up",
    section: "Codes",
    advice: "What the line did stands. Do less on a line, or have the account's steps raised in the settings."
  },
  ZSTORE: {
    words: "the store failed: the session is gone",
    section: "Codes",
    advice: "Locals and locks of the terminal are gone; look at the disk of the store."
  },
  ZSUB: {
    words: "subscript refused",
    section: "Variables",
    advice: "A subscript has 1 to 255 characters, and a variable at most 15."
  },
  ZSYNTAX: {
    words: "not in the language",
    section: "Lines",
    advice: "Nothing of the line was run."
  },
  ZTERM: {
    words: "terminal not in the settings",
    section: "Codes",
    advice: "Use a terminal that the settings give to an account."
  },
  ZWIRE: {
    words: "no readable terminal",
    section: "Codes",
    advice: "A terminal is 1 to 9999."
  }
};

/** The commands of the language, in a line each. */
export const COMMANDS = {
  SET: "SET X=1,^A(1)=X        S: gives variables texts; SET (X,Y)=1; SET $PIECE(X,\",\",2)=\"b\"",
  KILL: "KILL X,^A(1)           K: takes a node away with all below it; KILL (X) all locals but X; KILL all locals",
  NEW: "NEW X,Y                N: hides locals until the line, DO or XECUTE ends; NEW (X) all but X; NEW all",
  IF: "IF X>1                 I: sets $TEST, and skips the rest of the line if it is 0",
  ELSE: "ELSE  W 1              E: skips the rest of the line if $TEST is 1; two spaces follow it",
  FOR: "FOR I=1:1:10 W I       F: runs the rest of the line in turns; FOR  turns until QUIT",
  QUIT: "QUIT:X>9               Q: ends the innermost FOR, else the DO, the XECUTE or the line; of language 1 QUIT X gives the value of $$F(Y)",
  WRITE: "WRITE X,!,\"text\"       W: writes into the reply; ! ends a line; of language 1 # begins a page, ?20 goes to a column, *65 is A",
  DO: "DO ADD^R               D: runs lines of a routine; DO ^R; of language 1 DO F(X,.Y) and DO F^|\"LIB\"|R; DO alone runs the dotted lines below",
  GOTO: "GOTO ADD^R             G: goes on at a line of a routine",
  XECUTE: "XECUTE \"S X=1\"         X: runs a text as a line",
  LOCK: "LOCK +^A(1):0          L: takes names that other terminals cannot take then; LOCK -^A(1); LOCK gives all back",
  MERGE: "MERGE ^A=^B            M: copies a node with all below it to another one; of language 1",
  HALT: "HALT                   H: ends the session: its locals are gone and its locks given back",
  HANG: "HANG 5                 H: waits for nothing here; of language 1"
};

/** The functions of the language, in a line each. */
export const FUNCTIONS = {
  $ASCII: "$A(text[,place])       the code of a character, or -1",
  $CHAR: "$C(code,..)            the characters of codes, 0 to 127",
  $DATA: "$D(variable)           0 nothing, 1 a text, 10 nodes below, 11 both",
  $EXTRACT: "$E(text[,from[,to]])   characters by place; of language 1 SET $E(variable,3)=text too",
  $FIND: "$F(text,part[,from])   the place after a part, or 0",
  $FNUMBER: "$FN(number,format[,places])  a number with commas, signs, brackets and places; of language 1",
  $GET: "$G(variable[,default]) the text, or the default if there is none",
  $INCREMENT: "$I(variable[,number])  adds the number, or 1, to the variable, and gives what it then has; of language 1",
  $JUSTIFY: "$J(text,width)         the text after spaces; of language 1 $J(number,width,places) too",
  $LENGTH: "$L(text[,delimiter])   how many characters, or pieces",
  $NAME: "$NA(variable[,count]) its name as a text, with as many subscripts as are said; of language 1",
  $ORDER: "$O(variable[,-1])      the next subscript at the last place, or the one before; \"\" begins and ends",
  $PIECE: "$P(text,delimiter[,from[,to]])  pieces between delimiters; SET of several needs language 1",
  $QLENGTH: "$QL(name)              how many subscripts the name of a node has; of language 1",
  $QSUBSCRIPT: "$QS(name,place)        a subscript of the name of a node; 0 its name, -1 its account; of language 1",
  $QUERY: "$Q(variable[,-1])      the name of the next node that has a text, or of the one before; of language 1",
  $REVERSE: "$RE(text)              the characters, the last one first; of language 1",
  $SELECT: "$S(condition:value,..) the value of the first true condition",
  $TRANSLATE: "$TR(text,from[,to])    the text with characters exchanged, or taken out",
  $IO: "$I                     the terminal's number; of language 1",
  $JOB: "$J                     the terminal's number; of language 1",
  $PRINCIPAL: "$P                     the terminal's number; of language 1",
  $QUIT: "$Q                     1 if a value is wanted of the level, else 0; of language 1",
  $STORAGE: "$S                     how many characters a text may have, 4095; of language 1",
  $X: "$X                     how many characters the line of output has so far; of language 1",
  $Y: "$Y                     how many lines its page has before that one; of language 1",
  $TEST: "$T                     1 or 0: what the last IF, or LOCK with a timeout, gave"
};

/** The grammar of lines of language 0, as clients/mserve_client/grammar.py has it: kinds of steps, and rules of them. */
export const RULES = {
  line: ["all", ["text", " *", ""], ["many", ["rule", "command"]], ["text", "(?:;[\\x00-\\x7f]*)?(?![\\s\\S])", "command"]],
  condition: ["any", ["all", ["text", ":", ""], ["rule", "expression"]], ["text", "", ""]],
  assignment: ["any", ["all", ["any", ["all", ["text", "\\(", ""], ["all", ["inner", "target"], ["many", ["all", ["text", ",", "more"], ["inner", "target"]]]], ["text", "\\)", "close"]], ["rule", "target"]], ["text", "=", "equals"], ["rule", "expression"]], ["all", ["all", ["text", "@", ""], ["inner", "primary"]], ["text", "(?=[ ,;]|(?![\\s\\S]))", ""]]],
  parameter: ["all", ["rule", "expression"], ["any", ["all", ["text", ":", "more"], ["rule", "expression"], ["any", ["all", ["text", ":", "more"], ["rule", "expression"]], ["text", "", ""]]], ["text", "", ""]]],
  locked: ["all", ["text", "[+-]?", ""], ["any", ["all", ["text", "\\(", ""], ["all", ["inner", "lockable"], ["many", ["all", ["text", ",", "more"], ["inner", "lockable"]]]], ["text", "\\)", "close"]], ["rule", "lockable"]], ["any", ["all", ["text", ":", ""], ["rule", "expression"]], ["text", "", ""]]],
  lockable: ["all", ["text", "(?!\\^\\()", "lockable"], ["rule", "variable"]],
  atoms: ["all", ["rule", "atom"], ["many", ["rule", "atom"]]],
  command: ["any", ["all", ["mark", "command", ["text", "(?:[Ss][Ee][Tt]|[Ss])(?![A-Za-z])", "command"]], ["rule", "condition"], ["any", ["all", ["text", " (?=[^ ;])", "argument"], ["mark", "arguments", ["all", ["rule", "assignment"], ["many", ["all", ["text", ",", "more"], ["rule", "assignment"]]]]], ["text", " *(?=;|(?![\\s\\S]))| +", "after"]]]], ["all", ["mark", "command", ["text", "(?:[Ww][Rr][Ii][Tt][Ee]|[Ww])(?![A-Za-z])", "command"]], ["rule", "condition"], ["any", ["all", ["text", " (?=[^ ;])", "argument"], ["mark", "arguments", ["all", ["rule", "written"], ["many", ["all", ["text", ",", "more"], ["rule", "written"]]]]], ["text", " *(?=;|(?![\\s\\S]))| +", "after"]]]], ["all", ["mark", "command", ["text", "(?:[Ii][Ff]|[Ii])(?![A-Za-z])", "command"]], ["any", ["all", ["text", " (?=[^ ;])", ""], ["mark", "arguments", ["all", ["rule", "expression"], ["many", ["all", ["text", ",", "more"], ["rule", "expression"]]]]], ["text", " *(?=;|(?![\\s\\S]))| +", "after"]], ["text", "(?! [^ ;])(?: *(?=;|(?![\\s\\S]))|  +)", "gap"]]], ["all", ["mark", "command", ["text", "(?:[Ff][Oo][Rr]|[Ff])(?![A-Za-z])", "command"]], ["any", ["all", ["text", " (?=[^ ;])", ""], ["mark", "arguments", ["all", ["text", "[A-Za-z%][A-Za-z0-9]{0,30}(?![A-Za-z0-9])", "name"], ["text", "=", "equals"], ["all", ["rule", "parameter"], ["many", ["all", ["text", ",", "more"], ["rule", "parameter"]]]]]], ["text", " *(?=;|(?![\\s\\S]))| +", "after"]], ["text", "(?! [^ ;])(?: *(?=;|(?![\\s\\S]))|  +)", "gap"]]], ["all", ["mark", "command", ["text", "(?:[Kk][Ii][Ll][Ll]|[Kk])(?![A-Za-z])", "command"]], ["rule", "condition"], ["any", ["all", ["text", " (?=[^ ;])", ""], ["mark", "arguments", ["all", ["any", ["all", ["text", "\\(", ""], ["all", ["text", "[A-Za-z%][A-Za-z0-9]{0,30}(?![A-Za-z0-9])", "name"], ["many", ["all", ["text", ",", "more"], ["text", "[A-Za-z%][A-Za-z0-9]{0,30}(?![A-Za-z0-9])", "name"]]]], ["text", "\\)", "close"]], ["rule", "variable"]], ["many", ["all", ["text", ",", "more"], ["any", ["all", ["text", "\\(", ""], ["all", ["text", "[A-Za-z%][A-Za-z0-9]{0,30}(?![A-Za-z0-9])", "name"], ["many", ["all", ["text", ",", "more"], ["text", "[A-Za-z%][A-Za-z0-9]{0,30}(?![A-Za-z0-9])", "name"]]]], ["text", "\\)", "close"]], ["rule", "variable"]]]]]], ["text", " *(?=;|(?![\\s\\S]))| +", "after"]], ["text", "(?! [^ ;])(?: *(?=;|(?![\\s\\S]))|  +)", "gap"]]], ["all", ["mark", "command", ["text", "(?:[Nn][Ee][Ww]|[Nn])(?![A-Za-z])", "command"]], ["rule", "condition"], ["any", ["all", ["text", " (?=[^ ;])", ""], ["mark", "arguments", ["all", ["any", ["all", ["text", "\\(", ""], ["all", ["text", "[A-Za-z%][A-Za-z0-9]{0,30}(?![A-Za-z0-9])", "name"], ["many", ["all", ["text", ",", "more"], ["text", "[A-Za-z%][A-Za-z0-9]{0,30}(?![A-Za-z0-9])", "name"]]]], ["text", "\\)", "close"]], ["text", "[A-Za-z%][A-Za-z0-9]{0,30}(?![A-Za-z0-9])", "name"], ["all", ["text", "@", ""], ["inner", "primary"]]], ["many", ["all", ["text", ",", "more"], ["any", ["all", ["text", "\\(", ""], ["all", ["text", "[A-Za-z%][A-Za-z0-9]{0,30}(?![A-Za-z0-9])", "name"], ["many", ["all", ["text", ",", "more"], ["text", "[A-Za-z%][A-Za-z0-9]{0,30}(?![A-Za-z0-9])", "name"]]]], ["text", "\\)", "close"]], ["text", "[A-Za-z%][A-Za-z0-9]{0,30}(?![A-Za-z0-9])", "name"], ["all", ["text", "@", ""], ["inner", "primary"]]]]]]], ["text", " *(?=;|(?![\\s\\S]))| +", "after"]], ["text", "(?! [^ ;])(?: *(?=;|(?![\\s\\S]))|  +)", "gap"]]], ["all", ["mark", "command", ["text", "(?:[Ee][Ll][Ss][Ee]|[Ee])(?![A-Za-z])", "command"]], ["any", ["all", ["text", " (?=[^ ;])", ""], ["text", "(?!)", "gap"]], ["text", "(?! [^ ;])(?: *(?=;|(?![\\s\\S]))|  +)", "gap"]]], ["all", ["mark", "command", ["text", "(?:[Xx][Ee][Cc][Uu][Tt][Ee]|[Xx])(?![A-Za-z])", "command"]], ["rule", "condition"], ["any", ["all", ["text", " (?=[^ ;])", "argument"], ["mark", "arguments", ["all", ["all", ["rule", "expression"], ["rule", "condition"]], ["many", ["all", ["text", ",", "more"], ["all", ["rule", "expression"], ["rule", "condition"]]]]]], ["text", " *(?=;|(?![\\s\\S]))| +", "after"]]]], ["all", ["mark", "command", ["text", "(?:[Ll][Oo][Cc][Kk]|[Ll])(?![A-Za-z])", "command"]], ["rule", "condition"], ["any", ["all", ["text", " (?=[^ ;])", ""], ["mark", "arguments", ["all", ["mark", "lock", ["rule", "locked"]], ["many", ["all", ["text", ",", "more"], ["mark", "lock", ["rule", "locked"]]]]]], ["text", " *(?=;|(?![\\s\\S]))| +", "after"]], ["text", "(?! [^ ;])(?: *(?=;|(?![\\s\\S]))|  +)", "gap"]]], ["all", ["mark", "command", ["text", "(?:[Dd][Oo]|[Dd])(?![A-Za-z])", "command"]], ["rule", "condition"], ["any", ["all", ["text", " (?=[^ ;])", ""], ["mark", "arguments", ["all", ["any", ["all", ["mark", "entry", ["any", ["all", ["text", "\\^", ""], ["text", "[A-Za-z%][A-Za-z0-9]{0,30}(?![A-Za-z0-9])", "name"]], ["all", ["text", "[A-Za-z%][A-Za-z0-9]{0,30}(?![A-Za-z0-9])", "entry"], ["any", ["all", ["text", "\\^", "more"], ["text", "[A-Za-z%][A-Za-z0-9]{0,30}(?![A-Za-z0-9])", "name"]], ["text", "", ""]]]]], ["rule", "condition"]], ["all", ["text", "@", ""], ["inner", "primary"]]], ["many", ["all", ["text", ",", "more"], ["any", ["all", ["mark", "entry", ["any", ["all", ["text", "\\^", ""], ["text", "[A-Za-z%][A-Za-z0-9]{0,30}(?![A-Za-z0-9])", "name"]], ["all", ["text", "[A-Za-z%][A-Za-z0-9]{0,30}(?![A-Za-z0-9])", "entry"], ["any", ["all", ["text", "\\^", "more"], ["text", "[A-Za-z%][A-Za-z0-9]{0,30}(?![A-Za-z0-9])", "name"]], ["text", "", ""]]]]], ["rule", "condition"]], ["all", ["text", "@", ""], ["inner", "primary"]]]]]]], ["text", " *(?=;|(?![\\s\\S]))| +", "after"]], ["text", "(?! [^ ;])(?: *(?=;|(?![\\s\\S]))|  +)", "gap"]]], ["all", ["mark", "command", ["text", "(?:[Gg][Oo][Tt][Oo]|[Gg])(?![A-Za-z])", "command"]], ["rule", "condition"], ["any", ["all", ["text", " (?=[^ ;])", "argument"], ["mark", "arguments", ["all", ["any", ["all", ["mark", "entry", ["any", ["all", ["text", "\\^", ""], ["text", "[A-Za-z%][A-Za-z0-9]{0,30}(?![A-Za-z0-9])", "name"]], ["all", ["text", "[A-Za-z%][A-Za-z0-9]{0,30}(?![A-Za-z0-9])", "entry"], ["any", ["all", ["text", "\\^", "more"], ["text", "[A-Za-z%][A-Za-z0-9]{0,30}(?![A-Za-z0-9])", "name"]], ["text", "", ""]]]]], ["rule", "condition"]], ["all", ["text", "@", ""], ["inner", "primary"]]], ["many", ["all", ["text", ",", "more"], ["any", ["all", ["mark", "entry", ["any", ["all", ["text", "\\^", ""], ["text", "[A-Za-z%][A-Za-z0-9]{0,30}(?![A-Za-z0-9])", "name"]], ["all", ["text", "[A-Za-z%][A-Za-z0-9]{0,30}(?![A-Za-z0-9])", "entry"], ["any", ["all", ["text", "\\^", "more"], ["text", "[A-Za-z%][A-Za-z0-9]{0,30}(?![A-Za-z0-9])", "name"]], ["text", "", ""]]]]], ["rule", "condition"]], ["all", ["text", "@", ""], ["inner", "primary"]]]]]]], ["text", " *(?=;|(?![\\s\\S]))| +", "after"]]]], ["all", ["mark", "command", ["text", "(?:[Qq][Uu][Ii][Tt]|[Qq])(?![A-Za-z])", "command"]], ["rule", "condition"], ["any", ["all", ["text", " (?=[^ ;])", ""], ["text", "(?!)", "gap"]], ["text", "(?! [^ ;])(?: *(?=;|(?![\\s\\S]))|  +)", "gap"]]], ["all", ["mark", "command", ["text", "(?:[Hh][Aa][Ll][Tt]|[Hh])(?![A-Za-z])", "command"]], ["rule", "condition"], ["any", ["all", ["text", " (?=[^ ;])", ""], ["text", "(?!)", "gap"]], ["text", "(?! [^ ;])(?: *(?=;|(?![\\s\\S]))|  +)", "gap"]]]],
  target: ["any", ["all", ["text", "\\$(?:[Pp][Ii][Ee][Cc][Ee]|[Pp])\\(", "target"], ["inner", "variable"], ["text", ",", "comma"], ["inner", "expression"], ["any", ["all", ["text", ",", ""], ["inner", "expression"]], ["text", "", ""]], ["text", "\\)", "close $PIECE of SET"]], ["rule", "variable"]],
  written: ["any", ["text", "!+", ""], ["rule", "expression"]],
  atom: ["all", ["text", "(?:[0-9]{1,4}(?![0-9.])|[0-9]{0,4}\\.[0-9]{0,4}(?![0-9]))", "pattern"], ["text", "[ACELNPUacelnpu]+|\"(?:[^\"]|\"\")*\"(?!\")", "pattern"]],
  variable: ["any", ["all", ["text", "[A-Za-z%][A-Za-z0-9]{0,30}(?![A-Za-z0-9])", "variable"], ["rule", "subscripts"]], ["all", ["text", "\\^(?!\\()", "variable"], ["any", ["all", ["text", "\\|", ""], ["inner", "expression"], ["text", "\\|", "bar"]], ["text", "", ""]], ["text", "[A-Za-z%][A-Za-z0-9]{0,30}(?![A-Za-z0-9])", "name"], ["rule", "subscripts"]], ["all", ["text", "\\^(?=\\()", ""], ["rule", "subscripts"]], ["all", ["text", "@", ""], ["inner", "primary"], ["any", ["all", ["text", "@(?=\\()", ""], ["rule", "subscripts"]], ["text", "", ""]]]],
  subscripts: ["any", ["all", ["text", "\\(", ""], ["all", ["inner", "expression"], ["many", ["all", ["text", ",", "more"], ["inner", "expression"]]]], ["text", "\\)", "close"]], ["text", "", ""]],
  expression: ["all", ["rule", "operand"], ["many", ["any", ["all", ["text", "[+\\-*/\\\\#_=<>&!\\[]|\\]\\]?|'(?:[=<>&!\\[]|\\]\\]?)", "operator"], ["rule", "operand"]], ["all", ["text", "'?\\?", ""], ["rule", "pattern"]]]]],
  pattern: ["rule", "atoms"],
  operand: ["all", ["text", "[+\\-']*", ""], ["rule", "primary"]],
  primary: ["any", ["text", "(?:[0-9]+(?:\\.[0-9]+)?|\\.[0-9]+)(?:E[+-]?[0-9]+)?", "operand"], ["text", "\"(?:[^\"]|\"\")*\"(?!\")", "operand"], ["rule", "variable"], ["all", ["text", "\\(", ""], ["inner", "expression"], ["text", "\\)", "close"]], ["all", ["text", "(?=\\$)", ""], ["rule", "dollar"]]],
  dollar: ["any", ["text", "\\$(?:[Tt][Ee][Ss][Tt]|[Tt])(?![A-Za-z(])", "operand"], ["all", ["text", "\\$(?:[Aa][Ss][Cc][Ii][Ii]|[Aa])\\(", "operand"], ["inner", "expression"], ["any", ["all", ["text", ",", "more"], ["inner", "expression"]], ["text", "", ""]], ["text", "\\)", "close $ASCII"]], ["all", ["text", "\\$(?:[Cc][Hh][Aa][Rr]|[Cc])\\(", "operand"], ["inner", "expression"], ["many", ["all", ["text", ",", "more"], ["inner", "expression"]]], ["text", "\\)", "close $CHAR"]], ["all", ["text", "\\$(?:[Ee][Xx][Tt][Rr][Aa][Cc][Tt]|[Ee])\\(", "operand"], ["inner", "expression"], ["any", ["all", ["text", ",", "more"], ["inner", "expression"], ["any", ["all", ["text", ",", "more"], ["inner", "expression"]], ["text", "", ""]]], ["text", "", ""]], ["text", "\\)", "close $EXTRACT"]], ["all", ["text", "\\$(?:[Ff][Ii][Nn][Dd]|[Ff])\\(", "operand"], ["inner", "expression"], ["all", ["text", ",", "comma"], ["inner", "expression"]], ["any", ["all", ["text", ",", "more"], ["inner", "expression"]], ["text", "", ""]], ["text", "\\)", "close $FIND"]], ["all", ["text", "\\$(?:[Jj][Uu][Ss][Tt][Ii][Ff][Yy]|[Jj])\\(", "operand"], ["inner", "expression"], ["all", ["text", ",", "comma"], ["inner", "expression"]], ["text", "\\)", "close $JUSTIFY"]], ["all", ["text", "\\$(?:[Ll][Ee][Nn][Gg][Tt][Hh]|[Ll])\\(", "operand"], ["inner", "expression"], ["any", ["all", ["text", ",", "more"], ["inner", "expression"]], ["text", "", ""]], ["text", "\\)", "close $LENGTH"]], ["all", ["text", "\\$(?:[Pp][Ii][Ee][Cc][Ee]|[Pp])\\(", "operand"], ["inner", "expression"], ["all", ["text", ",", "comma"], ["inner", "expression"]], ["any", ["all", ["text", ",", "more"], ["inner", "expression"], ["any", ["all", ["text", ",", "more"], ["inner", "expression"]], ["text", "", ""]]], ["text", "", ""]], ["text", "\\)", "close $PIECE"]], ["all", ["text", "\\$(?:[Tt][Rr][Aa][Nn][Ss][Ll][Aa][Tt][Ee]|[Tt][Rr])\\(", "operand"], ["inner", "expression"], ["all", ["text", ",", "comma"], ["inner", "expression"]], ["any", ["all", ["text", ",", "more"], ["inner", "expression"]], ["text", "", ""]], ["text", "\\)", "close $TRANSLATE"]], ["all", ["text", "\\$(?:[Dd][Aa][Tt][Aa]|[Dd])\\(", "operand"], ["inner", "variable"], ["text", "\\)", "close $DATA"]], ["all", ["text", "\\$(?:[Gg][Ee][Tt]|[Gg])\\(", "operand"], ["inner", "variable"], ["any", ["all", ["text", ",", "more"], ["inner", "expression"]], ["text", "", ""]], ["text", "\\)", "close $GET"]], ["all", ["text", "\\$(?:[Oo][Rr][Dd][Ee][Rr]|[Oo])\\(", "operand"], ["inner", "variable"], ["any", ["all", ["text", ",", "more"], ["inner", "expression"]], ["text", "", ""]], ["text", "\\)", "close $ORDER"]], ["all", ["text", "\\$(?:[Ss][Ee][Ll][Ee][Cc][Tt]|[Ss])\\(", "operand"], ["all", ["all", ["inner", "expression"], ["text", ":", "colon"], ["inner", "expression"]], ["many", ["all", ["text", ",", "more"], ["all", ["inner", "expression"], ["text", ":", "colon"], ["inner", "expression"]]]]], ["text", "\\)", "close $SELECT"]]],
};

/** The rules of each later language that are others. */
export const LATER_RULES = {
  1: {
    actual: ["any", ["all", ["text", "\\.(?![0-9])", ""], ["any", ["text", "[A-Za-z%][A-Za-z0-9]{0,30}(?![A-Za-z0-9])", "name"], ["all", ["text", "@", ""], ["inner", "primary"]]]], ["rule", "expression"], ["text", "(?=[,)])", ""]],
    command: ["any", ["all", ["mark", "command", ["text", "(?:[Ss][Ee][Tt]|[Ss])(?![A-Za-z])", "command"]], ["rule", "condition"], ["any", ["all", ["text", " (?=[^ ;])", "argument"], ["mark", "arguments", ["all", ["rule", "assignment"], ["many", ["all", ["text", ",", "more"], ["rule", "assignment"]]]]], ["text", " *(?=;|(?![\\s\\S]))| +", "after"]]]], ["all", ["mark", "command", ["text", "(?:[Ww][Rr][Ii][Tt][Ee]|[Ww])(?![A-Za-z])", "command"]], ["rule", "condition"], ["any", ["all", ["text", " (?=[^ ;])", "argument"], ["mark", "arguments", ["all", ["rule", "written"], ["many", ["all", ["text", ",", "more"], ["rule", "written"]]]]], ["text", " *(?=;|(?![\\s\\S]))| +", "after"]]]], ["all", ["mark", "command", ["text", "(?:[Ii][Ff]|[Ii])(?![A-Za-z])", "command"]], ["any", ["all", ["text", " (?=[^ ;])", ""], ["mark", "arguments", ["all", ["rule", "expression"], ["many", ["all", ["text", ",", "more"], ["rule", "expression"]]]]], ["text", " *(?=;|(?![\\s\\S]))| +", "after"]], ["text", "(?! [^ ;])(?: *(?=;|(?![\\s\\S]))|  +)", "gap"]]], ["all", ["mark", "command", ["text", "(?:[Ff][Oo][Rr]|[Ff])(?![A-Za-z])", "command"]], ["any", ["all", ["text", " (?=[^ ;])", ""], ["mark", "arguments", ["all", ["text", "[A-Za-z%][A-Za-z0-9]{0,30}(?![A-Za-z0-9])", "name"], ["text", "=", "equals"], ["all", ["rule", "parameter"], ["many", ["all", ["text", ",", "more"], ["rule", "parameter"]]]]]], ["text", " *(?=;|(?![\\s\\S]))| +", "after"]], ["text", "(?! [^ ;])(?: *(?=;|(?![\\s\\S]))|  +)", "gap"]]], ["all", ["mark", "command", ["text", "(?:[Kk][Ii][Ll][Ll]|[Kk])(?![A-Za-z])", "command"]], ["rule", "condition"], ["any", ["all", ["text", " (?=[^ ;])", ""], ["mark", "arguments", ["all", ["any", ["all", ["text", "\\(", ""], ["all", ["text", "[A-Za-z%][A-Za-z0-9]{0,30}(?![A-Za-z0-9])", "name"], ["many", ["all", ["text", ",", "more"], ["text", "[A-Za-z%][A-Za-z0-9]{0,30}(?![A-Za-z0-9])", "name"]]]], ["text", "\\)", "close"]], ["rule", "variable"]], ["many", ["all", ["text", ",", "more"], ["any", ["all", ["text", "\\(", ""], ["all", ["text", "[A-Za-z%][A-Za-z0-9]{0,30}(?![A-Za-z0-9])", "name"], ["many", ["all", ["text", ",", "more"], ["text", "[A-Za-z%][A-Za-z0-9]{0,30}(?![A-Za-z0-9])", "name"]]]], ["text", "\\)", "close"]], ["rule", "variable"]]]]]], ["text", " *(?=;|(?![\\s\\S]))| +", "after"]], ["text", "(?! [^ ;])(?: *(?=;|(?![\\s\\S]))|  +)", "gap"]]], ["all", ["mark", "command", ["text", "(?:[Nn][Ee][Ww]|[Nn])(?![A-Za-z])", "command"]], ["rule", "condition"], ["any", ["all", ["text", " (?=[^ ;])", ""], ["mark", "arguments", ["all", ["any", ["all", ["text", "\\(", ""], ["all", ["text", "[A-Za-z%][A-Za-z0-9]{0,30}(?![A-Za-z0-9])", "name"], ["many", ["all", ["text", ",", "more"], ["text", "[A-Za-z%][A-Za-z0-9]{0,30}(?![A-Za-z0-9])", "name"]]]], ["text", "\\)", "close"]], ["text", "[A-Za-z%][A-Za-z0-9]{0,30}(?![A-Za-z0-9])", "name"], ["all", ["text", "@", ""], ["inner", "primary"]]], ["many", ["all", ["text", ",", "more"], ["any", ["all", ["text", "\\(", ""], ["all", ["text", "[A-Za-z%][A-Za-z0-9]{0,30}(?![A-Za-z0-9])", "name"], ["many", ["all", ["text", ",", "more"], ["text", "[A-Za-z%][A-Za-z0-9]{0,30}(?![A-Za-z0-9])", "name"]]]], ["text", "\\)", "close"]], ["text", "[A-Za-z%][A-Za-z0-9]{0,30}(?![A-Za-z0-9])", "name"], ["all", ["text", "@", ""], ["inner", "primary"]]]]]]], ["text", " *(?=;|(?![\\s\\S]))| +", "after"]], ["text", "(?! [^ ;])(?: *(?=;|(?![\\s\\S]))|  +)", "gap"]]], ["all", ["mark", "command", ["text", "(?:[Ee][Ll][Ss][Ee]|[Ee])(?![A-Za-z])", "command"]], ["any", ["all", ["text", " (?=[^ ;])", ""], ["text", "(?!)", "gap"]], ["text", "(?! [^ ;])(?: *(?=;|(?![\\s\\S]))|  +)", "gap"]]], ["all", ["mark", "command", ["text", "(?:[Xx][Ee][Cc][Uu][Tt][Ee]|[Xx])(?![A-Za-z])", "command"]], ["rule", "condition"], ["any", ["all", ["text", " (?=[^ ;])", "argument"], ["mark", "arguments", ["all", ["all", ["rule", "expression"], ["rule", "condition"]], ["many", ["all", ["text", ",", "more"], ["all", ["rule", "expression"], ["rule", "condition"]]]]]], ["text", " *(?=;|(?![\\s\\S]))| +", "after"]]]], ["all", ["mark", "command", ["text", "(?:[Ll][Oo][Cc][Kk]|[Ll])(?![A-Za-z])", "command"]], ["rule", "condition"], ["any", ["all", ["text", " (?=[^ ;])", ""], ["mark", "arguments", ["all", ["mark", "lock", ["rule", "locked"]], ["many", ["all", ["text", ",", "more"], ["mark", "lock", ["rule", "locked"]]]]]], ["text", " *(?=;|(?![\\s\\S]))| +", "after"]], ["text", "(?! [^ ;])(?: *(?=;|(?![\\s\\S]))|  +)", "gap"]]], ["all", ["mark", "command", ["text", "(?:[Mm][Ee][Rr][Gg][Ee]|[Mm])(?![A-Za-z])", "command"]], ["rule", "condition"], ["any", ["all", ["text", " (?=[^ ;])", "argument"], ["mark", "arguments", ["all", ["any", ["all", ["rule", "variable"], ["text", "=", "equals"], ["rule", "variable"]], ["all", ["all", ["text", "@", ""], ["inner", "primary"]], ["text", "(?=[ ,;]|(?![\\s\\S]))", ""]]], ["many", ["all", ["text", ",", "more"], ["any", ["all", ["rule", "variable"], ["text", "=", "equals"], ["rule", "variable"]], ["all", ["all", ["text", "@", ""], ["inner", "primary"]], ["text", "(?=[ ,;]|(?![\\s\\S]))", ""]]]]]]], ["text", " *(?=;|(?![\\s\\S]))| +", "after"]]]], ["all", ["mark", "command", ["text", "(?:[Dd][Oo]|[Dd])(?![A-Za-z])", "command"]], ["rule", "condition"], ["any", ["all", ["text", " (?=[^ ;])", ""], ["mark", "arguments", ["all", ["any", ["all", ["mark", "entry", ["any", ["all", ["text", "\\^", ""], ["any", ["all", ["text", "\\|\"(?:[^\"]|\"\")*\"\\|", ""], ["text", "[A-Za-z%][A-Za-z0-9]{0,30}(?![A-Za-z0-9])", "name"]], ["text", "[A-Za-z%][A-Za-z0-9]{0,30}(?![A-Za-z0-9])", "name"]]], ["all", ["text", "[A-Za-z%][A-Za-z0-9]{0,30}(?![A-Za-z0-9])", "entry"], ["any", ["all", ["text", "\\^", "more"], ["any", ["all", ["text", "\\|\"(?:[^\"]|\"\")*\"\\|", ""], ["text", "[A-Za-z%][A-Za-z0-9]{0,30}(?![A-Za-z0-9])", "name"]], ["text", "[A-Za-z%][A-Za-z0-9]{0,30}(?![A-Za-z0-9])", "name"]]], ["text", "", ""]]]]], ["any", ["all", ["text", "\\(", ""], ["all", ["inner", "actual"], ["many", ["all", ["text", ",", "more"], ["inner", "actual"]]]], ["text", "\\)", "close"]], ["text", "", ""]], ["rule", "condition"]], ["all", ["text", "@", ""], ["inner", "primary"]]], ["many", ["all", ["text", ",", "more"], ["any", ["all", ["mark", "entry", ["any", ["all", ["text", "\\^", ""], ["any", ["all", ["text", "\\|\"(?:[^\"]|\"\")*\"\\|", ""], ["text", "[A-Za-z%][A-Za-z0-9]{0,30}(?![A-Za-z0-9])", "name"]], ["text", "[A-Za-z%][A-Za-z0-9]{0,30}(?![A-Za-z0-9])", "name"]]], ["all", ["text", "[A-Za-z%][A-Za-z0-9]{0,30}(?![A-Za-z0-9])", "entry"], ["any", ["all", ["text", "\\^", "more"], ["any", ["all", ["text", "\\|\"(?:[^\"]|\"\")*\"\\|", ""], ["text", "[A-Za-z%][A-Za-z0-9]{0,30}(?![A-Za-z0-9])", "name"]], ["text", "[A-Za-z%][A-Za-z0-9]{0,30}(?![A-Za-z0-9])", "name"]]], ["text", "", ""]]]]], ["any", ["all", ["text", "\\(", ""], ["all", ["inner", "actual"], ["many", ["all", ["text", ",", "more"], ["inner", "actual"]]]], ["text", "\\)", "close"]], ["text", "", ""]], ["rule", "condition"]], ["all", ["text", "@", ""], ["inner", "primary"]]]]]]], ["text", " *(?=;|(?![\\s\\S]))| +", "after"]], ["text", "(?! [^ ;])(?: *(?=;|(?![\\s\\S]))|  +)", "gap"]]], ["all", ["mark", "command", ["text", "(?:[Gg][Oo][Tt][Oo]|[Gg])(?![A-Za-z])", "command"]], ["rule", "condition"], ["any", ["all", ["text", " (?=[^ ;])", "argument"], ["mark", "arguments", ["all", ["any", ["all", ["mark", "entry", ["any", ["all", ["text", "\\^", ""], ["any", ["all", ["text", "\\|\"(?:[^\"]|\"\")*\"\\|", ""], ["text", "[A-Za-z%][A-Za-z0-9]{0,30}(?![A-Za-z0-9])", "name"]], ["text", "[A-Za-z%][A-Za-z0-9]{0,30}(?![A-Za-z0-9])", "name"]]], ["all", ["text", "[A-Za-z%][A-Za-z0-9]{0,30}(?![A-Za-z0-9])", "entry"], ["any", ["all", ["text", "\\^", "more"], ["any", ["all", ["text", "\\|\"(?:[^\"]|\"\")*\"\\|", ""], ["text", "[A-Za-z%][A-Za-z0-9]{0,30}(?![A-Za-z0-9])", "name"]], ["text", "[A-Za-z%][A-Za-z0-9]{0,30}(?![A-Za-z0-9])", "name"]]], ["text", "", ""]]]]], ["rule", "condition"]], ["all", ["text", "@", ""], ["inner", "primary"]]], ["many", ["all", ["text", ",", "more"], ["any", ["all", ["mark", "entry", ["any", ["all", ["text", "\\^", ""], ["any", ["all", ["text", "\\|\"(?:[^\"]|\"\")*\"\\|", ""], ["text", "[A-Za-z%][A-Za-z0-9]{0,30}(?![A-Za-z0-9])", "name"]], ["text", "[A-Za-z%][A-Za-z0-9]{0,30}(?![A-Za-z0-9])", "name"]]], ["all", ["text", "[A-Za-z%][A-Za-z0-9]{0,30}(?![A-Za-z0-9])", "entry"], ["any", ["all", ["text", "\\^", "more"], ["any", ["all", ["text", "\\|\"(?:[^\"]|\"\")*\"\\|", ""], ["text", "[A-Za-z%][A-Za-z0-9]{0,30}(?![A-Za-z0-9])", "name"]], ["text", "[A-Za-z%][A-Za-z0-9]{0,30}(?![A-Za-z0-9])", "name"]]], ["text", "", ""]]]]], ["rule", "condition"]], ["all", ["text", "@", ""], ["inner", "primary"]]]]]]], ["text", " *(?=;|(?![\\s\\S]))| +", "after"]]]], ["all", ["mark", "command", ["text", "(?:[Qq][Uu][Ii][Tt]|[Qq])(?![A-Za-z])", "command"]], ["rule", "condition"], ["any", ["all", ["text", " (?=[^ ;])", ""], ["mark", "arguments", ["rule", "expression"]], ["text", " *(?=;|(?![\\s\\S]))| +", "after"]], ["text", "(?! [^ ;])(?: *(?=;|(?![\\s\\S]))|  +)", "gap"]]], ["all", ["mark", "command", ["text", "(?:[Hh])(?![A-Za-z])", "command"]], ["rule", "condition"], ["any", ["all", ["text", " (?=[^ ;])", ""], ["mark", "arguments", ["all", ["rule", "expression"], ["many", ["all", ["text", ",", "more"], ["rule", "expression"]]]]], ["text", " *(?=;|(?![\\s\\S]))| +", "after"]], ["text", "(?! [^ ;])(?: *(?=;|(?![\\s\\S]))|  +)", "gap"]]], ["all", ["mark", "command", ["text", "(?:[Hh][Aa][Ll][Tt])(?![A-Za-z])", "command"]], ["rule", "condition"], ["any", ["all", ["text", " (?=[^ ;])", ""], ["text", "(?!)", "gap"]], ["text", "(?! [^ ;])(?: *(?=;|(?![\\s\\S]))|  +)", "gap"]]], ["all", ["mark", "command", ["text", "(?:[Hh][Aa][Nn][Gg])(?![A-Za-z])", "command"]], ["rule", "condition"], ["any", ["all", ["text", " (?=[^ ;])", "argument"], ["mark", "arguments", ["all", ["rule", "expression"], ["many", ["all", ["text", ",", "more"], ["rule", "expression"]]]]], ["text", " *(?=;|(?![\\s\\S]))| +", "after"]]]]],
    target: ["any", ["all", ["text", "\\$(?:[Pp][Ii][Ee][Cc][Ee]|[Pp])\\(", "target"], ["inner", "variable"], ["text", ",", "comma"], ["inner", "expression"], ["any", ["all", ["text", ",", ""], ["inner", "expression"], ["any", ["all", ["text", ",", ""], ["inner", "expression"]], ["text", "", ""]]], ["text", "", ""]], ["text", "\\)", "close $PIECE of SET"]], ["all", ["text", "\\$(?:[Ee][Xx][Tt][Rr][Aa][Cc][Tt]|[Ee])\\(", "target"], ["inner", "variable"], ["any", ["all", ["text", ",", ""], ["inner", "expression"], ["any", ["all", ["text", ",", ""], ["inner", "expression"]], ["text", "", ""]]], ["text", "", ""]], ["text", "\\)", "close $EXTRACT of SET"]], ["rule", "variable"]],
    written: ["any", ["all", ["text", "[!#]+", ""], ["any", ["all", ["text", "\\?", ""], ["rule", "expression"]], ["text", "", ""]]], ["all", ["text", "\\?", ""], ["rule", "expression"]], ["all", ["text", "\\*", ""], ["rule", "expression"]], ["rule", "expression"]],
    atom: ["all", ["text", "(?:[0-9]{1,4}(?![0-9.])|[0-9]{0,4}\\.[0-9]{0,4}(?![0-9]))", "pattern"], ["any", ["text", "[ACELNPUacelnpu]+|\"(?:[^\"]|\"\")*\"(?!\")", "pattern"], ["all", ["text", "\\(", ""], ["all", ["inner", "atoms"], ["many", ["all", ["text", ",", "more"], ["inner", "atoms"]]]], ["text", "\\)", "close"]]]],
    expression: ["all", ["rule", "operand"], ["many", ["any", ["all", ["text", "\\*\\*|[+\\-*/\\\\#_=<>&!\\[]|\\]\\]?|'(?:[=<>&!\\[]|\\]\\]?)", "operator"], ["rule", "operand"]], ["all", ["text", "'?\\?", ""], ["rule", "pattern"]]]]],
    pattern: ["any", ["all", ["text", "@", ""], ["inner", "primary"]], ["rule", "atoms"]],
    dollar: ["any", ["text", "\\$(?:[Tt][Ee][Ss][Tt]|[Tt])(?![A-Za-z(])", "operand"], ["text", "\\$(?:[Ii][Oo]|[Ii])(?![A-Za-z(])", "operand"], ["text", "\\$(?:[Jj][Oo][Bb]|[Jj])(?![A-Za-z(])", "operand"], ["text", "\\$(?:[Pp][Rr][Ii][Nn][Cc][Ii][Pp][Aa][Ll]|[Pp])(?![A-Za-z(])", "operand"], ["text", "\\$(?:[Qq][Uu][Ii][Tt]|[Qq])(?![A-Za-z(])", "operand"], ["text", "\\$(?:[Ss][Tt][Oo][Rr][Aa][Gg][Ee]|[Ss])(?![A-Za-z(])", "operand"], ["text", "\\$(?:[Xx])(?![A-Za-z(])", "operand"], ["text", "\\$(?:[Yy])(?![A-Za-z(])", "operand"], ["all", ["text", "\\$(?:[Aa][Ss][Cc][Ii][Ii]|[Aa])\\(", "operand"], ["inner", "expression"], ["any", ["all", ["text", ",", "more"], ["inner", "expression"]], ["text", "", ""]], ["text", "\\)", "close $ASCII"]], ["all", ["text", "\\$(?:[Cc][Hh][Aa][Rr]|[Cc])\\(", "operand"], ["inner", "expression"], ["many", ["all", ["text", ",", "more"], ["inner", "expression"]]], ["text", "\\)", "close $CHAR"]], ["all", ["text", "\\$(?:[Ee][Xx][Tt][Rr][Aa][Cc][Tt]|[Ee])\\(", "operand"], ["inner", "expression"], ["any", ["all", ["text", ",", "more"], ["inner", "expression"], ["any", ["all", ["text", ",", "more"], ["inner", "expression"]], ["text", "", ""]]], ["text", "", ""]], ["text", "\\)", "close $EXTRACT"]], ["all", ["text", "\\$(?:[Ff][Ii][Nn][Dd]|[Ff])\\(", "operand"], ["inner", "expression"], ["all", ["text", ",", "comma"], ["inner", "expression"]], ["any", ["all", ["text", ",", "more"], ["inner", "expression"]], ["text", "", ""]], ["text", "\\)", "close $FIND"]], ["all", ["text", "\\$(?:[Jj][Uu][Ss][Tt][Ii][Ff][Yy]|[Jj])\\(", "operand"], ["inner", "expression"], ["all", ["text", ",", "comma"], ["inner", "expression"]], ["any", ["all", ["text", ",", "more"], ["inner", "expression"]], ["text", "", ""]], ["text", "\\)", "close $JUSTIFY"]], ["all", ["text", "\\$(?:[Ll][Ee][Nn][Gg][Tt][Hh]|[Ll])\\(", "operand"], ["inner", "expression"], ["any", ["all", ["text", ",", "more"], ["inner", "expression"]], ["text", "", ""]], ["text", "\\)", "close $LENGTH"]], ["all", ["text", "\\$(?:[Pp][Ii][Ee][Cc][Ee]|[Pp])\\(", "operand"], ["inner", "expression"], ["all", ["text", ",", "comma"], ["inner", "expression"]], ["any", ["all", ["text", ",", "more"], ["inner", "expression"], ["any", ["all", ["text", ",", "more"], ["inner", "expression"]], ["text", "", ""]]], ["text", "", ""]], ["text", "\\)", "close $PIECE"]], ["all", ["text", "\\$(?:[Tt][Rr][Aa][Nn][Ss][Ll][Aa][Tt][Ee]|[Tt][Rr])\\(", "operand"], ["inner", "expression"], ["all", ["text", ",", "comma"], ["inner", "expression"]], ["any", ["all", ["text", ",", "more"], ["inner", "expression"]], ["text", "", ""]], ["text", "\\)", "close $TRANSLATE"]], ["all", ["text", "\\$(?:[Ff][Nn][Uu][Mm][Bb][Ee][Rr]|[Ff][Nn])\\(", "operand"], ["inner", "expression"], ["all", ["text", ",", "comma"], ["inner", "expression"]], ["any", ["all", ["text", ",", "more"], ["inner", "expression"]], ["text", "", ""]], ["text", "\\)", "close $FNUMBER"]], ["all", ["text", "\\$(?:[Qq][Ll][Ee][Nn][Gg][Tt][Hh]|[Qq][Ll])\\(", "operand"], ["inner", "expression"], ["text", "\\)", "close $QLENGTH"]], ["all", ["text", "\\$(?:[Qq][Ss][Uu][Bb][Ss][Cc][Rr][Ii][Pp][Tt]|[Qq][Ss])\\(", "operand"], ["inner", "expression"], ["all", ["text", ",", "comma"], ["inner", "expression"]], ["text", "\\)", "close $QSUBSCRIPT"]], ["all", ["text", "\\$(?:[Rr][Ee][Vv][Ee][Rr][Ss][Ee]|[Rr][Ee])\\(", "operand"], ["inner", "expression"], ["text", "\\)", "close $REVERSE"]], ["all", ["text", "\\$(?:[Dd][Aa][Tt][Aa]|[Dd])\\(", "operand"], ["inner", "variable"], ["text", "\\)", "close $DATA"]], ["all", ["text", "\\$(?:[Gg][Ee][Tt]|[Gg])\\(", "operand"], ["inner", "variable"], ["any", ["all", ["text", ",", "more"], ["inner", "expression"]], ["text", "", ""]], ["text", "\\)", "close $GET"]], ["all", ["text", "\\$(?:[Oo][Rr][Dd][Ee][Rr]|[Oo])\\(", "operand"], ["inner", "variable"], ["any", ["all", ["text", ",", "more"], ["inner", "expression"]], ["text", "", ""]], ["text", "\\)", "close $ORDER"]], ["all", ["text", "\\$(?:[Ii][Nn][Cc][Rr][Ee][Mm][Ee][Nn][Tt]|[Ii])\\(", "operand"], ["inner", "variable"], ["any", ["all", ["text", ",", "more"], ["inner", "expression"]], ["text", "", ""]], ["text", "\\)", "close $INCREMENT"]], ["all", ["text", "\\$(?:[Nn][Aa][Mm][Ee]|[Nn][Aa])\\(", "operand"], ["inner", "variable"], ["any", ["all", ["text", ",", "more"], ["inner", "expression"]], ["text", "", ""]], ["text", "\\)", "close $NAME"]], ["all", ["text", "\\$(?:[Qq][Uu][Ee][Rr][Yy]|[Qq])\\(", "operand"], ["inner", "variable"], ["any", ["all", ["text", ",", "more"], ["inner", "expression"]], ["text", "", ""]], ["text", "\\)", "close $QUERY"]], ["all", ["text", "\\$(?:[Ss][Ee][Ll][Ee][Cc][Tt]|[Ss])\\(", "operand"], ["all", ["all", ["inner", "expression"], ["text", ":", "colon"], ["inner", "expression"]], ["many", ["all", ["text", ",", "more"], ["all", ["inner", "expression"], ["text", ":", "colon"], ["inner", "expression"]]]]], ["text", "\\)", "close $SELECT"]], ["all", ["text", "\\$\\$", "operand"], ["mark", "entry", ["any", ["all", ["text", "\\^", ""], ["any", ["all", ["text", "\\|\"(?:[^\"]|\"\")*\"\\|", ""], ["text", "[A-Za-z%][A-Za-z0-9]{0,30}(?![A-Za-z0-9])", "name"]], ["text", "[A-Za-z%][A-Za-z0-9]{0,30}(?![A-Za-z0-9])", "name"]]], ["all", ["text", "[A-Za-z%][A-Za-z0-9]{0,30}(?![A-Za-z0-9])", "entry"], ["any", ["all", ["text", "\\^", "more"], ["any", ["all", ["text", "\\|\"(?:[^\"]|\"\")*\"\\|", ""], ["text", "[A-Za-z%][A-Za-z0-9]{0,30}(?![A-Za-z0-9])", "name"]], ["text", "[A-Za-z%][A-Za-z0-9]{0,30}(?![A-Za-z0-9])", "name"]]], ["text", "", ""]]]]], ["any", ["all", ["text", "\\(", ""], ["all", ["inner", "actual"], ["many", ["all", ["text", ",", "more"], ["inner", "actual"]]]], ["text", "\\)", "close"]], ["text", "", ""]]]],
  },
};

/** A line that a language takes, and none before it. */
export const NEW_LINES = {
  1: "W $RE(1)"
};

/** How many brackets and operands of @ may be open at a place. */
export const DEPTH = 40;

/** Why a line is not in the language: how that is known, its name, and what to write instead. The first that fits counts. */
export const CAUSES = [
  {"name": "a tab", "advice": "Write a space: a tab is one in a routine's file alone, which the loader turns into a space.", "here": "\\t"},
  {"name": "a SET without its word", "advice": "Write S before it: S A=1.", "wanted": "command", "here": "\\^?[A-Z%][A-Z0-9]*(?:\\(\\S*\\))?="},
  {"name": "two spaces follow a command without arguments", "advice": "Write a second space, if another command comes after it.", "here": "\\S", "command": "(?:D|DO|K|KILL|N|NEW|L|LOCK)(?::\\S+)? [A-Z]+ ", "reads": "argument"},
  {"name": "two spaces follow a command without arguments", "advice": "Write a second space, if another command comes after it.", "wanted": "command", "here": "\\S", "command": "(?:Q|QUIT)(?::\\S+)? [A-Z]+ ", "reads": "argument"},
  {"name": "READ", "advice": "Nothing is asked for: the caller sets the variable before it runs the line: S NAME=\"Ada\" D ADD.", "wanted": "command", "here": "(?:R|READ)(?![A-Za-z])"},
  {"name": "a command of devices", "advice": "There are no devices: WRITE goes into the reply, and files are the client's: mroutine, mglobal.", "wanted": "command", "here": "(?:O|OPEN|U|USE|C|CLOSE)(?![A-Za-z])"},
  {"name": "JOB", "advice": "Lines run one after the other: send the line from another terminal.", "wanted": "command", "here": "(?:J|JOB)(?![A-Za-z])"},
  {"name": "HANG, which needs language 1 of the account's settings", "advice": "Without it: leave it out, and wait in the client; nothing waits in the server.", "wanted": "command", "here": "(?:HANG)(?![A-Za-z])", "since": 1},
  {"name": "HANG, which needs language 1 of the account's settings", "advice": "Without it: leave it out, and wait in the client; nothing waits in the server.", "wanted": "gap", "here": "\\S", "before": " ", "command": "H(?::\\S+)? ", "since": 1},
  {"name": "BREAK or VIEW", "advice": "Leave it out: there is no debugger, and no view of memory.", "wanted": "command", "here": "(?:B|BREAK|V|VIEW)(?![A-Za-z])"},
  {"name": "MERGE, which needs language 1 of the account's settings", "advice": "Without it: copy by a loop of $ORDER and SET, or by mglobal export and import.", "wanted": "command", "here": "(?:M|MERGE)(?![A-Za-z])", "since": 1},
  {"name": "a transaction", "advice": "Lines run one at a time, so nothing comes between; a line that fails keeps what it did: check first, then SET.", "wanted": "command", "here": "(?:TS|TSTART|TC|TCOMMIT|TRO|TROLLBACK|TRE|TRESTART)(?![A-Za-z])"},
  {"name": "a Z command", "advice": "It is another system's own: mroutine loads and saves routines, mglobal shows globals.", "wanted": "command", "here": "(?:Z[A-Z]*)(?![A-Za-z])"},
  {"name": "a comment that is not ;", "advice": "Comments begin with ;.", "wanted": "command", "here": "//|/\\*|#;"},
  {"name": "a block in braces", "advice": "Use DO without arguments and lines with one dot more.", "wanted": "command", "here": "[{}]"},
  {"name": "a space beside an operator", "advice": "No space stands within an argument: W 1+2.", "wanted": "command", "here": "[-+*/\\\\#_=<>&!'?\\[\\]]", "before": "\\S +", "back": 1},
  {"name": "a value without a command", "advice": "A line begins with a command: W 1+2 shows a value.", "wanted": "command", "here": "[\\\"(0-9.$^@%+'-]", "before": "^ *"},
  {"name": "two expressions need a comma, or two commands one space", "advice": "", "wanted": "command", "here": "[^A-Za-z;]", "before": "\\S ", "back": 1},
  {"name": "no command has this name", "advice": "SET, KILL, NEW, IF, ELSE, FOR, QUIT, WRITE, DO, GOTO, XECUTE, LOCK and HALT are there, whole or by their first letter, and HANG and MERGE at language 1; two expressions need a comma between.", "wanted": "command", "here": "[A-Z]+"},
  {"name": "no command begins here", "advice": "A command is a word, as SET or S; between two commands stands one space.", "wanted": "command", "here": "\\S"},
  {"name": "several values of QUIT", "advice": "At language 1 it takes one: set variables before: S A=1,B=2 Q.", "here": "[A-Z0-9]*,", "before": "(?:Q|QUIT)(?::\\S+)? [^()]*", "command": "(?:Q|QUIT)(?::\\S+)? "},
  {"name": "QUIT with a value, which needs language 1 of the account's settings", "advice": "Without it: SET a variable, then QUIT: S RESULT=X Q. The caller reads RESULT.", "wanted": "gap", "here": "[A-Z]+ *(?:;|(?![\\s\\S]))", "before": " ", "command": "(?:Q|QUIT)(?::\\S+)? ", "since": 1},
  {"name": "two spaces follow a command without arguments", "advice": "Write a second space, if another command comes after it.", "wanted": "gap", "before": " ", "reads": "here", "back": 1},
  {"name": "QUIT with a value, which needs language 1 of the account's settings", "advice": "Without it: SET a variable, then QUIT: S RESULT=X Q. The caller reads RESULT.", "wanted": "gap", "here": "\\S", "before": " ", "command": "(?:Q|QUIT)(?::\\S+)? ", "since": 1},
  {"name": "a condition on IF, ELSE or FOR", "advice": "Put the condition into the IF, or on the commands after it.", "here": ":", "command": "(?:I|IF|E|ELSE|F|FOR):"},
  {"name": "an argument where none is taken", "advice": "Two spaces follow, if another command comes after it.", "wanted": "gap", "here": "\\S", "before": " "},
  {"name": "one space stands before an argument, and not more", "advice": "Write one space: W 1.", "wanted": "argument", "here": " +[^ ;]"},
  {"name": "an argument is missing", "advice": "SET, WRITE, GOTO, XECUTE, MERGE and HANG do nothing without one.", "wanted": "argument", "here": " *(?:;|(?![\\s\\S]))"},
  {"name": "no space after the command's word", "advice": "One space stands between the word and its argument.", "wanted": "argument", "here": "\\S"},
  {"name": "no space after the command's word", "advice": "One space stands between the word and its argument; two follow a command without arguments.", "wanted": "gap", "here": "\\S"},
  {"name": "an offset from a label", "advice": "Give that line a label of its own.", "here": "\\+", "command": "(?:D|DO|G|GOTO)(?::\\S+)? "},
  {"name": "parameters, which needs language 1 of the account's settings", "advice": "Without it: SET variables before the DO, and NEW them in the caller: N A,B S A=1,B=2 D ADD^R.", "here": "\\(", "before": "[A-Z0-9%]", "command": "(?:D|DO)(?::\\S+)? ", "since": 1},
  {"name": "parameters of GOTO", "advice": "SET variables before it; at language 1 DO takes them: D ADD^R(1,2) Q.", "here": "\\(", "before": "[A-Z0-9%]", "command": "(?:G|GOTO)(?::\\S+)? "},
  {"name": "indirection of a label or a routine alone", "advice": "Put the whole entry into the text: S E=\"A^R\" D @E.", "wanted": "name", "here": "@", "before": "\\^(?:\\|\\S*)?", "command": "(?:D|DO|G|GOTO)(?::\\S+)? "},
  {"name": "indirection of a label or a routine alone", "advice": "Put the whole entry into the text: S E=\"A^R\" D @E.", "here": "\\^", "before": "@\\S+", "command": "(?:D|DO|G|GOTO)(?::\\S+)? "},
  {"name": "a condition after an @ alone", "advice": "Put it on the command: D:X @A.", "here": ":", "before": "@\\S+", "command": "(?:D|DO|G|GOTO)(?::\\S+)? "},
  {"name": "a label of digits", "advice": "Labels begin with a letter or %.", "wanted": "entry", "here": "[0-9]", "command": "(?:D|DO|G|GOTO)(?::\\S+)? "},
  {"name": "an account that is no string between two |", "advice": "Before a routine stands ^|\"LIB\"|; if a variable has the name: S E=\"A^|\"\"\"_X_\"\"\"|R\" D @E.", "wanted": "name", "here": "\\|(?!\"\\.*\"\\|)|\"", "before": "\\^", "command": "(?:D|DO|G|GOTO)(?::\\S+)? "},
  {"name": "a routine of another account, which needs language 1 of the account's settings", "advice": "Without it: load it into this account: D A^R is one's own.", "wanted": "name", "here": "\\|", "command": "(?:D|DO|G|GOTO)(?::\\S+)? ", "since": 1},
  {"name": "no label or routine", "advice": "DO, GOTO and $$ want a label, a label with its routine, or a routine: D ADD, D ADD^R, D ^R.", "wanted": "entry"},
  {"name": "NEW of a special variable", "advice": "Leave it out: there are no $ETRAP, $ESTACK and the like; a line ends at its first code.", "wanted": "name", "here": "\\$", "command": "(?:N|NEW)(?::\\S+)? "},
  {"name": "NEW of a node or a global", "advice": "NEW hides local variables by their names: N A,B.", "here": "[(^]", "command": "(?:N|NEW)(?::\\S+)? "},
  {"name": "WRITE #, which needs language 1 of the account's settings", "advice": "Without it: leave it out, or write W $C(12).", "here": "#", "before": "[ ,!]", "command": "(?:W|WRITE)(?::\\S+)? ", "since": 1},
  {"name": "WRITE ?n, which needs language 1 of the account's settings", "advice": "Without it: fill up by $JUSTIFY, which sets to the right: W $J(X,20); to the left: W X,$J(\"\",20-$L(X)).", "here": "\\?", "before": "[ ,!]", "command": "(?:W|WRITE)(?::\\S+)? ", "since": 1},
  {"name": "WRITE *n, which needs language 1 of the account's settings", "advice": "Without it: W $C(65).", "wanted": "operand", "here": "\\*", "before": "[ ,]", "command": "(?:W|WRITE)(?::\\S+)? ", "since": 1},
  {"name": "no comma after !", "advice": "Write W !,A: a comma stands between two arguments.", "here": "[^ ]", "before": "!", "command": "(?:W|WRITE)(?::\\S+)? (?:\\S*,)?!"},
  {"name": "SET $EXTRACT, which needs language 1 of the account's settings", "advice": "Without it: put the text together: S X=$E(X,1,2)_\"new\"_$E(X,4,$L(X)).", "wanted": "target", "here": "\\$(?:E|EXTRACT)\\(", "since": 1},
  {"name": "SET of a special variable", "advice": "Leave it out: $TEST is set by IF and LOCK alone.", "wanted": "target", "here": "\\$"},
  {"name": "SET $PIECE of several pieces, which needs language 1 of the account's settings", "advice": "Without it: set one piece at a time.", "wanted": "close $PIECE of SET", "here": ",", "since": 1},
  {"name": "SET of a value", "advice": "Left of the = stands a variable, or $PIECE of one.", "wanted": "target", "here": "[\\\"0-9.+'-]"},
  {"name": "an operator of other languages", "advice": "One = sets, and compares.", "wanted": "equals", "here": ":=|=="},
  {"name": "a space within an argument", "advice": "No space stands beside =.", "wanted": "equals", "here": " +="},
  {"name": "the index of FOR has subscripts", "advice": "It is a name alone: F I=1:1:3.", "wanted": "equals", "here": "\\(", "command": "(?:F|FOR) "},
  {"name": "the index of FOR is no name", "advice": "It is a local variable by its name: F I=1:1:3.", "wanted": "name", "here": "\\S", "command": "(?:F|FOR) "},
  {"name": "no = and no value", "advice": "SET and FOR want a variable, = and a value: S A=1; MERGE a variable, = and a variable.", "wanted": "equals"},
  {"name": "LOCK of a naked reference", "advice": "Name the global: L +^X(2).", "wanted": "lockable"},
  {"name": "subscripts in a list of names", "advice": "KILL (A,B) and NEW (A,B) take names alone.", "wanted": "close", "here": "\\(", "command": "(?:K|KILL|N|NEW)(?::\\S+)? (?:\\S*,)?\\("},
  {"name": "an extrinsic function, which needs language 1 of the account's settings", "advice": "Without it: DO the label, which leaves its result in a variable: S A=1 D ADD^R W SUM.", "wanted": "operand", "here": "\\$\\$", "since": 1},
  {"name": "a structured system variable", "advice": "There is none: mglobal knows what a store file has.", "here": "\\$", "before": "\\^"},
  {"name": "$HOROLOG", "advice": "The server has no clock: the client sends the time: S NOW=\"67530,43200\".", "wanted": "operand", "here": "\\$(?:(?:H|HOROLOG)(?![A-Z(]))"},
  {"name": "$TEXT", "advice": "A routine's lines are a global: ^ROUTINE(\"R\",1).", "wanted": "operand", "here": "\\$(?:(?:T|TEXT)\\()"},
  {"name": "$QLENGTH or $QSUBSCRIPT, which needs language 1 of the account's settings", "advice": "Without it: keep subscripts in locals of their own.", "wanted": "operand", "here": "\\$(?:(?:QL|QLENGTH|QS|QSUBSCRIPT)\\()", "since": 1},
  {"name": "$NAME, which needs language 1 of the account's settings", "advice": "Without it: build names by `_` and use them by @.", "wanted": "operand", "here": "\\$(?:(?:NA|NAME)\\()", "since": 1},
  {"name": "$QUERY, which needs language 1 of the account's settings", "advice": "Without it: walk level by level by $ORDER; build names by `_` and use them by @.", "wanted": "operand", "here": "\\$(?:(?:Q|QUERY)\\()", "since": 1},
  {"name": "$INCREMENT, which needs language 1 of the account's settings", "advice": "Without it: read, add and set: S X=$G(X)+1.", "wanted": "operand", "here": "\\$(?:(?:I|INCREMENT)\\()", "since": 1},
  {"name": "$NEXT", "advice": "Use $ORDER, which begins and ends with \"\".", "wanted": "operand", "here": "\\$(?:(?:N|NEXT)\\()"},
  {"name": "$FNUMBER, which needs language 1 of the account's settings", "advice": "Without it: put the text together by $PIECE, $EXTRACT and $JUSTIFY.", "wanted": "operand", "here": "\\$(?:(?:FN|FNUMBER)\\()", "since": 1},
  {"name": "$RANDOM", "advice": "The server answers the same lines alike: the client sends random numbers.", "wanted": "operand", "here": "\\$(?:(?:R|RANDOM)\\()"},
  {"name": "$REVERSE, which needs language 1 of the account's settings", "advice": "Without it: S Y=\"\" F I=$L(X):-1:1 S Y=Y_$E(X,I).", "wanted": "operand", "here": "\\$(?:(?:RE|REVERSE)\\()", "since": 1},
  {"name": "a $Z function or variable", "advice": "It is another system's own.", "wanted": "operand", "here": "\\$(?:Z[A-Z]*)"},
  {"name": "$IO, $JOB, $PRINCIPAL or $STORAGE, which needs language 1 of the account's settings", "advice": "Without it: the client knows its terminal's number, and a text has at most 4,095 characters.", "wanted": "operand", "here": "\\$(?:(?:I|IO|J|JOB|P|PRINCIPAL|S|STORAGE)(?![A-Z(]))", "since": 1},
  {"name": "$X or $Y, which needs language 1 of the account's settings", "advice": "Without it: count what is written: S N=N+$L(A) W A.", "wanted": "operand", "here": "\\$(?:[XY](?![A-Z(]))", "since": 1},
  {"name": "$QUIT, which needs language 1 of the account's settings", "advice": "Without it: leave it out: QUIT takes no value.", "wanted": "operand", "here": "\\$(?:(?:Q|QUIT)(?![A-Z(]))", "since": 1},
  {"name": "a special variable or function that is not there", "advice": "There is $TEST, and at language 1 $IO, $JOB, $PRINCIPAL, $QUIT, $STORAGE, $X and $Y.", "wanted": "operand", "here": "\\$(?:(?:ST|STACK|V|VIEW|INCREMENT|D|DEVICE|K|KEY|SY|SYSTEM|EC|ECODE|ES|ESTACK|ET|ETRAP|TL|TLEVEL|TR|TRESTART)(?![A-Z(])|(?:ST|STACK|V|VIEW)\\()"},
  {"name": "a function that is not there", "advice": "the page of the language, by Help, \"Functions\", has all of them.", "wanted": "operand", "here": "\\$(?:[A-Z]+)"},
  {"name": "$JUSTIFY with three arguments, which needs language 1 of the account's settings", "advice": "Without it: round first: $J(X*100+.5\\1/100,8), for X from 0 on.", "wanted": "close $JUSTIFY", "here": ",", "since": 1},
  {"name": "more arguments than the function takes", "advice": "the page of the language, by Help, \"Functions\", has what each takes.", "wanted": "close $", "here": ","},
  {"name": "the function wants a further argument", "advice": "the page of the language, by Help, \"Functions\", has what each takes.", "wanted": "comma"},
  {"name": "$SELECT without a value", "advice": "Each of its arguments is a condition, a colon and a value: $S(A:1,1:2).", "wanted": "colon"},
  {"name": "the operator **, which needs language 1 of the account's settings", "advice": "Without it: multiply in a loop: S P=1 F I=1:1:N S P=P*X.", "wanted": "operand", "here": "\\*", "before": "\\*", "since": 1},
  {"name": "a group in a pattern, which needs language 1 of the account's settings", "advice": "Without it: test each pattern by itself: X?1N!(X?1A).", "wanted": "pattern", "here": "\\(", "since": 1},
  {"name": "indirection of a pattern, which needs language 1 of the account's settings", "advice": "Without it: put it into a text and run it: S C=\"I X?\"_P X C.", "wanted": "pattern", "here": "@", "since": 1},
  {"name": "no pattern", "advice": "A pattern is a count and what it counts, as 1N, .A or 2\"ab\", in a row; a count has at most four digits.", "wanted": "pattern"},
  {"name": "&& or ||", "advice": "Write & and !, which evaluate both sides.", "wanted": "operand", "here": "&", "before": "&"},
  {"name": "&& or ||", "advice": "Write & and !, which evaluate both sides.", "here": "\\|\\|"},
  {"name": "an operator of other languages", "advice": "Equal is =, not equal '=, not less '<, not greater '>.", "wanted": "operand", "here": "=", "before": "[=!<>]"},
  {"name": "an operator of other languages", "advice": "Equal is =, not equal '=, not less '<, not greater '>.", "wanted": "operand", "here": ">", "before": "<"},
  {"name": "a comment that is not ;", "advice": "Comments begin with ;.", "wanted": "operand", "here": "[/*]", "before": "/"},
  {"name": "a small e as exponent mark", "advice": "Write a large E: 1E3.", "here": "e[+-]?\\d", "before": "[0-9.]"},
  {"name": "a string without its closing quote", "advice": "Within a string \"\" stands for one quote.", "here": "\""},
  {"name": "a name of more than 31 characters", "advice": "Names have at most 31 letters and digits.", "here": "[A-Z%][A-Z0-9]{31,}"},
  {"name": "more than 40 brackets", "advice": "At most 40 brackets and operands of @ may be open at a place.", "wanted": "depth"},
  {"name": "a name is missing", "advice": "A name begins with a letter or %, and goes on with letters and digits.", "wanted": "name"},
  {"name": "an environment without its second |", "advice": "It is ^|\"LAB\"|X.", "wanted": "bar"},
  {"name": "a space within an argument", "advice": "No space stands within an argument: W A,B and S A=1.", "wanted": "operand", "here": " "},
  {"name": "an operand is missing", "advice": "Here stands a number, a string, a variable, a function or an expression in brackets.", "wanted": "operand", "here": "[,):;]|(?![\\s\\S])"},
  {"name": "no operand begins here", "advice": "An operand is a number, a string, a variable, a function or an expression in brackets.", "wanted": "operand"},
  {"name": "a variable is wanted", "advice": "Here stands a variable: A, A(1), ^A(1) or @A.", "wanted": "variable"},
  {"name": "a ) is missing", "advice": "Each ( has its ).", "wanted": "close", "here": "[ ;:]|(?![\\s\\S])"},
  {"name": "a ) without its (", "advice": "Each ( has its ).", "here": "\\)"},
  {"name": "a block in braces", "advice": "Use DO without arguments and lines with one dot more.", "here": "[{}]"},
  {"name": "a condition where none is taken", "advice": "It stands after the command's word: W:A 1.", "here": ":"},
  {"name": "a bracket where none is taken", "advice": "Subscripts stand after a name, and arguments after a function's word; .X hands over a name alone.", "here": "\\("},
  {"name": "a point outside of a number", "advice": "A point has digits after it: 1.5, .5; A.B is no name.", "here": "\\."},
  {"name": "no operator between two operands", "advice": "Write the operator, as _ for joining texts: W \"a\"_\"b\".", "wanted": "operator"},
  {"name": "not in the language", "advice": ""},
];

/** What is said of a character over 127. */
export const OVER = {
  name: "a character over 127",
  advice: "Values and lines are ASCII, comments too: write another character."
};

/** What is said of a line that begins with no label and no space. */
export const NO_LABEL = "a label begins with a letter or %, and has at most 31 letters and digits; a line without one begins with a space";

/** What is said of a label with parameters. */
export const LABEL_PARAMETERS = "Without it: the caller SETs the variables, and the line begins with LABEL and a space.";

/** What is said of brackets after a label that are no formal list. */
export const FORMALS = "A formal list is names with commas between, each once, right after the label: LABEL(A,B).";

/** The language that has formal lists. */
export const PARAMETERS_SINCE = 1;

/** How many characters a line has at most. */
export const LONGEST_LINE = 255;

/** How many characters a text has at most. */
export const LONGEST_TEXT = 4095;

/** How many characters a subscript has at most. */
export const LONGEST_SUBSCRIPT = 255;

/** How many subscripts a node has at most. */
export const MOST_SUBSCRIPTS = 15;

/** How many significant digits a number has at most, and how many places after its point. */
export const DIGITS = 18;

/** How many children of a node one line asks for. */
export const BATCH = 50;

/** How many characters a name of a variable, a label or a routine has at most. */
export const LONGEST_NAME = 31;

/** What a line is sent after to be read and not run. */
export const GUARD = "Q  ";

/** The global that has the account's routines. */
export const ROUTINE = "^ROUTINE";

/** How a local begins that holds what is too long for a line. */
export const LOCAL = "%m";

/** The room that a reference may take in a line. */
export const ROOM = 100;

/** The longest subscript, as a line has it, that a walk goes on after. */
export const LONGEST_START = 55;

/** Parts of texts, as regular expressions. */
export const PATTERNS = {
  name: "[A-Za-z%][A-Za-z0-9]{0,30}",
  number: "(-?)(0|[1-9]\\d*)?(?:\\.(\\d*[1-9]))?",
  reference: "(?:\\^(?:\\|[^|]+\\|)?)?[A-Za-z%][A-Za-z0-9]{0,30}(?:\\(([^]*)\\))?",
  line: "(?:([A-Za-z%][A-Za-z0-9]*)(\\([A-Za-z0-9%,]*\\))?)?([ \\t][ \\t.]*)?([^]*)",
  tab: "(\"(?:[^\"]|\"\")*\"?|;[^]*)|\\t",
  string: "\"(?:[^\"]|\"\")*\"?",
  over: "[^\\x00-\\x7f]",
  command: "[A-Za-z]+(?::\\S+)? "
};

/** What is wrong before the first command of a line, with its parts in the braces. */
export const FAULTS = {
  over: "the character {} is over 127: values and lines are ASCII, comments too",
  label: "the label {} has {} characters",
  parameters: "the label {} has parameters, which need language 1 of the account's settings",
  formals: "after the label {} stands no formal list",
  begin: "the line begins with {}",
  line: "the line has {} characters, too many to check",
  cut: "Cut it in two: {} after label and dots can be checked."
};

/** What the name of a routine's file ends in. */
export const FILE_ENDING = ".m";
