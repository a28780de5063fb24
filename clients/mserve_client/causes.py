# SPDX-License-Identifier: Apache-2.0
"""What is wrong with a line that is not in the language, in words: causes, and what to write instead.

A cause is found by what was wanted at the place of the fault, by what is there and before it, and by the command it is in. The first
one of the list counts. tools/page_words.py writes the list out for the page."""
from __future__ import annotations

from dataclasses import dataclass, replace

END = r"(?![\s\S])"


@dataclass(frozen=True, slots=True)
class Cause:
    """A cause: its name, what to write instead, a line that has it; and how it is known: `wanted` begins something that was wanted at the place,
    `here` is found there, `before` ends there, `command` begins the command. `reads` says where a command can be read: `here`, or at the
    `argument` of the command. The fault is shown `back` characters before the place. `since` is the language that has what it names, if one
    does: to its accounts it is no cause."""

    name: str
    advice: str
    example: str
    wanted: str = ""
    here: str = ""
    before: str = ""
    command: str = ""
    reads: str = ""
    back: int = 0
    since: int | None = None


def _later(language: int, cause: Cause) -> Cause:
    """A cause that a later language takes away: its name says which, and its advice is what to write without it."""
    return replace(cause, name=f"{cause.name}, which needs language {language} of the account's settings", advice=f"Without it: {cause.advice}", since=language)


def _word(words: str, name: str, advice: str, example: str) -> Cause:
    """A command that is not there."""
    return Cause(name, advice, example, "command", rf"(?:{words})(?![A-Za-z])")


def _dollar(words: str, name: str, advice: str, example: str) -> Cause:
    """A function or a special variable that is not there."""
    return Cause(name, advice, example, "operand", rf"\$(?:{words})")


_ENTRY = r"(?:D|DO|G|GOTO)(?::\S+)? "
_DO, _GOTO = r"(?:D|DO)(?::\S+)? ", r"(?:G|GOTO)(?::\S+)? "
_QUIT = r"(?:Q|QUIT)(?::\S+)? "
_SET = r"(?:S|SET)(?::\S+)? "
_NEW = r"(?:N|NEW)(?::\S+)? "
_WRITE = r"(?:W|WRITE)(?::\S+)? "
_FOR = r"(?:F|FOR) "
_BARE = r"(?:D|DO|K|KILL|N|NEW|L|LOCK)(?::\S+)? [A-Z]+ "
_COMMENT = r"//|/\*|#;"

_COMMANDS = [
    Cause("a SET without its word", "Write S before it: S A=1.", "A=1", "command", r"\^?[A-Z%][A-Z0-9]*(?:\(\S*\))?="),
    Cause("two spaces follow a command without arguments", "Write a second space, if another command comes after it.", "D W 1", "", r"\S", "", _BARE,
          "argument"),
    Cause("two spaces follow a command without arguments", "Write a second space, if another command comes after it.", "Q W 1", "command", r"\S", "",
          rf"{_QUIT}[A-Z]+ ", "argument"),
    _word("R|READ", "READ", "Nothing is asked for: the caller sets the variable before it runs the line: S NAME=\"Ada\" D ADD.", 'R "Name: ",X'),
    _word("O|OPEN|U|USE|C|CLOSE", "a command of devices",
          "There are no devices: WRITE goes into the reply, and files are the client's: mroutine, mglobal.", "U 0"),
    _word("J|JOB", "JOB", "Lines run one after the other: send the line from another terminal.", "J ^R"),
    _later(1, _word("HANG", "HANG", "leave it out, and wait in the client; nothing waits in the server.", "HANG 5")),
    _later(1, Cause("HANG", "leave it out, and wait in the client; nothing waits in the server.", "H 5", "gap", r"\S", " ", "H(?::\\S+)? ")),
    _word("B|BREAK|V|VIEW", "BREAK or VIEW", "Leave it out: there is no debugger, and no view of memory.", "B  W 1"),
    _later(1, _word("M|MERGE", "MERGE", "copy by a loop of $ORDER and SET, or by mglobal export and import.", "M ^A=^B")),
    _word("TS|TSTART|TC|TCOMMIT|TRO|TROLLBACK|TRE|TRESTART", "a transaction",
          "Lines run one at a time, so nothing comes between; a line that fails keeps what it did: check first, then SET.", "TSTART  W 1"),
    _word("Z[A-Z]*", "a Z command", "It is another system's own: mroutine loads and saves routines, mglobal shows globals.", "ZWRITE ^X"),
    Cause("a comment that is not ;", "Comments begin with ;.", "S X=1 // one", "command", _COMMENT),
    Cause("a block in braces", "Use DO without arguments and lines with one dot more.", "I A {W 1}", "command", r"[{}]"),
    Cause("a space beside an operator", "No space stands within an argument: W 1+2.", "W 1 + 2", "command", r"[-+*/\\#_=<>&!'?\[\]]", r"\S +", back=1),
    Cause("a value without a command", "A line begins with a command: W 1+2 shows a value.", "1+2", "command", r"[\"(0-9.$^@%+'-]", r"^ *"),
    Cause("two expressions need a comma, or two commands one space", "", "W 1 2", "command", r"[^A-Za-z;]", r"\S ", back=1),
    Cause("no command has this name", "SET, KILL, NEW, IF, ELSE, FOR, QUIT, WRITE, DO, GOTO, XECUTE, LOCK and HALT are there, whole or by their first letter, "
          "and HANG and MERGE at language 1; two expressions need a comma between.", "FOO 1", "command", "[A-Z]+"),
    Cause("no command begins here", "A command is a word, as SET or S; between two commands stands one space.", "W 1  ,2", "command", r"\S"),
]
_WORDS = [
    Cause("several values of QUIT", "At language 1 it takes one: set variables before: S A=1,B=2 Q.", "Q A,B", "", "[A-Z0-9]*,", rf"{_QUIT}[^()]*", _QUIT),
    _later(1, Cause("QUIT with a value", "SET a variable, then QUIT: S RESULT=X Q. The caller reads RESULT.", "Q N", "gap", rf"[A-Z]+ *(?:;|{END})", " ",
                    _QUIT)),
    Cause("two spaces follow a command without arguments", "Write a second space, if another command comes after it.", "E W 1", "gap", "", " ", reads="here",
          back=1),
    _later(1, Cause("QUIT with a value", "SET a variable, then QUIT: S RESULT=X Q. The caller reads RESULT.", "Q X+1", "gap", r"\S", " ", _QUIT)),
    Cause("a condition on IF, ELSE or FOR", "Put the condition into the IF, or on the commands after it.", "I:X=1 Y W 1", "", ":", "",
          "(?:I|IF|E|ELSE|F|FOR):"),
    Cause("an argument where none is taken", "Two spaces follow, if another command comes after it.", "E 5", "gap", r"\S", " "),
    Cause("one space stands before an argument, and not more", "Write one space: W 1.", "W  1", "argument", r" +[^ ;]"),
    Cause("an argument is missing", "SET, WRITE, GOTO, XECUTE, MERGE and HANG do nothing without one.", "W 1 W", "argument", rf" *(?:;|{END})"),
    Cause("no space after the command's word", "One space stands between the word and its argument.", 'W"x"', "argument", r"\S"),
    Cause("no space after the command's word", "One space stands between the word and its argument; two follow a command without arguments.", "Q1", "gap",
          r"\S"),
]
_ARGUMENTS = [
    Cause("an offset from a label", "Give that line a label of its own.", "D A+1^R", "", r"\+", "", _ENTRY),
    _later(1, Cause("parameters", "SET variables before the DO, and NEW them in the caller: N A,B S A=1,B=2 D ADD^R.", "D ADD^R(1,2)", "", r"\(",
                    "[A-Z0-9%]", _DO)),
    Cause("parameters of GOTO", "SET variables before it; at language 1 DO takes them: D ADD^R(1,2) Q.", "G ADD^R(1,2)", "", r"\(", "[A-Z0-9%]", _GOTO),
    Cause("indirection of a label or a routine alone", 'Put the whole entry into the text: S E="A^R" D @E.', "D A^@R", "name", "@", r"\^(?:\|\S*)?", _ENTRY),
    Cause("indirection of a label or a routine alone", 'Put the whole entry into the text: S E="A^R" D @E.', "D @A^R", "", r"\^", r"@\S+", _ENTRY),
    Cause("a condition after an @ alone", "Put it on the command: D:X @A.", "D @A:X", "", ":", r"@\S+", _ENTRY),
    Cause("a label of digits", "Labels begin with a letter or %.", "D 1^R", "entry", "[0-9]", "", _ENTRY),
    Cause("an account that is no string between two |", 'Before a routine stands ^|"LIB"|; if a variable has the name: S E="A^|"""_X_"""|R" D @E.',
          "D A^|X|R", "name", r'\|(?!"\.*"\|)|"', r"\^", _ENTRY),
    _later(1, Cause("a routine of another account", "load it into this account: D A^R is one's own.", 'D ^|"B"|R', "name", r"\|", "", _ENTRY)),
    Cause("no label or routine", "DO, GOTO and $$ want a label, a label with its routine, or a routine: D ADD, D ADD^R, D ^R.", "D (A)", "entry"),
    Cause("NEW of a special variable", "Leave it out: there are no $ETRAP, $ESTACK and the like; a line ends at its first code.", "N $ETRAP", "name", r"\$", "",
          _NEW),
    Cause("NEW of a node or a global", "NEW hides local variables by their names: N A,B.", "N A(1)", "", r"[(^]", "", _NEW),
    _later(1, Cause("WRITE #", "leave it out, or write W $C(12).", "W #", "", "#", r"[ ,!]", _WRITE)),
    _later(1, Cause("WRITE ?n", 'fill up by $JUSTIFY, which sets to the right: W $J(X,20); to the left: W X,$J("",20-$L(X)).', "W X,?20", "", r"\?", r"[ ,!]",
                    _WRITE)),
    _later(1, Cause("WRITE *n", "W $C(65).", "W *65", "operand", r"\*", r"[ ,]", _WRITE)),
    Cause("no comma after !", "Write W !,A: a comma stands between two arguments.", "W !A", "", r"[^ ]", "!", rf"{_WRITE}(?:\S*,)?!"),
    _later(1, Cause("SET $EXTRACT", 'put the text together: S X=$E(X,1,2)_"new"_$E(X,4,$L(X)).', 'S $E(X,3)="n"', "target", r"\$(?:E|EXTRACT)\(")),
    Cause("SET of a special variable", "Leave it out: $TEST is set by IF and LOCK alone.", "S $X=0", "target", r"\$"),
    _later(1, Cause("SET $PIECE of several pieces", "set one piece at a time.", 'S $P(X,",",1,2)="a"', "close $PIECE of SET", ",")),
    Cause("SET of a value", "Left of the = stands a variable, or $PIECE of one.", "S 1=A", "target", r"[\"0-9.+'-]"),
    Cause("an operator of other languages", "One = sets, and compares.", "S A:=1", "equals", r":=|=="),
    Cause("a space within an argument", "No space stands beside =.", "S A =1", "equals", r" +="),
    Cause("the index of FOR has subscripts", "It is a name alone: F I=1:1:3.", "F I(1)=1:1:3 W 1", "equals", r"\(", "", _FOR),
    Cause("the index of FOR is no name", "It is a local variable by its name: F I=1:1:3.", "F ^I=1:1:3 W 1", "name", r"\S", "", _FOR),
    Cause("no = and no value", "SET and FOR want a variable, = and a value: S A=1; MERGE a variable, = and a variable.", "S A", "equals"),
    Cause("LOCK of a naked reference", "Name the global: L +^X(2).", "L +^(2)", "lockable"),
    Cause("subscripts in a list of names", "KILL (A,B) and NEW (A,B) take names alone.", "K (A(1))", "close", r"\(", "",
          r"(?:K|KILL|N|NEW)(?::\S+)? (?:\S*,)?\("),
]
_VALUES = [
    _later(1, Cause("an extrinsic function", "DO the label, which leaves its result in a variable: S A=1 D ADD^R W SUM.", "S X=$$ADD^R(1)", "operand",
                    r"\$\$")),
    Cause("a structured system variable", "There is none: mglobal knows what a store file has.", 'W $D(^$GLOBAL("X"))', "", r"\$", r"\^"),
    _dollar(r"(?:H|HOROLOG)(?![A-Z(])", "$HOROLOG", 'The server has no clock: the client sends the time: S NOW="67530,43200".', "S X=$H"),
    _dollar(r"(?:T|TEXT)\(", "$TEXT", 'A routine\'s lines are a global: ^ROUTINE("R",1).', "W $T(A+1)"),
    _later(1, _dollar(r"(?:QL|QLENGTH|QS|QSUBSCRIPT)\(", "$QLENGTH or $QSUBSCRIPT", "keep subscripts in locals of their own.", "W $QL(X)")),
    _later(1, _dollar(r"(?:NA|NAME)\(", "$NAME", "build names by `_` and use them by @.", "S X=$NA(A(1))")),
    _later(1, _dollar(r"(?:Q|QUERY)\(", "$QUERY", "walk level by level by $ORDER; build names by `_` and use them by @.", "S X=$Q(^A)")),
    _later(1, _dollar(r"(?:I|INCREMENT)\(", "$INCREMENT", "read, add and set: S X=$G(X)+1.", "S X=$I(^N)")),
    _dollar(r"(?:N|NEXT)\(", "$NEXT", 'Use $ORDER, which begins and ends with "".', "S X=$N(^A(-1))"),
    _later(1, _dollar(r"(?:FN|FNUMBER)\(", "$FNUMBER", "put the text together by $PIECE, $EXTRACT and $JUSTIFY.", 'W $FN(X,",")')),
    _dollar(r"(?:R|RANDOM)\(", "$RANDOM", "The server answers the same lines alike: the client sends random numbers.", "S X=$R(10)"),
    _later(1, _dollar(r"(?:RE|REVERSE)\(", "$REVERSE", 'S Y="" F I=$L(X):-1:1 S Y=Y_$E(X,I).', "W $RE(X)")),
    _dollar(r"Z[A-Z]*", "a $Z function or variable", "It is another system's own.", "W $ZV"),
    _later(1, _dollar(r"(?:I|IO|J|JOB|P|PRINCIPAL|S|STORAGE)(?![A-Z(])", "$IO, $JOB, $PRINCIPAL or $STORAGE",
                      "the client knows its terminal's number, and a text has at most 4,095 characters.", "S ^TMP($J)=1")),
    _later(1, _dollar(r"[XY](?![A-Z(])", "$X or $Y", "count what is written: S N=N+$L(A) W A.", "I $Y>60 W !")),
    _later(1, _dollar(r"(?:Q|QUIT)(?![A-Z(])", "$QUIT", "leave it out: QUIT takes no value.", "Q:$Q 1 Q")),
    _dollar(r"(?:ST|STACK|V|VIEW|INCREMENT|D|DEVICE|K|KEY|SY|SYSTEM|EC|ECODE|ES|ESTACK|ET|ETRAP|TL|TLEVEL|TR|TRESTART)(?![A-Z(])|"
            r"(?:ST|STACK|V|VIEW)\(", "a special variable or function that is not there",
            "There is $TEST, and at language 1 $IO, $JOB, $PRINCIPAL, $QUIT, $STORAGE, $X and $Y.", "S X=$ST(1)"),
    _dollar("[A-Z]+", "a function that is not there", 'docs/LANGUAGE.md, "Functions", has all of them.', "W $FOO(1)"),
    _later(1, Cause("$JUSTIFY with three arguments", "round first: $J(X*100+.5\\1/100,8), for X from 0 on.", "W $J(X,8,2)", "close $JUSTIFY", ",")),
    Cause("more arguments than the function takes", 'docs/LANGUAGE.md, "Functions", has what each takes.', "W $L(1,2,3)", "close $", ","),
    Cause("the function wants a further argument", 'docs/LANGUAGE.md, "Functions", has what each takes.', "W $F(A)", "comma"),
    Cause("$SELECT without a value", "Each of its arguments is a condition, a colon and a value: $S(A:1,1:2).", "W $S(A)", "colon"),
    _later(1, Cause("the operator **", "multiply in a loop: S P=1 F I=1:1:N S P=P*X.", "W 2**3", "operand", r"\*", r"\*")),
    _later(1, Cause("a group in a pattern", "test each pattern by itself: X?1N!(X?1A).", "W X?1(1N,1A)", "pattern", r"\(")),
    _later(1, Cause("indirection of a pattern", 'put it into a text and run it: S C="I X?"_P X C.', "W X?@P", "pattern", "@")),
    Cause("no pattern", 'A pattern is a count and what it counts, as 1N, .A or 2"ab", in a row; a count has at most four digits.', "W X?A", "pattern"),
    Cause("&& or ||", "Write & and !, which evaluate both sides.", "I A&&B W 1", "operand", "&", "&"),
    Cause("&& or ||", "Write & and !, which evaluate both sides.", "I A||B W 1", "", r"\|\|"),
    Cause("an operator of other languages", "Equal is =, not equal '=, not less '<, not greater '>.", "I A==B W 1", "operand", "=", "[=!<>]"),
    Cause("an operator of other languages", "Equal is =, not equal '=, not less '<, not greater '>.", "I A<>B W 1", "operand", ">", "<"),
    Cause("a comment that is not ;", "Comments begin with ;.", "S X=1//one", "operand", "[/*]", "/"),
    Cause("a small e as exponent mark", "Write a large E: 1E3.", "W 1e3", "", r"e[+-]?\d", r"[0-9.]"),
    Cause("a string without its closing quote", 'Within a string "" stands for one quote.', 'W "no end', "", '"'),
    Cause("a name of more than 31 characters", "Names have at most 31 letters and digits.", "W A" + "x" * 31, "", "[A-Z%][A-Z0-9]{31,}"),
    Cause("more than 40 brackets", "At most 40 brackets and operands of @ may be open at a place.", "W " + "(" * 41 + "1" + ")" * 41, "depth"),
    Cause("a name is missing", "A name begins with a letter or %, and goes on with letters and digits.", "D LAB^", "name"),
    Cause("an environment without its second |", 'It is ^|"LAB"|X.', 'W ^|"LAB"X', "bar"),
    Cause("a space within an argument", "No space stands within an argument: W A,B and S A=1.", "W A, B", "operand", " "),
    Cause("an operand is missing", "Here stands a number, a string, a variable, a function or an expression in brackets.", "S X=", "operand", rf"[,):;]|{END}"),
    Cause("no operand begins here", "An operand is a number, a string, a variable, a function or an expression in brackets.", "S A=#1", "operand"),
    Cause("a variable is wanted", "Here stands a variable: A, A(1), ^A(1) or @A.", "W $D(1)", "variable"),
]
_AFTER = [
    Cause("a tab", "Write a space: a tab is one in a routine's file alone, which the loader turns into a space.", "S X=1\tW X", "", r"\t"),
    Cause("a ) is missing", "Each ( has its ).", "K ^A(1", "close", rf"[ ;:]|{END}"),
    Cause("a ) without its (", "Each ( has its ).", "W 1)", "", r"\)"),
    Cause("a block in braces", "Use DO without arguments and lines with one dot more.", "I A{W 1}", "", r"[{}]"),
    Cause("a condition where none is taken", "It stands after the command's word: W:A 1.", "W 1:A", "", ":"),
    Cause("a bracket where none is taken", "Subscripts stand after a name, and arguments after a function's word; .X hands over a name alone.",
          'W "A"(1)', "", r"\("),
    Cause("a point outside of a number", "A point has digits after it: 1.5, .5; A.B is no name.", "W A.B", "", r"\."),
    Cause("no operator between two operands", 'Write the operator, as _ for joining texts: W "a"_"b".', 'W "a"A', "operator"),
    Cause("not in the language", "", "K A+1"),
]
# The first that fits counts. A tab is one wherever it stands.
CAUSES = [_AFTER[0], *_COMMANDS, *_WORDS, *_ARGUMENTS, *_VALUES, *_AFTER[1:]]
