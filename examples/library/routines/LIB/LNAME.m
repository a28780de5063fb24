LNAME	; names: LAST,FIRST in capitals, as they are kept
	Q
	;
KEEP(TEXT,NAME)	; NAME: of what was typed, as Last, First or First Last; empty if a part is missing
	N LAST,FIRST
	S NAME=$TR(TEXT,"abcdefghijklmnopqrstuvwxyz","ABCDEFGHIJKLMNOPQRSTUVWXYZ")
	D TRIM(.NAME)
	I NAME["," S LAST=$P(NAME,","),FIRST=$P(NAME,",",2,99)
	E  S LAST=$P(NAME," ",$L(NAME," ")),FIRST=$P(NAME," ",1,$L(NAME," ")-1)
	D TRIM(.LAST),TRIM(.FIRST)
	S NAME=$S(LAST=""!(FIRST=""):"",1:LAST_","_FIRST)
	Q
TRIM(X)	; without spaces at its ends, and with one at most within
	F  Q:X'["  "  S X=$P(X,"  ")_" "_$P(X,"  ",2,999)
	S:$E(X)=" " X=$E(X,2,$L(X)) S:$E(X,$L(X))=" " X=$E(X,1,$L(X)-1)
	Q
SHOW(NAME,TEXT)	; TEXT: First Last, each word with one capital
	N I,X,WORD
	S X=$P(NAME,",",2)_" "_$P(NAME,","),TEXT=""
	F I=1:1:$L(X," ") S WORD=$P(X," ",I),TEXT=TEXT_$E(" ",I>1)_$E(WORD) D LOWER(.WORD) S TEXT=TEXT_$E(WORD,2,99)
	Q
LOWER(X)	S X=$TR(X,"ABCDEFGHIJKLMNOPQRSTUVWXYZ","abcdefghijklmnopqrstuvwxyz") Q
