REGU	; texts: names, padding, sounds, check digits
	Q
	;
UP(X)	Q $TR(X,"abcdefghijklmnopqrstuvwxyz","ABCDEFGHIJKLMNOPQRSTUVWXYZ")
LOW(X)	Q $TR(X,"ABCDEFGHIJKLMNOPQRSTUVWXYZ","abcdefghijklmnopqrstuvwxyz")
	;
TRIM(X)	; without spaces at its ends, and one at most within
	F  Q:X'["  "  S X=$P(X,"  ")_" "_$P(X,"  ",2,999)
	S:$E(X)=" " X=$E(X,2,$L(X)) S:$E(X,$L(X))=" " X=$E(X,1,$L(X)-1)
	Q X
	;
NAME(X)	; a name as it is kept: each word begins with a capital
	N I,W,OUT
	S X=$$LOW($$TRIM(X)),OUT=""
	F I=1:1:$L(X," ") S W=$P(X," ",I),OUT=OUT_$S(I>1:" ",1:"")_$$UP($E(W))_$E(W,2,$L(W))
	Q OUT
	;
LEFT(X,N)	; X at the left of N columns
	Q $E(X,1,N)_$J("",N-$L(X))
RULE(N)	; a rule of N columns
	Q $TR($J("",N)," ","-")
	;
SOUND(X)	; how a name sounds: its first letter and three digits
	N I,C,LAST,OUT
	S X=$$UP(X),OUT=$E(X),LAST=$$CLASS(OUT)
	F I=2:1:$L(X) Q:$L(OUT)=4  S C=$$CLASS($E(X,I)) D
	. I C'="",C'=LAST S OUT=OUT_C
	. I "HW"'[$E(X,I) S LAST=C
	. Q
	Q OUT_$E("000",$L(OUT),3)
CLASS(C)	; the digit of a consonant
	I C="" Q ""
	Q $S("BFPV"[C:1,"CGJKQSXZ"[C:2,"DT"[C:3,C="L":4,"MN"[C:5,C="R":6,1:"")
	;
DIGIT(N)	; the check digit: each second digit counts twice
	Q -$$SUM(N,1)#10
SUM(N,TWICE)	; the sum of the digits from the right
	Q:N="" 0
	N D
	S D=$E(N,$L(N)) I TWICE S D=D*2 S:D>9 D=D-9
	Q D+$$SUM($E(N,1,$L(N)-1),'TWICE)
CHECKED(ID)	; whether an id has its check digit
	I ID'?2.N Q 0
	Q $$DIGIT($E(ID,1,$L(ID)-1))=$E(ID,$L(ID))
