LCHECK	; check digits: cards and patients' numbers, books, accounts of banks
	Q
	;
LUHN(N,DIGIT)	; DIGIT: what goes behind the digits N; from the right each second one counts twice, the last first
	N I,D,SUM
	S SUM=0
	F I=1:1:$L(N) S D=$E(N,$L(N)-I+1) S:I#2 D=D*2 S:D>9 D=D-9 S SUM=SUM+D
	S DIGIT=-SUM#10
	Q
ISLUHN(N,OK)	; OK: whether the last digit is that of the others
	N DIGIT
	S OK=N?2.N Q:'OK
	D LUHN($E(N,1,$L(N)-1),.DIGIT)
	S OK=DIGIT=$E(N,$L(N))
	Q
ISBN(X,OK)	; OK: whether it is the number of a book, of 13 digits, whatever stands between them
	N I,SUM
	S X=$TR(X,"- "),OK=X?13N,SUM=0 Q:'OK
	F I=1:1:13 S SUM=SUM+($E(X,I)*$S(I#2:1,1:3))
	S OK=SUM#10=0
	Q
IBAN(X,OK)	; OK: whether it is the number of an account: as one large number it leaves 1 by 97
	N I,C,LEFT
	S X=$TR(X," "),OK=X?2U2N1.30UN,LEFT=0 Q:'OK
	S X=$E(X,5,$L(X))_$E(X,1,4)
	F I=1:1:$L(X) S C=$E(X,I) S:C?1U C=$A(C)-55 S LEFT=LEFT_C#97
	S OK=LEFT=1
	Q
